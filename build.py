#!/usr/bin/env python3
"""Proves and builds the program segtool, crates/segtool/out/segtool, the library for C, or the host program of bench/.

A program is built by the gate, `rt ci`, of a copy of the crates that it stands on, without the edits that the prover must refuse, so
that each crate is proved once. What the prover says is kept beside what is built, in build.log."""
import argparse
import os
import re
import shutil
import subprocess
import sys
import tempfile
import time
from pathlib import Path

ROOT = Path(__file__).resolve().parent
PROGRAMS = ("segtool", "bench_calls")
LIBRARY = "lezgauri_c"
# Crates that the gate doesn't prove: their folders, where the files end in `.in`, and their lines of a `crates.txt`.
APART = {"bench_calls": (ROOT / "bench" / "host", "bench_calls: seg_manager lezgauri cli_host")}
NO_TOOLCHAIN = """The command `rt` of Rattle's toolchain isn't on the path, so nothing can be proved or built.
README.md says under "What is proved" which release of it this repository is proved with."""


# A proof takes at most this much memory, in kilobytes. `rt ci` sets more aside for large crates, and then leaves processors idle.
PROOF = 4_500_000


def lanes():
    """How many crates to prove at a time."""
    memory = re.search(r"^MemAvailable: +(\d+)", Path("/proc/meminfo").read_text(encoding="ascii"), re.M)
    return max(1, min(os.cpu_count() or 1, int(memory[1]) // PROOF))


def read_crates():
    """The libraries that each crate uses, and its line of `crates.txt`."""
    found = {}
    lines = (ROOT / "crates.txt").read_text(encoding="utf-8").splitlines()
    for line in (*lines, *(line for _, line in APART.values())):
        name, colon, used = line.partition("#")[0].partition(":")
        if colon:
            found[name.split()[0]] = (used.split(), line)
    return found


def needed(crates, name):
    """A crate, and those of this repository that it stands on, with what each of them uses of this repository."""
    found, left = {}, [name]
    while left:
        it = left.pop()
        if it in crates and it not in found:
            found[it] = [used for used in crates[it][0] if used in crates]
            left += crates[it][0]
    return found


def write(file, text):
    """Writes a file, unless it has this text, so that what was proved of it stays."""
    if not file.is_file() or file.read_text(encoding="utf-8") != text:
        file.parent.mkdir(parents=True, exist_ok=True)
        file.write_text(text, encoding="utf-8")


def lay_apart(source, to):
    """Lays out a crate that isn't in crates/, without the `.in` after the names of its files."""
    for file in sorted(source.rglob("*")):
        place = file.relative_to(source)
        if file.is_file() and place.parts[0] != "out":
            write(to / (place.with_suffix("") if place.suffix == ".in" else place), file.read_text(encoding="utf-8"))


def folder_of(name):
    """The folder of a crate."""
    return APART[name][0] if name in APART else ROOT / "crates" / name


def lay(copy, crates, wanted):
    """Lays crates out as a repository of their own."""
    for it in wanted:
        if it in APART:
            lay_apart(folder_of(it), copy / "crates" / it)
        else:
            shutil.copytree(folder_of(it), copy / "crates" / it, ignore=shutil.ignore_patterns("out", "must-fail"))
    (copy / "crates.txt").write_text("".join(f"{crates[it][1]}\n" for it in sorted(wanted)), encoding="utf-8")
    shutil.copy2(ROOT / "HANDLES", copy)


class Progress:
    """One line that says how many crates are done, for how long it has run, and which crates can be proved now."""

    def __init__(self, wanted):
        self.wanted, self.done, self.begun = wanted, set(), time.monotonic()

    def tell(self, done):
        self.done.add(done)
        ready = [it for it, used in self.wanted.items() if it not in self.done and self.done.issuperset(used)]
        minutes = (time.monotonic() - self.begun) / 60
        text = f"{len(self.done)} of {len(self.wanted)} crates, {minutes:.0f} min; now {', '.join(sorted(ready)) or 'the last tests'}"
        if sys.stderr.isatty():
            width = shutil.get_terminal_size().columns
            print(f"\r{text[:width - 1]:<{width - 1}}", end="", file=sys.stderr, flush=True)
        else:
            print(text, file=sys.stderr, flush=True)

    def end(self):
        if sys.stderr.isatty():
            print(file=sys.stderr)


def follow(command, folder, log, wanted):
    """Runs a command, keeps what it says in a file, and shows how far it is. False where it fails: then the file's end is printed."""
    progress = Progress(wanted)
    log.parent.mkdir(exist_ok=True)
    with log.open("w", encoding="utf-8") as file:
        running = subprocess.Popen(command, cwd=folder, stdout=subprocess.PIPE, stderr=subprocess.STDOUT, text=True)
        for line in running.stdout:
            file.write(line)
            file.flush()
            proved = re.match(r"rt: (\w+) (?:proved|is kept)\b", line)
            if proved and proved[1] in wanted:
                progress.tell(proved[1])
    progress.end()
    if running.wait():
        tail = log.read_text(encoding="utf-8").splitlines()[-20:]
        print("\n".join(tail), f"It failed; all that was said is in {log}", sep="\n", file=sys.stderr)
    return running.returncode == 0


def build_program(crates, name):
    """Proves a program and all below it, and leaves it in its crate's folder `out`."""
    wanted = needed(crates, name)
    out = folder_of(name) / "out"
    with tempfile.TemporaryDirectory() as room:
        copy = Path(room)
        lay(copy, crates, wanted)
        if not follow(["rt", "ci"], copy, out / "build.log", wanted):
            return False
        shutil.copy2(copy / "crates" / name / "out" / name, out / name)
    return True


def build_library(crates):
    """Proves the library for C and all below it, and packs it with the calls of its header."""
    folder = ROOT / "crates" / LIBRARY
    return follow([folder / "build.sh"], folder, folder / "out" / "build.log", needed(crates, LIBRARY))


def main():
    parser = argparse.ArgumentParser(description=__doc__.partition("\n\n")[0])
    parser.add_argument("name", nargs="?", choices=(*PROGRAMS, LIBRARY), default=PROGRAMS[0], help="[default: %(default)s]")
    name = parser.parse_args().name
    if shutil.which("rt") is None:
        print(NO_TOOLCHAIN, file=sys.stderr)
        return 2
    crates = read_crates()
    built = build_library(crates) if name == LIBRARY else build_program(crates, name)
    return 0 if built else 1


if __name__ == "__main__":
    os.environ["PYTHONUNBUFFERED"] = "1"
    os.environ.setdefault("RT_JOBS", str(lanes()))
    sys.exit(main())
