#!/usr/bin/env python3
"""Proves and builds the page's module, web/out/lezgauri.wasm, and copies the examples beside it.

The toolchain's gate, `rt ci`, takes no crate for WebAssembly. So the module's crates are in web/module with `.in` after the names of
their files, and this lays them out beside the crates that they use, in a folder of their own. A module has no C library and so none
of its memory: in the copies, the crates that print and those of the compiler take the page's memory instead, and are proved again with it."""
import argparse
import functools
import importlib.machinery
import importlib.util
import os
import re
import shutil
import subprocess
import sys
import tempfile
from pathlib import Path

ROOT = Path(__file__).resolve().parent.parent
sys.path.insert(0, str(ROOT))
from build import NO_TOOLCHAIN, lay_apart, needed, read_crates, write  # noqa: E402

MODULE = "lezgauri_web"
# The crate that declares the page's functions.
HOST = "web_host"
# The crates that take their memory from the C library, and so are changed in the copies.
PRINTING = ("cli_show", "cli_explain", "client_trace")
COMPILING = ("script_syntax", "script_code", "script_values", "script_statements", "script_compile")
CHANGED = (*PRINTING, *COMPILING)
USED = ("lezgauri", "client_vm", *PRINTING, "script_compile")
PROGRAMS = ("cache", "configure", "count", "increment", "notice", "publish", "settings")
EXAMPLES = ("counter.image", *(f"{name}.{suffix}" for name in PROGRAMS for suffix in ("lez", "text")))


def with_page_memory(text):
    """A source file with the page's memory in the place of the C library's."""
    text = re.sub(r"use std::alloc::\{AllocError, Global\};", "use std::alloc::AllocError;", text)
    text = re.sub(r"use std::alloc::Global;\n", "", text)
    lines = []
    for line in text.split("\n"):
        if not line.lstrip().startswith(("//", "ghost ", "use ")):
            line = re.sub(r"\bGlobal\b", "HostHeap", line)
            line = re.sub(r"\b(String|Writer)\b(?!::|<)", r"\1<HostHeap>", line)
            line = with_allocator(line)
        lines.append(line)
    text = "\n".join(lines)
    return with_import(text) if "HostHeap" in text else text


def with_import(text):
    """A source file that imports the page's memory: before its other imports, or else after its first comment."""
    place = re.search(r"^use ", text, re.M) or re.search(r"^(?!//!)", text, re.M)
    return f"{text[:place.start()]}use {HOST}::HostHeap;\n{text[place.start():]}"


def with_allocator(line):
    """A line in which each `Vec` and each `VecDeque` also names the page's memory."""
    at = 0
    while found := re.compile(r"\bVec(?:Deque)?<").search(line, at):
        end, depth = found.end(), 1
        while depth:
            depth += {"<": 1, ">": -1}.get(line[end], 0)
            end += 1
        line = f"{line[:end - 1]}, HostHeap{line[end - 1:]}"
        at = found.end()
    return line


def lay_crate(crates_folder, name, proved):
    """Lays out a crate of the repository: the files that a proof reads, and what was proved of it, if that is given."""
    source = ROOT / "crates" / name
    for part in ("src", "specs", "proofs"):
        for file in sorted((source / part).rglob("*")):
            if file.is_file():
                text = file.read_text(encoding="utf-8")
                if name in CHANGED and file.suffix == ".rt":
                    text = with_page_memory(text)
                write(crates_folder / name / file.relative_to(source), text)
    library = proved / "crates" / name / "out" / "rlib"
    to = crates_folder / name / "out" / "rlib"
    if name not in CHANGED and library.is_dir() and not to.is_dir():
        shutil.copytree(library, to)


def lay(folder, proved):
    """Lays out the module's crates and those below them as a repository."""
    crates = read_crates()
    wanted = {}
    for name in USED:
        wanted |= needed(crates, name)
    crates_folder = folder / "crates"
    rows = []
    for name in sorted(wanted):
        lay_crate(crates_folder, name, proved)
        rows.append(f"{crates[name][1]} {HOST}" if name in CHANGED else crates[name][1])
    for name in (HOST, MODULE):
        lay_apart(ROOT / "web" / "module" / name, crates_folder / name)
    rows += [f"{HOST}: libc", f"{MODULE} wasm64: {HOST} {' '.join(USED)}"]
    write(folder / "crates.txt", "".join(f"{row}\n" for row in rows))
    (folder / ".git").mkdir(exist_ok=True)


def accept(folder):
    """Has `rt lib` take the libraries that were copied. Those that the gate built have no stamp, by which `rt lib` knows them."""
    kit = Path(shutil.which("rt")).resolve().parent
    loader = importlib.machinery.SourceFileLoader("rtlib", str(kit / "rtlib.py"))
    rtlib = importlib.util.module_from_spec(importlib.util.spec_from_loader("rtlib", loader))
    sys.modules["rtlib"] = rtlib
    loader.exec_module(rtlib)
    rtlib.Crate.stamp = functools.cache(rtlib.Crate.stamp)
    top = rtlib.Crate(str(folder / "crates" / MODULE), str(folder), {})
    for crate in top.below():
        stamp = Path(crate.folder) / "out" / "rlib" / "stamp"
        if crate.name not in (HOST, *CHANGED) and Path(crate.rlib).is_dir() and not stamp.exists():
            stamp.write_text(crate.stamp(), encoding="utf-8")


def publish(module):
    """Copies the module and the examples to where the page reads them."""
    out = ROOT / "web" / "out"
    (out / "examples").mkdir(parents=True, exist_ok=True)
    shutil.copy2(module, out / "lezgauri.wasm")
    for name in EXAMPLES:
        shutil.copy2(ROOT / "examples" / name, out / "examples" / name)


def build(folder, proved, jobs):
    lay(folder, proved)
    accept(folder)
    crate = folder / "crates" / MODULE
    environment = {**os.environ, "RT_ALLOW_C": HOST}
    status = subprocess.run(["rt", "lib", "--jobs", str(jobs)], cwd=crate, env=environment).returncode
    if status == 0:
        publish(crate / "out" / f"{MODULE}.wasm")
    return status


def main():
    parser = argparse.ArgumentParser(description=__doc__.partition("\n\n")[0])
    parser.add_argument("--work", type=Path, metavar="DIR",
                        help="keep what is proved in this folder, outside the repository, for the next build")
    parser.add_argument("--proved", type=Path, metavar="DIR", default=ROOT,
                        help="a copy of this repository with the same files, whose crates are proved [default: this one]")
    parser.add_argument("--jobs", type=int, default=os.cpu_count(), metavar="N", help="processes of the prover [default: %(default)s]")
    words = parser.parse_args()
    if shutil.which("rt") is None:
        print(NO_TOOLCHAIN, file=sys.stderr)
        return 2
    if words.work:
        words.work.mkdir(parents=True, exist_ok=True)
        return build(words.work.resolve(), words.proved.resolve(), words.jobs)
    with tempfile.TemporaryDirectory() as folder:
        return build(Path(folder), words.proved.resolve(), words.jobs)


if __name__ == "__main__":
    sys.exit(main())
