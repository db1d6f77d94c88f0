#!/usr/bin/env python3
"""Runs each command with each of its calls on files failing in turn, or being its last.

    failures.py [SEGTOOL] [--only WORD]

The library fail.c counts a command's calls: open, read, write, sync, rename, close, the calls that ask for a file's
metadata, and others. Each call then fails once with each of these errors: no space (ENOSPC), a broken disk (EIO), an
interruption (EINTR), no memory (ENOMEM); it reads or writes only a part; and the command is killed before it and
after it. Afterwards:

- A command that reports success has printed and written what it should.
- Another one reports status 3 with `file NAME` as its whole message, or `fault 1` if memory was refused, and has
  changed no file. It may have written the new file only if the output failed, or if the last sync of a folder did, as
  docs/FORMATS.md states.
- After an interruption, or a part, the command succeeds. Only an interrupted output may fail: no signal interrupts it,
  since the program has no handler for one.
- A killed command leaves the old file or the new one whole, and at most one new file beside it.
- A command that refuses to write over a file still does so: no failure makes it write there.

Prints for each command how often it succeeded and failed. Cases of commands that this segtool doesn't have are left
out, and named at the end. Needs a C compiler."""
import argparse
import errno
import os
import re
import subprocess
import sys
import tempfile
from pathlib import Path

from power import CASES, HERE, MEMORY, Case, Check, Wrong, contents

ERRORS = {name: str(getattr(errno, name)) for name in ("ENOSPC", "EIO", "EINTR", "ENOMEM")}
WAYS = [*ERRORS, "short", "kill", "killed"]

# the calls that a command makes again after an interruption
INTERRUPTED = ("read", "write", "open", "fsync", "fdatasync")

# commands that write no file; those that print much, and one that reads the input
READERS = [
    Case(["check", "large.image"], ""),
    Case(["verify", "counter.image", "increment.client"], ""),
    Case(["stat", "counter.image"], ""),
    Case(["list", "counter.image"], ""),
    Case(["show", "counter.image"], ""),
    Case(["map", "large.image"], ""),
    Case(["trace", "large.image", "fill.client"], ""),
    Case(["print", "fill.client"], ""),
    Case(["run", "counter.image", "fresh.image", "increment.client", "--input", "notes"], "fresh.image"),
    Case(["check", "none"], ""),
    Case(["check", "notes", "--explain"], ""),
    Case(["--version"], ""),
    Case(["verify", "counter.image", "increment.lez", "--explain"], ""),
    Case(["trace", "counter.image", "increment.lez"], ""),
    Case(["run", "counter.image", "fresh.image", "warned.lez"], "fresh.image"),
    Case(["compile", "notes", "fresh.client"], ""),
    Case(["types", "filled.image"], "", is_new=True),
    Case(["check", "large.image", "--json"], ""),
    Case(["check", "notes", "--json"], ""),
    Case(["show", "filled.image", "--json"], ""),
    Case(["map", "large.image", "--json"], ""),
    Case(["verify", "counter.image", "increment.text", "--explain"], ""),
    Case(["trace", "counter.image", "increment.text"], ""),
    Case(["run", "counter.image", "fresh.image", "increment.text", "--keep-on-failure"], "fresh.image"),
    Case(["get", "counter.image", "x"], "", is_new=True),
    Case(["get", "filled.image", "lines[1]"], "", is_new=True),
    Case(["dump", "filled.image"], "", is_new=True),
    Case(["diff", "counter.image", "filled.image"], "", is_new=True),
    Case(["set", "counter.image", "none", "7"], "", is_new=True),
    Case(["del", "counter.image", "none"], "", is_new=True),
    Case(["load", "increment.text", "fresh.image"], "", is_new=True),
]

# commands that refuse to write over a file
REFUSED = [
    Case(["new", "notes", "4096", "best", "tree"], ""),
    Case(["asm", "increment.text", "notes"], ""),
    Case(["asm", "increment.text", "increment.text", "--force"], ""),
    Case(["map", "large.image", "--svg", "notes"], ""),
    Case(["map", "large.image", "--svg", "large.image", "--force"], ""),
    Case(["run", "counter.image", "notes", "increment.client"], ""),
    Case(["run", "counter.image", "increment.client", "increment.client", "--force"], ""),
    Case(["run", "counter.image", "notes", "increment.client", "--input", "notes", "--force"], ""),
    Case(["compile", "increment.lez", "notes"], ""),
    Case(["compile", "increment.lez", "increment.lez", "--force"], ""),
    Case(["compile", "increment.lez", "counter.image", "--on", "counter.image", "--force"], ""),
    Case(["load", "filled.dump", "notes"], "", is_new=True),
    Case(["load", "filled.dump", "filled.dump", "--force"], "", is_new=True),
]


class Failures(Check):
    """Runs commands with failing calls, and judges what they do."""

    def __init__(self, segtool, work):
        super().__init__(segtool, work)
        self.failing = work / "fail.so"
        subprocess.run(["cc", "-O1", "-shared", "-fPIC", "-o", self.failing, HERE / "fail.c", "-ldl"], check=True)

    def calls(self, case):
        """The command's calls on files."""
        folder, log = self.copy(case), self.work / "calls"
        log.unlink(missing_ok=True)
        self.run(folder, case.words, ALL_CALLS=str(log), LD_PRELOAD=str(self.failing))
        return log.read_text().splitlines() if log.exists() else []

    def try_case(self, case):
        """All failures of a command: how many there were, and how many ended in success."""
        folder = self.copy(case)
        before = contents(folder)
        wanted = self.run(folder, case.words)
        after = contents(folder)
        tried, done, wrong = 0, 0, []
        for number, call in enumerate(self.calls(case), 1):
            for way in WAYS:
                folder = self.copy(case)
                ran = self.run(folder, case.words, FAIL_AT=str(number), FAIL_WITH=ERRORS.get(way, way),
                               LD_PRELOAD=str(self.failing))
                tried += 1
                now = contents(folder)
                why = self.judge_failure(case, call, way, ran, wanted, now, before, after)
                if why:
                    wrong.append(f"call {number}, {call}, {way}: {why} (status {ran.returncode}, {ran.stderr[:80]})")
                done += ran.returncode == wanted.returncode
        return tried, done, wrong

    def judge_failure(self, case, call, way, ran, wanted, now, before, after):
        """What is wrong with a command that met a failure, or None."""
        name, descriptor = call.split(" ")
        is_new, is_old = now == after, now == before
        if ran.returncode < 0:
            return self.judge_killed(case, now, before, after) if way in ("kill", "killed") else "killed by a signal"
        untold = name.startswith("write") and descriptor == "2"
        if ran.returncode == wanted.returncode and (ran.stderr == wanted.stderr or untold):
            if not is_new:
                return "the files are wrong"
            return None if ran.stdout == wanted.stdout else "it printed something else"
        error = ran.stderr.removeprefix(wanted.stderr)  # warnings come before a failure
        told, explanation = error.decode().split("\n", 1) if error else ("", "")
        if explanation and "--explain" not in case.words:
            return "a message of several lines"
        if "--explain" in case.words and ran.returncode == wanted.returncode and wanted.stderr.startswith(told.encode()):
            return None if is_new else "the files are wrong"
        is_output = descriptor == "1" and name.startswith("write")
        if way == "short" or way == "EINTR" and name in INTERRUPTED and not is_output:
            return "it doesn't continue"
        late = call == "fsync -1" and is_new
        if way == "ENOMEM" and ran.returncode == 1 and told == "fault 1":
            return None if is_old or late else "it is out of memory, and a file has changed"
        told = re.fullmatch(r"file (\S+)", told)
        if ran.returncode != 3 or not told or told[1] not in [*case.words, "-"]:
            return "another status or message"
        if told[1] == "-":
            return None if is_old or is_new else "the output failed, and the files are wrong"
        if not wanted.stdout.startswith(ran.stdout):
            return "it printed something else"
        return None if is_old or late else "it failed, and a file has changed"

    def judge_killed(self, case, now, before, after):
        """A killed command leaves the old file or the new one, and at most one file beside it."""
        target = case.target
        if target and now.get(target) not in (before.get(target), after[target]):
            return f"{target} is neither the old file nor the new one"
        others = [name for name in now.keys() | before.keys() if name != target and now.get(name) != before.get(name)]
        pattern = re.compile(re.escape(target) + r"\.[1-9][0-9]*\.new")
        beside = [name for name in others if pattern.fullmatch(name) and name not in before]
        return None if others == beside and len(beside) <= 1 else f"changed: {' '.join(others)}"


def main():
    parser = argparse.ArgumentParser(description=__doc__.partition("\n\n")[0])
    parser.add_argument("segtool", nargs="?", default=HERE.parent / "crates/segtool/out/segtool", type=Path)
    parser.add_argument("--only", default="", help="only commands with this word")
    given = parser.parse_args()
    all_tried, all_wrong = 0, 0
    with tempfile.TemporaryDirectory(dir=MEMORY) as work:
        try:
            check = Failures(given.segtool.resolve(), Path(work).resolve())
        except Wrong as why:
            print(why)
            return 1
        cases, lacking = check.cases([*CASES, *READERS, *REFUSED], given.only)
        for case in cases:
            line = " ".join(case.words)
            tried, done, wrong = check.try_case(case)
            print(f"{line}: {tried} failures, {done} without effect, {len(wrong)} wrong")
            print("".join(f"  {it}\n" for it in wrong), end="")
            all_tried, all_wrong = all_tried + tried, all_wrong + len(wrong)
    if lacking:
        print(f"this segtool doesn't have: {', '.join(sorted(lacking))}")
    print(f"{len(cases)} commands, {all_tried} failures, {all_wrong} wrong")
    return all_wrong > 0


if __name__ == "__main__":
    sys.exit(main())
