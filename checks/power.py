#!/usr/bin/env python3
"""Cuts the power, in a model of a file system, at each moment of each command that writes a file.

    power.py [SEGTOOL] [--only WORD]

The library power.c records what a command does to files. Each prefix of the record is then replayed on a copy of the
folder, in each state that the disk may be in after a power cut. The model promises less than most file systems:

- A write is on the disk for sure only after a sync of its file. Until then each of its pages may be there, or not, or
  only its first sectors of 512 bytes; and the file may have its new length, with zeros where a page is missing.
- The making, renaming and removing of a name are on the disk for sure only after a sync of the folder. Until then
  each of them may be there or not, in any combination, and the old name may be there beside the new one. A name
  always refers to one whole file.

In each state the file that the command writes must be the old one or the new one, byte for byte; after a success it
must be the new one. Every other file must be as it was, except new files with the names that docs/FORMATS.md
promises. `segtool check` must accept each image, and the same command must work on what the power cut left.

Cases of commands that this segtool doesn't have are left out, and named at the end.

At the end the check is checked: with a kind of sync left out of the record, it must find a wrong state. Needs a C
compiler."""
import argparse
import itertools
import os
import random
import re
import shutil
import subprocess
import sys
import tempfile
from dataclasses import dataclass
from pathlib import Path

HERE = Path(__file__).resolve().parent

# a folder in memory, if the system has one, so that no disk takes time
MEMORY = "/dev/shm" if os.path.isdir("/dev/shm") else None
PAGE = 4096
SECTOR = 512
MOST_PIECES = 8
RANDOM_SUBSETS = 64

# a client that fills texts, so that its image differs from the old one in each page
FILL = """type i64
type str
type list t1
text 0123456789012345678901234567890123456789012345678901234567890123456789
name lines
FINDOR r0 - t2 k1
  CONST r2 1
  WHILE r2 100000
    PUSH r3 r0
      SETS r4 r3 k0
      ELSE
        CONST r2 0
      END
    ELSE
      CONST r2 0
    END
  END
ELSE
END
"""


# a program that the compiler warns of, since nothing handles the end of memory
WARNED = """object runs: int
runs += 1
print runs ?? 0
"""


@dataclass
class Case:
    """A command, the file that it writes, and the links of the folder. If `absent` is set, the command has nothing to do
    on the new file: there it ends with status 1 and this line. If `is_new` is set, a segtool may be without the
    command."""

    words: list
    target: str
    link: str = ""
    absent: str = ""
    is_new: bool = False


CASES = [
    Case(["new", "fresh.image", "4096", "best", "tree"], "fresh.image"),
    Case(["new", "large.image", "8192", "seq", "flat"], "large.image"),
    Case(["new", "notes", "20000", "seq", "flat", "--force"], "notes"),
    Case(["run", "counter.image", "counter.image", "increment.client"], "counter.image"),
    Case(["run", "counter.image", "fresh.image", "increment.client"], "fresh.image"),
    Case(["run", "counter.image", "large.image", "increment.client"], "large.image"),
    Case(["run", "large.image", "large.image", "fill.client"], "large.image"),
    Case(["run", "large.image", "link.image", "fill.client"], "folder/other.image", "link.image"),
    Case(["grow", "large.image", "4096"], "large.image"),
    Case(["shrink", "large.image"], "large.image"),
    Case(["upgrade", "counter.image"], "counter.image"),
    Case(["asm", "increment.text", "fresh.client"], "fresh.client"),
    # the file has these bytes already
    Case(["asm", "increment.text", "increment.client"], "increment.client"),
    Case(["asm", "increment.text", "fill.client"], "fill.client"),
    Case(["map", "large.image", "--svg", "fresh.svg"], "fresh.svg"),
    Case(["map", "counter.image", "--svg", "picture.svg"], "picture.svg"),
    Case(["compile", "increment.lez", "fresh.client"], "fresh.client"),
    Case(["compile", "increment.lez", "fill.client", "--on", "counter.image"], "fill.client"),
    Case(["compile", "warned.lez", "notes", "--force"], "notes"),
    Case(["run", "counter.image", "counter.image", "increment.lez"], "counter.image"),
    Case(["run", "counter.image", "counter.image", "increment.text"], "counter.image"),
    Case(["run", "counter.image", "large.image", "increment.client", "--keep-on-failure"], "large.image"),
    Case(["set", "counter.image", "x", "7"], "counter.image", is_new=True),
    Case(["set", "filled.image", "lines[1]", "another line"], "filled.image", is_new=True),
    Case(["del", "counter.image", "x"], "counter.image", absent="absent x", is_new=True),
    Case(["del", "filled.image", "lines"], "filled.image", absent="absent lines", is_new=True),
    Case(["load", "filled.dump", "fresh.image"], "fresh.image", is_new=True),
    Case(["load", "filled.dump", "large.image"], "large.image", is_new=True),
]


@dataclass
class Call:
    """A recorded call on a file or a folder. `what` is `write`, `truncate`, `sync`, `name` or `sync-folder`."""

    what: str
    file: int = 0
    at: int = 0
    bytes: bytes = b""
    old: str = ""
    new: str = ""
    folder: str = ""


def contents(folder):
    """The bytes of each file below a folder, by its path. A link counts as its target's name."""
    found = {}
    for path in sorted(folder.rglob("*")):
        name = str(path.relative_to(folder))
        if path.is_symlink():
            found[name] = b"-> " + os.readlink(path).encode()
        elif path.is_file():
            found[name] = path.read_bytes()
    return found


class Wrong(Exception):
    """A state that a power cut may not leave."""


class Recorded:
    """The calls of a command on the files of a folder, from the lines of power.c."""

    def __init__(self, folder, log, start):
        self.folder, self.calls = folder, []
        self.names = {name: number for number, name in enumerate(start)}
        self.data = {self.names[name]: bytes for name, bytes in start.items()}
        self.live = dict(self.names)
        self.open, self.made = {}, len(start)
        for line in log.read_text().splitlines():
            self.read(line.split(" "))

    def inside(self, path):
        folder = f"{self.folder}/"
        return path[len(folder):] if path.startswith(folder) else "." if path == str(self.folder) else None

    def read(self, words):
        what, *rest = words
        if what == "open":
            self.read_open(*rest)
        elif what == "close":
            self.open.pop(rest[0], None)
        elif what in ("rename", "link", "unlink"):
            self.read_name(what, [self.inside(path) for path in rest])
        elif what == "unknown":
            raise Wrong(f"a call that the model doesn't know: {' '.join(rest)}")
        elif rest[0] in self.open:
            kind, it = self.open[rest[0]]
            if what == "sync" and kind == "folder":
                self.calls.append(Call("sync-folder", folder=it))
            elif what == "sync":
                self.calls.append(Call("sync", file=it))
            elif what == "write":
                self.calls.append(Call("write", file=it, at=int(rest[1]), bytes=bytes.fromhex(rest[2])))
            elif what == "truncate":
                self.calls.append(Call("truncate", file=it, at=int(rest[1])))

    def read_open(self, descriptor, _inode, kind, made, emptied, path):
        name = self.inside(path)
        if name is None or kind == "other":
            return
        if kind == "folder":
            self.open[descriptor] = (kind, name)
            return
        if made == "1":
            self.live[name] = self.made
            self.made += 1
            self.calls.append(Call("name", file=self.live[name], new=name))
        self.open[descriptor] = (kind, self.live[name])
        if made == "0" and emptied == "1":
            self.calls.append(Call("truncate", file=self.live[name]))

    def read_name(self, what, paths):
        if None in paths:
            raise Wrong(f"{what} outside the folder")
        file = self.live[paths[0]]
        old, new = (paths[0], paths[1]) if what == "rename" else ("", paths[1]) if what == "link" else (paths[0], "")
        if old:
            del self.live[old]
        if new:
            self.live[new] = file
        self.calls.append(Call("name", file=file, old=old, new=new))


def folder_of(name):
    return os.path.dirname(name) or "."


def written(data, call):
    """A file's bytes after a write or a change of its length."""
    if call.what == "truncate":
        return data[:call.at].ljust(call.at, b"\0")
    return data[:call.at].ljust(call.at, b"\0") + call.bytes + data[call.at + len(call.bytes):]


def named(names, call, keeps_old=False):
    """The names of a folder after a name was made, changed or removed."""
    names = dict(names)
    if call.old and not keeps_old:
        names.pop(call.old, None)
    if call.new:
        names[call.new] = call.file
    return names


def pieces(call):
    """The parts of a write that reach the disk one by one."""
    if call.what == "truncate":
        return [call]
    found, at, rest = [], call.at, call.bytes
    while rest:
        room = PAGE - at % PAGE
        found.append(Call("write", file=call.file, at=at, bytes=rest[:room]))
        at, rest = at + room, rest[room:]
    return found


def subsets(all_pieces, random_source):
    """Sets of pieces, in order, that may be on the disk: all sets if there are few pieces."""
    count = len(all_pieces)
    if count <= MOST_PIECES:
        for size in range(count + 1):
            yield from itertools.combinations(all_pieces, size)
        return
    yield from (all_pieces[:size] for size in range(count + 1))
    yield from (all_pieces[size:] for size in range(1, count))
    for index in range(count):
        yield [all_pieces[index]]
        yield all_pieces[:index] + all_pieces[index + 1:]
    for _ in range(RANDOM_SUBSETS):
        yield [it for it in all_pieces if random_source.random() < 0.5]


def torn(all_pieces):
    """Sets of pieces of which one is cut at a sector: with no other piece, and with all."""
    for index, piece in enumerate(all_pieces):
        for cut in range(SECTOR, len(piece.bytes), SECTOR):
            part = Call("write", file=piece.file, at=piece.at, bytes=piece.bytes[:cut])
            yield [part]
            yield all_pieces[:index] + [part] + all_pieces[index + 1:]


def file_states(data, pending, random_source):
    """The bytes that a file may have on the disk."""
    all_pieces = [piece for call in pending for piece in pieces(call)]
    length = len(data)
    for call in pending:
        length = len(written(b"\0" * length, call))
    found = set()
    for chosen in itertools.chain(subsets(all_pieces, random_source), torn(all_pieces)):
        bytes = data
        for piece in chosen:
            bytes = written(bytes, piece)
        found.add(bytes)
        found.add(bytes[:length].ljust(length, b"\0"))
    return found


def name_states(names, pending):
    """The names that a folder may have on the disk."""
    found = []
    for size in range(len(pending) + 1):
        for chosen in itertools.combinations(pending, size):
            renamings = [index for index, call in enumerate(chosen) if call.old and call.new]
            for halves in itertools.product((False, True), repeat=len(renamings)):
                now = names
                for index, call in enumerate(chosen):
                    now = named(now, call, index in renamings and halves[renamings.index(index)])
                if now not in found:
                    found.append(now)
    return found


def states(recorded, count, without, random_source):
    """The files that may be on the disk after so many calls, by their names."""
    names, data = dict(recorded.names), dict(recorded.data)
    pending_names, pending = [], {}
    for call in recorded.calls[:count]:
        if call.what == without:
            continue
        if call.what == "sync":
            for one in pending.pop(call.file, []):
                data[call.file] = written(data.get(call.file, b""), one)
        elif call.what == "sync-folder":
            kept = []
            for one in pending_names:
                if call.folder in {folder_of(name) for name in (one.old, one.new) if name}:
                    names = named(names, one)
                else:
                    kept.append(one)
            pending_names = kept
        elif call.what == "name":
            pending_names.append(call)
        else:
            pending.setdefault(call.file, []).append(call)
    choices = {file: file_states(data.get(file, b""), calls, random_source) for file, calls in pending.items()}
    for now in name_states(names, pending_names):
        files = [file for file in choices if file in now.values()]
        for chosen in itertools.product(*(choices[file] for file in files)):
            bytes = {**data, **dict(zip(files, chosen))}
            yield {name: bytes.get(file, b"") for name, file in now.items()}


class Check:
    """Runs commands, and judges what a power cut leaves of each."""

    def __init__(self, segtool, work):
        self.segtool, self.work, self.commands = segtool, work, {}
        self.files, self.library = work / "files", work / "power.so"
        subprocess.run(["cc", "-O1", "-shared", "-fPIC", "-o", self.library, HERE / "power.c", "-ldl"], check=True)
        self.fill()

    def run(self, folder, words, **environment):
        return subprocess.run([self.segtool, *words], cwd=folder, stdin=subprocess.DEVNULL, capture_output=True,
                              check=False, env={**os.environ, **environment})

    def must(self, folder, words, **environment):
        ran = self.run(folder, words, **environment)
        if ran.returncode != 0:
            raise Wrong(f"status {ran.returncode}: {ran.stderr.decode(errors='replace')}")
        return ran

    def has(self, command):
        """Whether this segtool has a command."""
        if command not in self.commands:
            self.commands[command] = self.run(self.files, [command, "--help"]).returncode == 0
        return self.commands[command]

    def cases(self, cases, word):
        """The cases with a word whose commands this segtool has, and the commands that it doesn't have."""
        wanted = [case for case in cases if word in " ".join(case.words)]
        lacking = {case.words[0] for case in wanted if case.is_new and not self.has(case.words[0])}
        return [case for case in wanted if case.words[0] not in lacking], lacking

    def fill(self):
        """Makes the files that commands read and overwrite."""
        self.files.mkdir()
        (self.files / "folder").mkdir()
        for name in ("counter.image", "increment.client", "increment.lez", "increment.text"):
            shutil.copy(HERE.parent / "examples" / name, self.files)
        (self.files / "notes").write_text("notes\n" * 1000)
        (self.files / "warned.lez").write_text(WARNED)
        (self.files / "fill.text").write_text(FILL)
        self.must(self.files, ["asm", "fill.text", "fill.client"])
        for name in ("large.image", "folder/other.image"):
            self.must(self.files, ["new", name, str(5 * PAGE + 16), "best", "tree"])
        self.must(self.files, ["map", "large.image", "--svg", "picture.svg"])
        self.must(self.files, ["run", "large.image", "filled.image", "fill.client"])
        if self.has("dump"):
            (self.files / "filled.dump").write_bytes(self.must(self.files, ["dump", "filled.image"]).stdout)

    def copy(self, case):
        """A new copy of the files, with the case's link."""
        folder = self.work / "now"
        shutil.rmtree(folder, ignore_errors=True)
        shutil.copytree(self.files, folder)
        if case.link:
            (folder / case.link).symlink_to(case.target)
        return folder

    def record(self, case):
        """Runs a command: the files before and after it, and its calls."""
        folder, log = self.copy(case), self.work / "calls"
        log.unlink(missing_ok=True)
        before = contents(folder)
        self.must(folder, case.words, CALLS_LOG=str(log), LD_PRELOAD=str(self.library))
        return before, contents(folder), Recorded(folder, log, before)

    def all_states(self, case, recorded, before, after, without=""):
        """The different states after each prefix of the calls. Fails if one is wrong."""
        found, random_source = {}, random.Random(1)
        for count in range(len(recorded.calls) + 1):
            ended = count == len(recorded.calls)
            for state in states(recorded, count, without, random_source):
                self.judge(case, state, before, after, ended)
                found.setdefault(tuple(sorted(state.items())), state)
        return list(found.values())

    def judge(self, case, state, before, after, ended):
        """The target is the old file or the new one, and all others are as they were."""
        target = case.target
        allowed = (after[target],) if ended else (before.get(target), after[target])
        if state.get(target) not in allowed:
            raise Wrong(f"{target} isn't the new file after the command succeeded" if ended else
                        f"{target} is neither the old file nor the new one")
        beside = re.compile(re.escape(target) + r"\.[1-9][0-9]*\.new")
        for name in (before.keys() | state.keys()) - {target}:
            if state.get(name) != before.get(name) and not (name not in before and beside.fullmatch(name)):
                raise Wrong(f"{name} has changed")

    def recover(self, case, found, before, after):
        """Every image is sound, and the command works on each state."""
        for bytes in {bytes for bytes in (before.get(case.target), after[case.target]) if bytes}:
            if bytes.startswith(b"SEGIMAGE"):
                image = self.work / "image"
                image.write_bytes(bytes)
                self.must(self.work, ["check", "image"])
        for state in found:
            folder = self.copy(case)
            for name in contents(folder):
                (folder / name).unlink()
            for name, bytes in state.items():
                if bytes.startswith(b"-> "):
                    (folder / name).symlink_to(bytes[3:].decode())
                else:
                    (folder / name).write_bytes(bytes)
            ran = self.run(folder, case.words)
            is_done = case.absent and state[case.target] == after[case.target]
            if (ran.returncode, ran.stderr.decode()) != (1, case.absent + "\n") if is_done else ran.returncode != 0:
                raise Wrong(f"again, status {ran.returncode}: {ran.stderr.decode(errors='replace')}")
            is_old = state.get(case.target) == before.get(case.target)
            if is_old and (folder / case.target).read_bytes() != after[case.target]:
                raise Wrong("the command doesn't do on the old file what it did before")

    def check(self, case):
        before, after, recorded = self.record(case)
        found = self.all_states(case, recorded, before, after)
        self.recover(case, found, before, after)
        return len(recorded.calls), len(found)

    def finds(self, case, without):
        """Whether the check finds a wrong state if the record lacks a kind of call."""
        before, after, recorded = self.record(case)
        try:
            self.all_states(case, recorded, before, after, without)
        except Wrong:
            return True
        return False


def main():
    parser = argparse.ArgumentParser(description=__doc__.partition("\n\n")[0])
    parser.add_argument("segtool", nargs="?", default=HERE.parent / "crates/segtool/out/segtool", type=Path)
    parser.add_argument("--only", default="", help="only commands with this word")
    given = parser.parse_args()
    wrong, all_states, commands = 0, 0, 0
    with tempfile.TemporaryDirectory(dir=MEMORY) as work:
        check = Check(given.segtool.resolve(), Path(work).resolve())
        cases, lacking = check.cases(CASES, given.only)
        for case in cases:
            commands += 1
            try:
                calls, found = check.check(case)
                all_states += found
                print(f"{' '.join(case.words)}: {calls} calls, {found} states")
            except Wrong as why:
                wrong += 1
                print(f"{' '.join(case.words)}: {why}")
        for without in ("sync", "sync-folder"):
            if not check.finds(CASES[3], without):
                wrong += 1
                print(f"no wrong state is found without `{without}`")
    if lacking:
        print(f"this segtool doesn't have: {', '.join(sorted(lacking))}")
    print(f"{commands} commands, {all_states} states, {wrong} wrong")
    return wrong > 0


if __name__ == "__main__":
    sys.exit(main())
