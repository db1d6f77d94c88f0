#!/usr/bin/env python3
"""Measures commands at the limits of images and clients, and prints a table of their times and memory.

    limits.py SEGTOOL [--part PART] [--rounds N]

The fastest of N runs counts, 1 if it isn't given. Wall and user times are in seconds, and memory is the most that was
resident, in MiB. Fails if a command has another status than it should. Needs 3 GiB in /dev/shm or in the folder for
temporary files, and 6 GiB of memory."""
import argparse
import os
import subprocess
import sys
import tempfile
import time

MEMORY = "/dev/shm" if os.path.isdir("/dev/shm") else None
MOST_SIZE = 1 << 30
MOST_STEPS = 1_000_000_000
MOST_CODE = 4096
PARTS = ("images", "values", "names", "clients", "programs")


def nodes(kind, push, count):
    """A client that adds this many nodes to a list, or keys to a map."""
    return f"""type i64
type {kind} t0
name all
CONST r1 1
CONST r2 1
CONST r3 0
FINDOR r0 - t1 k0
  WHILE r2 {count}
    {push}
      STORE r4 r3
    ELSE
      CONST r2 0
    END
    ADD r3 r3 r1
  END
  LEN r5 r0
  OUTI r5
ELSE
END
"""


def longest_program(statements):
    """A program with so many statements, each of a few instructions."""
    return "let a = 1\n" + "a = a + 1\n" * statements + "print a\n"


def deepest_program(levels):
    """A program whose expression has this many levels."""
    return f"print {'(' * levels}1{')' * levels}\n"


def large_types():
    """A client with 32 types, of which 29 have values of 4096 bytes, and an object of each."""
    types = ["i64"] + [f"struct{f' t{i}' * 8}" for i in range(3)] + ["struct t3"] * 28
    lines = [f"type {it}" for it in types] + ["name large"]
    for number in range(len(types)):
        lines += [f"UFINDOR r0 t{number}", "ELSE", "END"]
    return "\n".join(lines) + "\n"


def array(type_lines, number):
    """A client that makes an object of 65,535 values."""
    return f"{type_lines}name array\nCONST r1 65535\nMAKE r0 - r1 t{number} k0\nELSE\nOUTI r0\nEND\n"


def long_names(count):
    """A client that makes objects whose names have 63 bytes, and finds each of them."""
    family = "n" * 42
    loop = """CONST r3 -2147483648
MUL r3 r3 r3
SUB r3 r5 r3
CONST r2 1
WHILE r2 {count}
  {find} r0 r3 {rest}
  ELSE
    CONST r2 0
  END
  ADD r3 r3 r1
END
"""
    loops = [loop.format(count=count, find=it, rest="- t0 k0") for it in ("MAKE", "FIND")]
    return f"type i64\nfamily {family}\nCONST r1 1\nCONST r5 0\n{''.join(loops)}OUTI r3\n"


def longest(steps):
    """A client of 4096 instructions that takes about this many steps."""
    plain = MOST_CODE - 4
    turns = (steps - 3) // (plain + 1)
    return "CONST r1 1\nCONST r2 0\n" + f"WHILE r1 {turns}\n" + "ADD r2 r2 r1\n" * plain + "END\n"


class Limits:
    def __init__(self, given, folder):
        self.segtool, self.part, self.rounds = os.path.realpath(given.segtool), given.part, given.rounds
        self.wrong = 0
        os.chdir(folder)

    def client(self, name, text):
        with open(f"{name}.text", "w", encoding="ascii") as file:
            file.write(text)
        self.quiet("asm", f"{name}.text", name, "--force")

    def quiet(self, *words):
        subprocess.run([self.segtool, *words], check=True, stdout=subprocess.DEVNULL)

    def measure(self, words):
        begun = time.perf_counter()
        with subprocess.Popen([self.segtool, *words], stdout=subprocess.PIPE, stderr=subprocess.STDOUT) as child:
            printed = child.stdout.read()
            _, status, used = os.wait4(child.pid, 0)
            child.returncode = os.waitstatus_to_exitcode(status)
        wall = time.perf_counter() - begun
        return wall, used.ru_utime, used.ru_maxrss / 1024, child.returncode, printed.decode().strip()

    def row(self, what, *words, status=0):
        wall, user, resident, got, printed = min(self.measure(words) for _ in range(self.rounds))
        last = printed.splitlines()[-1][:40] if printed else ""
        print(f"| {what} | {wall:.2f} | {user:.2f} | {resident:,.0f} | {last} |", flush=True)
        if got != status:
            self.wrong += 1
            print(f"status {got}: {printed[:200]}")

    def run(self):
        print("| Command | wall, s | user, s | memory, MiB | last line |\n|---|---|---|---|---|")
        for name in PARTS:
            if self.part in (None, name):
                getattr(self, name)()

    def images(self):
        self.client("empty", "")
        self.row("make an image of 2^30 bytes", "new", "image", str(MOST_SIZE), "best", "tree")
        self.quiet("new", "image", str(MOST_SIZE), "best", "tree", "--force")
        self.row("check an empty image of 2^30 bytes", "check", "image")
        self.row("run an empty client on 2^30 bytes", "run", "image", "image", "empty")
        self.row("grow beyond 2^30 bytes, which is refused", "grow", "image", "16", status=1)
        # more nodes than there is memory for: a list's take 32 bytes, a map's 48
        self.client("list", nodes("list", "PUSH r4 r0", 34_000_000))
        self.client("map", nodes("map", "PUTK r4 r0 r3", 34_000_000))
        for fit in ("best", "seq"):
            self.quiet("new", "image", str(MOST_SIZE), fit, "tree")
            self.row(f"fill 2^30 bytes with a list, {fit}", "run", "image", "saved", "list")
            self.row(f"check the list, {fit}", "check", "saved")
            self.row(f"shrink it, {fit}", "shrink", "saved")
        self.quiet("new", "image", str(MOST_SIZE), "best", "tree")
        self.row("fill 2^30 bytes with a map", "run", "image", "saved", "map")
        self.row("check the map", "check", "saved")
        self.row("list its objects", "list", "saved")
        self.row("show 20 of its keys", "show", "saved")
        self.row("print its memory", "stat", "saved")
        os.remove("saved")

    def values(self):
        self.client("types", large_types())
        self.quiet("new", "image", "262144", "best", "tree")
        self.row("verify a client with 32 types, 29 of them of 4096 bytes", "verify", "image", "types")
        self.row("make an object of each", "run", "image", "image", "types")
        self.row("show them", "show", "image")
        self.client("array", array("type i64\n", 0))
        self.quiet("new", "image", "1048576", "best", "tree")
        self.row("make an object of 65,535 numbers", "run", "image", "image", "array")
        large = "type i64\n" + "".join(f"type struct{f' t{i}' * 8}\n" for i in range(3))
        self.client("array", array(large, 3))
        self.quiet("new", "image", str(300 << 20), "best", "tree")
        self.row("make an object of 65,535 values of 4096 bytes", "run", "image", "image", "array")
        self.row("check it", "check", "image")

    def names(self):
        self.client("names", long_names(20_000))
        for index in ("tree", "flat"):
            self.quiet("new", "image", "4194304", "best", index)
            self.row(f"make and find 20,000 names of 63 bytes, {index}", "run", "image", "image", "names")
            self.row(f"check them, {index}", "check", "image")

    def clients(self):
        self.client("longest", longest(MOST_STEPS))
        self.quiet("new", "image", "4096", "best", "tree")
        self.row("verify a client of 4096 instructions and 10^9 steps", "verify", "image", "longest")
        self.row("run it", "run", "image", "image", "longest")

    def program(self, text):
        with open("program.lez", "w", encoding="ascii") as file:
            file.write(text)

    def programs(self):
        self.program(longest_program(2000))
        self.row("compile a program of 4,000 instructions", "compile", "program.lez", "client", "--force")
        self.program(longest_program(4000))
        self.row("compile one of 8,000, which is refused", "compile", "program.lez", "client", "--force", status=1)
        self.program(deepest_program(63))
        self.row("compile an expression of 64 levels", "compile", "program.lez", "client", "--force")
        self.program(f"# {'x' * 97}\n" * 10_480)
        self.row("compile a program of 2^20 bytes", "compile", "program.lez", "client", "--force")


def main():
    parser = argparse.ArgumentParser(description=__doc__.partition("\n\n")[0])
    parser.add_argument("segtool")
    parser.add_argument("--part", choices=PARTS, help="only these rows [default: all]")
    parser.add_argument("--rounds", type=int, default=1)
    given = parser.parse_args()
    with tempfile.TemporaryDirectory(dir=MEMORY) as folder:
        limits = Limits(given, folder)
        limits.run()
        os.chdir("/")
    return limits.wrong > 0


if __name__ == "__main__":
    sys.exit(main())
