#!/usr/bin/env python3
"""Compares a shared table of 1,000,000 numbers in a file with Boost.Interprocess, LMDB, SQLite and FlatBuffers.

    table.py LIBRARY [--time ROUNDS] [--disk FOLDER] [--only TABLE,..] [--no-count]

LIBRARY is crates/lezgauri_c/out/liblezgauri.a, which build.py makes (lezgauri_c). table.c and table_peers.cpp do the works, each
in a process of its own, and the tables take turns. Prints a table in Markdown. Its rows are:

- times: the shortest of ROUNDS rounds of processor time, system calls included, with the files in memory;
- instructions by callgrind, without the kernel's, of fewer repetitions;
- memory that opening adds, and the pages of 4 KiB that a work dirties in the mapped file, or writes by system calls. For these rows
  the files are on a disk (in FOLDER) and synced, since all pages of a file in memory count as dirty.

Fails if two tables return different sums. Needs valgrind, cc, g++, flatbuffers-compiler, libflatbuffers-dev, libboost-dev,
liblmdb-dev and libsqlite3-dev."""
import argparse
import os
import shutil
import tempfile
from dataclasses import dataclass
from functools import partial

from operations import HERE, MEMORY, instructions, least, run

KEYS, PAGE = 1000000, 4096

# the tables, and what the table in Markdown calls them. A ratio follows each pair that differs only in the library.
TABLES = {
    "lezgauri-tree": "Lezgauri, map",
    "boost-tree": "Boost, map",
    "lezgauri-flat": "Lezgauri, flat map",
    "boost-flat": "Boost, flat map",
    "lmdb": "LMDB",
    "sqlite": "SQLite",
    "flatbuffers": "FlatBuffers",
}
RATIOS = {"boost-tree": "lezgauri-tree", "boost-flat": "lezgauri-flat"}

# the tables with transactions
TRANSACTIONS = ("lmdb", "sqlite")
NO_CHECK = ("lmdb",)

# and the tables of table.c, which have more works
OURS = ("lezgauri-tree", "lezgauri-flat")


@dataclass
class Work:
    name: str
    row: str
    timed: int  # repetitions to measure the time
    counted: int = 0  # and to count instructions, unless it is 0
    unit: str = "ns"  # of the time of a repetition


WORKS = (
    Work("open", "open to write, and check", 1, unit="ms"),
    Work("read", "open to read, and check", 1, unit="ms"),
    Work("check", "check alone", 1, unit="ms"),
    Work("pass", "one pass over what the check has to read", 1, unit="ms"),
    Work("look-up", "look up a key", KEYS, 100000),
    Work("update", "update a value", KEYS, 100000),
    Work("update-singly", "update in a transaction of its own", 50000, 5000),
    Work("sum", "next value in order", KEYS, 100000),
    Work("sum-by-entries", "next value in order, by next_entries", KEYS, 100000),
    Work("sum-singly", "next value in order, by a call for each", KEYS, 100000),
)
BUILD = Work("build", "build, a key", KEYS)
NANOSECONDS = {"ns": 1, "ms": 1e6}

# the works whose dirty pages are counted, how often they are repeated, and the row
DIRTY = (
    ("open", 1, "opening"),
    ("look-up", 1000, "1,000 lookups"),
    ("update", 1, "an update"),
    ("update", 1000, "1,000 updates"),
    ("update-singly", 1000, "1,000 single updates"),
)


def is_done(table, work):
    """Whether a table has this work."""
    lacks = {
        "check": table in NO_CHECK,
        "pass": table not in OURS,
        "sum-by-entries": table != "lezgauri-flat",  # the work "sum" of the tree is this one
        "sum-singly": table not in OURS,
        "update-singly": table not in TRANSACTIONS,
    }
    return not lacks.get(work, False)


class Bench:
    """The programs and the files in a folder."""

    def __init__(self, library, tables, folder, disk):
        self.folder, self.disk, self.tables = folder, disk, tables
        run("flatc", "--cpp", "--gen-mutable", "-o", folder, f"{HERE}/table.fbs")
        self.peers, self.ours = f"{folder}/peers", f"{folder}/ours"
        flags = ("-llmdb", "-lsqlite3", "-lpthread", "-lrt")
        run("g++", "-O2", "-std=c++17", f"-I{folder}", f"{HERE}/table_peers.cpp", "-o", self.peers, *flags)
        if any(it.startswith("lezgauri") for it in tables):
            run("cc", "-O2", f"-I{HERE}/../crates/lezgauri_c/include", f"{HERE}/table.c", "-o", self.ours, library)
        self.sums = {}

    def command(self, table, work, count, folder):
        program = self.ours if table.startswith("lezgauri") else self.peers
        return [program, table, work, f"{folder}/{table}", str(count)]

    def fresh(self, table):
        """Makes the file as it was built."""
        shutil.copyfile(f"{self.folder}/{table}.built", f"{self.folder}/{table}")

    def fresh_on_disk(self, table):
        """The same on the disk, without dirty pages. It is written by pages, since the kernel counts a longer write as one dirty piece."""
        with open(f"{self.folder}/{table}.built", "rb") as built, open(f"{self.disk}/{table}", "wb", buffering=0) as copy:
            while page := built.read(PAGE):
                copy.write(page)
            os.fsync(copy)

    def measured(self, table, work, count, folder):
        """What the program prints of a work: the nanoseconds, then KiB. Each table has to return the same sums."""
        printed = run(*self.command(table, work, count, folder)).stdout.split()
        sums = printed[1], *printed[7:]
        if self.sums.setdefault((work, count), sums) != sums:
            raise SystemExit(f"{table}: {work} of {count} returned {sums}, another table {self.sums[work, count]}")
        return [float(printed[0]), *map(int, printed[2:7])]

    def time(self, table, work, count):
        if work == "build":
            spent = self.measured(table, work, count, self.folder)[0]
            shutil.copyfile(f"{self.folder}/{table}", f"{self.folder}/{table}.built")
        else:
            self.fresh(table)
            spent = self.measured(table, work, count, self.folder)[0]
        return spent / count

    def times(self, works, rounds):
        """The time of a repetition of each work by each table, in nanoseconds. The tables take turns."""
        wanted = [(work, table) for work in works for table in self.tables if is_done(table, work.name)]
        found = least([partial(self.time, table, work.name, work.timed) for work, table in wanted], rounds)
        return {(work.name, table): time for (work, table), time in zip(wanted, found)}

    def count(self, table, work):
        self.fresh(table)
        return instructions(self.command(table, work.name, work.counted, self.folder), ["--instr-atstart=no"]) / work.counted

    def memory(self, table, work, count):
        """What a work adds in memory (own, mapped, at the peak), and the KiB that it dirties, or writes by system calls."""
        self.fresh_on_disk(table)
        _, own, mapped, peak, dirty, written = self.measured(table, work, count, self.disk)
        return own, mapped, peak, dirty + written


def shown(number):
    return "" if number is None else f"{number:,.0f}" if number >= 100 or number == int(number) else f"{number:.3g}"


def row(name, found, ratios=True):
    """A row of the table in Markdown, with what was found of each table."""
    cells = [name]
    for table, number in found.items():
        cells.append(shown(number))
        if table in RATIOS:
            ours = found.get(RATIOS[table])
            cells.append(f"{ours / number:.2f}" if ratios and ours and number else "")
    print("| " + " | ".join(cells) + " |", flush=True)


def head(tables):
    cells = [""]
    for table in tables:
        cells += [TABLES[table], "ratio"] if table in RATIOS else [TABLES[table]]
    print("| " + " | ".join(cells) + " |\n|" + "---|" * len(cells))


def print_rows(bench, rounds, counts):
    times = bench.times((BUILD, *WORKS), rounds)

    def of_each(work, measure):
        return {table: measure(table) if is_done(table, work) else None for table in bench.tables}

    head(bench.tables)
    for work in (*WORKS, BUILD):
        unit = NANOSECONDS[work.unit]
        row(f"{work.row}, {work.unit}", of_each(work.name, lambda table: times[work.name, table] / unit))
        if counts and work.counted:
            row(f"{work.row}, instructions", of_each(work.name, lambda table: bench.count(table, work)))
    row("file, MiB", of_each("build", lambda table: os.path.getsize(f"{bench.folder}/{table}.built") / 2**20), False)
    opened = of_each("read", lambda table: bench.memory(table, "read", 1))
    for place, what in enumerate(("own memory after opening", "mapped pages after opening", "both, at the peak of opening")):
        row(f"{what}, MiB", {table: found[place] / 1024 for table, found in opened.items()}, False)
    for work, count, what in DIRTY:
        row(f"pages dirtied by {what}", of_each(work, lambda table: bench.memory(table, work, count)[3] * 1024 / PAGE), False)


def main():
    parser = argparse.ArgumentParser(description=__doc__, formatter_class=argparse.RawDescriptionHelpFormatter)
    parser.add_argument("library")
    parser.add_argument("--time", type=int, default=7, metavar="ROUNDS")
    parser.add_argument("--disk", default="/var/tmp", metavar="FOLDER")
    parser.add_argument("--only", default=",".join(TABLES), metavar="TABLE,..")
    parser.add_argument("--no-count", action="store_true")
    words = parser.parse_args()
    with tempfile.TemporaryDirectory(dir=MEMORY) as folder, tempfile.TemporaryDirectory(dir=words.disk) as disk:
        print_rows(Bench(words.library, words.only.split(","), folder, disk), words.time, not words.no_count)


if __name__ == "__main__":
    main()
