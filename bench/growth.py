#!/usr/bin/env python3
"""Counts the instructions of operations on structures of 100 to 10,000,000 keys or blocks, beside Boost.Interprocess.

    growth.py LIBRARY [--only WORK,..] [--most SIZE] [--time ROUNDS] [--folder FOLDER]

LIBRARY is crates/lezgauri_c/out/liblezgauri.a, which build.py makes (lezgauri_c). Prints a table in Markdown, of which
growth_picture.py draws a picture, and then a table of checks. The error output has each result at once.

growth.c builds a structure in the image of a file by a client (bench/clients/growth), and growth_peer.cpp builds the same with Boost.
Then operations run on copies of it, under callgrind, which counts nothing else. From a client's instructions those of its base are
subtracted: the same loop without the operation. Operations are spread over the structure by a stride. There are 1,000 of them, or a
tenth of the structure if that is less, and ten if one takes linear time. Structures of up to 1,000,000 are also destroyed as a whole.

A cell of the first table has our instructions and Boost's; it is empty if the structure doesn't fit into an image, or wasn't measured.
A check and one pass over the bytes that it reads run in turn, ROUNDS times. Needs valgrind, cc, g++ and libboost-dev, and 3 GiB in
FOLDER."""
import argparse
import os
import sys
import tempfile
from dataclasses import dataclass

from operations import HERE, MEMORY, instructions, run

BEST, SEQ = "best+tree", "seq+flat"
FITS = {BEST: ("1", "1"), SEQ: ("0", "0")}
NAMES = {BEST: "best fit, tree", SEQ: "sequential fit, flat"}
SIZES = [10**power for power in range(2, 8)]
MOST_IMAGE = 1 << 30

# the first name of the index, and the longest of the arrays that own blocks
FIRST_NAME, MOST_ITEMS = 10000000, 50000


@dataclass
class Structure:
    clients: tuple[str, ...]
    each: int  # bytes of the image for a key or a block
    peer_each: int  # and of Boost's segment
    least: int = 1000


STRUCTURES = {
    "map": Structure(("map_put",), 48, 64, 100),
    "flat_map": Structure(("flat_map_put",), 42, 16, 100),
    "list": Structure(("list_push",), 32, 48),
    "names": Structure(("names",), 96, 160),
    "blocks": Structure(("blocks",), 41, 64),
    "gaps": Structure(("blocks", "gaps"), 41, 64),
}


@dataclass
class Work:
    row: str
    structure: str
    config: str
    name: str  # of the client, and of Boost's work
    base: str | None  # a client, or nothing if the library is called
    most: int  # operations; 0 if it is one for each key or node
    largest: int = SIZES[-1]  # of the structures


WORKS = [
    Work("map, put a new key", "map", BEST, "map_put", "map_key", 1000),
    Work("map, get a key", "map", BEST, "map_get", "map_key", 1000),
    Work("map, next key", "map", BEST, "map_next", "map_first", 1000),
    Work("map, destroy it, a key", "map", BEST, "map_kill", "map_empty", 0, 1000000),
    Work("flat map, put a new key", "flat_map", BEST, "flat_map_put", "flat_map_key", 10),
    Work("flat map, get a key", "flat_map", BEST, "flat_map_get", "flat_map_key", 1000),
    Work("flat map, next key", "flat_map", BEST, "flat_map_next", "flat_map_first", 1000),
    Work("list, push and pop", "list", BEST, "list_push_pop", "list_loops", 1000),
    Work("list, push and pop", "list", SEQ, "list_push_pop", "list_loops", 1000),
    Work("list, destroy it, a node", "list", BEST, "list_kill", "list_empty", 0, 1000000),
    Work("list, destroy it, a node", "list", SEQ, "list_kill", "list_empty", 0, 1000000),
    Work("list, item by its index", "list", BEST, "list_at", "list_index", 10),
    Work("named object, construct", "names", BEST, "name_construct", "name_number", 1000),
    Work("named object, find", "names", BEST, "name_find", "name_number", 1000),
    Work("named object, destroy", "names", BEST, "name_destroy", "name_number_if", 1000),
    Work("named object, construct", "names", SEQ, "name_construct", "name_number", 10),
    Work("named object, find", "names", SEQ, "name_find", "name_number", 1000),
    Work("named object, destroy", "names", SEQ, "name_destroy", "name_number_if", 10),
    Work("object, new and drop", "blocks", BEST, "new_drop", "block_loop", 1000),
    Work("object, new and drop", "blocks", SEQ, "new_drop", "block_loop", 1000),
    Work("with gaps, new and drop", "gaps", BEST, "new_drop", "block_loop", 1000),
    Work("with gaps, new and drop", "gaps", SEQ, "new_drop", "block_loop", 1000),
    Work("with gaps, a large object", "gaps", BEST, "new_drop_large", "block_loop", 1000),
    Work("with gaps, a large object", "gaps", SEQ, "new_drop_large", "block_loop", 10),
    Work("with gaps, free a block", "gaps", BEST, "free", "free_find", 1000),
    Work("with gaps, free a block", "gaps", SEQ, "free", "free_find", 10),
    Work("segment, grow", "blocks", BEST, "grow", None, 1),
    Work("segment, grow", "blocks", SEQ, "grow", None, 1),
    Work("segment, shrink", "blocks", BEST, "shrink", None, 1),
    Work("segment, shrink", "blocks", SEQ, "shrink", None, 1),
]

# what a check reads, and the unit of its size
CHECKS = {
    "map": "a map, a key",
    "flat_map": "a flat map, a key",
    "list": "a list, a node",
    "blocks": "numbers that arrays own, a block",
    "gaps": "the same with gaps, a block",
}


def arrays(size):
    """How many arrays own the blocks of a heap."""
    return max(1, size // MOST_ITEMS)


class Bench:
    """The programs, and the clients and the structures of one size in a folder."""

    def __init__(self, library, folder):
        self.folder, self.ours, self.peer = folder, f"{folder}/ours", f"{folder}/peer"
        include = f"-I{HERE}/../crates/lezgauri_c/include"
        run("cc", "-O2", include, f"{HERE}/growth.c", "-o", self.ours, library, "-Wl,-z,now")
        run("g++", "-O2", "-std=c++17", f"{HERE}/growth_peer.cpp", "-o", self.peer, "-lpthread", "-lrt", "-Wl,-z,now")

    def client(self, name, **values):
        """The file of a client's text, with these values."""
        text = open(f"{HERE}/clients/growth/{name}.text", encoding="ascii").read()
        for value, number in values.items():
            text = text.replace(f"@{value.upper()}", str(number))
        made = f"{self.folder}/{name}.text"
        open(made, "w", encoding="ascii").write(text)
        return made

    def file(self, whose):
        return f"{self.folder}/{whose}.image"

    def build(self, structure, config, size):
        """Makes the two files. Returns whether the structure fits into an image."""
        it = STRUCTURES[structure]
        spare = 1 << 20
        length = (it.each * size + spare) // 16 * 16
        if length > MOST_IMAGE:
            return False
        items = min(size, MOST_ITEMS)
        stride = {"map": 1, "flat_map": 2}.get(structure, 1 if config == SEQ else 7919 % size)
        values = {"turns": size, "first": 0, "stride": stride, "arrays": arrays(size), "items": items}
        clients = [self.client(name, **values) for name in it.clients]
        run(self.ours, "build", self.file("ours"), str(length), *FITS[config], *clients)
        run(self.peer, "build", structure, config, str(size), self.file("peer"), str(it.peer_each * size + spare))
        return True

    def count(self, work, size):
        """The instructions of an operation, ours and Boost's."""
        turns = min(work.most, size // 10) or size
        peer = [self.peer, "count", work.name, work.config, str(size), str(turns), self.file("peer")]
        theirs = instructions(peer, ["--instr-atstart=no"]) / turns
        if work.base is None:
            return instructions([self.ours, "call", self.file("ours"), work.name], ["--instr-atstart=no"]), theirs
        values = self.values(work, size, turns)
        whole, base = (self.run(name, values) for name in (work.name, work.base))
        return (whole - base) / turns, theirs

    def values(self, work, size, turns):
        """The values in the texts of a work's clients."""
        visited = min(turns, arrays(size))
        stride, first, each = size // turns, 0, turns // visited
        if work.name == "map_put":
            stride, first = 1, size
        elif work.structure == "flat_map":
            stride, first = 2 * stride, work.name == "flat_map_put"
        elif work.structure == "names":
            stride, first = 2 * stride, FIRST_NAME + (work.name == "name_construct")
        elif work.name == "free":
            stride, first = min(size, MOST_ITEMS) // each // 2 * 2, 1
        step = arrays(size) // visited
        return {"turns": turns, "first": int(first), "stride": stride, "arrays": arrays(size), "step": step, "each": each}

    def run(self, name, values):
        client = self.client(name, **values)
        return instructions([self.ours, "run", self.file("ours"), client], ["--instr-atstart=no"])

    def check(self, structure, size, rounds):
        """The instructions of a check for a block, and the nanoseconds of a check and of a pass: the least and the middle."""
        counted = instructions([self.ours, "call", self.file("ours"), "check"], ["--instr-atstart=no"]) / size
        times = run(self.ours, "time", self.file("ours"), structure, str(rounds)).stdout.split()
        return [counted, *(float(it) / size for it in times)]


def shown(number):
    """A number with at least three digits; M is a million."""
    if number >= 1e6:
        return f"{number / 1e6:.3g} M" if number < 1e9 else f"{number / 1e6:,.0f} M"
    return f"{number:,.0f}" if number >= 100 else f"{number:.3g}"


def print_row(*cells):
    print("| " + " | ".join(cells) + " |", flush=True)


def print_head(first, columns):
    print_row(*first, *columns)
    print("|" + "---|" * (len(first) + len(columns)), flush=True)


def print_checks(checked, sizes):
    """Prints what a check takes for a block: the instructions, and of both times the least and the middle."""
    print()
    print_head(["Check of", "Measured"], [f"{size:,}" for size in sizes])
    for structure, row in CHECKS.items():
        found = [checked.get((structure, size)) for size in sizes]
        if any(found):
            for name, (first, *median) in {"instructions": [0], "check, ns": [1, 2], "one pass, ns": [3, 4]}.items():
                cells = [it and shown(it[first]) + "".join(f" ({shown(it[place])})" for place in median) or "" for it in found]
                print_row(row, name, *cells)


def measure(bench, only, sizes, rounds):
    """What was counted, by the work's place in WORKS and the size; and of checks, by the structure and the size."""
    counted, checked = {}, {}
    for structure, config in dict.fromkeys((it.structure, it.config) for it in WORKS):
        wanted = [it for it in WORKS if (it.structure, it.config) == (structure, config) and (not only or it.name in only)]
        checks = config == BEST and structure in CHECKS and (not only or "check" in only)
        for size in sizes:
            fitting = [it for it in wanted if STRUCTURES[structure].least <= size <= it.largest]
            checking = checks and size >= STRUCTURES[structure].least
            if not (fitting or checking) or not bench.build(structure, config, size):
                continue
            for work in fitting:
                counted[WORKS.index(work), size] = bench.count(work, size)
                print(work.row, work.config, size, *map(shown, counted[WORKS.index(work), size]), file=sys.stderr, flush=True)
            if checking:
                checked[structure, size] = bench.check(structure, size, rounds)
                print("check", structure, size, *map(shown, checked[structure, size]), file=sys.stderr, flush=True)
    return counted, checked


def main():
    parser = argparse.ArgumentParser(description=__doc__, formatter_class=argparse.RawDescriptionHelpFormatter)
    parser.add_argument("library")
    parser.add_argument("--only", metavar="WORK,..", help="names of clients, calls, or `check`")
    parser.add_argument("--most", type=int, default=SIZES[-1], metavar="SIZE")
    parser.add_argument("--time", type=int, default=11, metavar="ROUNDS")
    parser.add_argument("--folder", default=MEMORY)
    words = parser.parse_args()
    sizes = [size for size in SIZES if size <= words.most]
    with tempfile.TemporaryDirectory(dir=words.folder) as folder:
        only = words.only.split(",") if words.only else []
        counted, checked = measure(Bench(words.library, folder), only, sizes, words.time)
    columns = [f"{size:,}" for size in sizes]
    print_head(["Work", "Allocator and index"], columns)
    for index, work in enumerate(WORKS):
        cells = [" / ".join(map(shown, counted.get((index, size), ()))) for size in sizes]
        if any(cells):
            print_row(work.row, NAMES[work.config], *cells)
    if checked:
        print_checks(checked, sizes)


if __name__ == "__main__":
    main()
