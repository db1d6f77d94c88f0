#!/usr/bin/env python3
"""Compares the calls of the library for C with what a host would use instead: SQLite, Lua, Boost.Interprocess and LMDB.

    calls.py SEGTOOL LIBRARY.. [--time ROUNDS] [--no-count]

LIBRARY is crates/lezgauri_c/out/liblezgauri.a, which build.py makes (lezgauri_c). Several of them, for example from before
and after a change, run in turn, and each has its own rows. calls.c calls the library with an image of 4096 bytes, and clients.c
uses a database of 4096 bytes. For calls on values, calls.c and calls_peers.cpp have tables of 100 numbers. Callgrind counts the instructions of the calls alone, and a time is the shortest of ROUNDS rounds
of processor time.

Needs valgrind, cc, g++, libsqlite3-dev, liblua5.4-dev, libboost-dev and liblmdb-dev."""
import argparse
import os
import tempfile
from functools import partial

from clients import COUNTED, compiled_peer, made, own_count, own_time, row
from operations import HERE, MEMORY, least, run

# the works of calls.c, the client, if the call takes one, and the peers' works for comparison
WORKS = [
    ("check", None, ("sqlite-check",)),
    ("open, close", None, ("sqlite-open",)),
    ("open_in, close", None, ("sqlite-open",)),
    ("create_in, close", None, ()),
    ("grow, shrink", None, ()),
    ("free_memory", None, ()),
    ("types", None, ()),
    ("assemble", "increment", ()),
    ("print", "increment", ()),
    ("save", None, ("sqlite-save",)),
    ("verify", "increment", ("sqlite-prepare", "lua-load")),
    ("prepare, client_close", "empty", ()),
    ("prepare, client_close", "increment", ("sqlite-prepare", "lua-load")),
    ("run_client", "empty", ("lua-empty",)),
    ("run_client", "increment", ("sqlite-step", "lua-call")),
    ("run_on", "empty", ()),
    ("run_on", "increment", ("sqlite-select", "lua-do")),
    ("run_whole", "increment", ("sqlite-update",)),
    ("run", "increment", ("sqlite-run",)),
    ("check, mapped", None, ("sqlite-check",)),
]

# the calls on values, and the peers' works in calls_peers.cpp
VALUE_WORKS = [
    ("read, close", None, ("lmdb-open, close",)),
    ("find", None, ("boost-find",)),
    ("load", None, ()),
    ("store", None, ()),
    ("get", None, ("boost-get", "lmdb-get", "sqlite-get")),
    ("next_key", None, ("boost-next", "lmdb-next")),
    ("next_entry", None, ("boost-next", "lmdb-next")),
    ("next_entries", None, ("boost-next", "lmdb-next")),
    ("put, remove", None, ("boost-put, erase", "lmdb-put, del", "sqlite-insert, delete")),
    ("push_back, pop_back", None, ("boost-push, pop",)),
    ("push_numbers, clear", None, ("boost-insert, clear", "boost-push 100, clear")),
    ("put_numbers, clear", None, ("boost-insert ordered, clear", "boost-emplace_hint 100, clear")),
    ("assign", None, ("boost-assign",)),
    ("text", None, ()),
    ("construct, destroy", None, ("boost-construct, destroy",)),
]

# how many entries a work reads, or numbers it adds. Its row is for one of them
ENTRIES = {
    "next_entries": 100, "push_numbers, clear": 100, "boost-insert, clear": 100, "boost-push 100, clear": 100,
    "put_numbers, clear": 100, "boost-insert ordered, clear": 100, "boost-emplace_hint 100, clear": 100,
}

# how often a work is repeated to measure its time
TIMED = 5000


def compiled(library, program):
    """The program of calls.c with this library."""
    run("cc", "-O2", f"-I{HERE}/../crates/lezgauri_c/include", f"{HERE}/calls.c", "-o", program, library)
    return program


def compiled_values_peer(folder):
    """The command of calls_peers.cpp for a work and a number of repetitions."""
    peer = f"{folder}/values_peer"
    run("g++", "-O2", "-std=c++17", f"{HERE}/calls_peers.cpp", "-o", peer, "-llmdb", "-lsqlite3")
    return lambda work, times: [peer, work, str(times), f"{folder}/lmdb"]


def main():
    parser = argparse.ArgumentParser(description=__doc__, formatter_class=argparse.RawDescriptionHelpFormatter)
    parser.add_argument("segtool")
    parser.add_argument("library", nargs="+")
    parser.add_argument("--time", type=int, default=7, metavar="ROUNDS")
    parser.add_argument("--no-count", action="store_true")
    words = parser.parse_args()
    with tempfile.TemporaryDirectory(dir=MEMORY) as folder:
        peer, values_peer = compiled_peer(folder), compiled_values_peer(folder)
        programs = [compiled(library, f"{folder}/calls{i}") for i, library in enumerate(words.library)]
        image, files = made(os.path.abspath(words.segtool), folder)
        print(f"{'call':34}{'by':24}{'instr.':>12}{'ns':>12}")
        for work, client, peers in (*WORKS, *VALUE_WORKS):
            commands = [lambda n, it=it: [it, work, str(n), image, files[client or "empty"]] for it in programs]
            if (work, client, peers) in VALUE_WORKS:
                commands += [lambda n, it=it: values_peer(it, n) for it in peers]
            else:
                commands += [lambda n, it=it: [peer, it, str(n)] for it in peers]
            times = least([partial(own_time, command, TIMED) for command in commands], words.time)
            for command, by, time in zip(commands, [*words.library, *peers], times):
                name = f"{work} ({client})" if client else work
                entries = ENTRIES.get(work if by in words.library else by, 1)
                count = 0 if words.no_count else own_count(command, COUNTED)
                row(name, by[-22:], count / entries, time / entries)


if __name__ == "__main__":
    main()
