#!/usr/bin/env python3
"""Compares preparing and running a client on an open image with a prepared statement of SQLite and a function of Lua.

    clients.py SEGTOOL BENCH_CALLS.. [--time ROUNDS] [--no-count]

BENCH_CALLS is the program that build.py makes (bench_calls). Several of them, for example from before and after a change, run
in turn, and each has its own rows. The program runs a workload for some passes and for twice as many, and the difference is
reported, so its start, the check of the image and the first access to memory don't count. Callgrind counts the instructions,
and a time is the shortest of ROUNDS rounds.

Needs valgrind, cc, libsqlite3-dev and liblua5.4-dev."""
import argparse
import os
import tempfile
from functools import partial

from operations import HERE, MEMORY, instructions, least, run, seconds

# the texts of the clients
CLIENTS = {
    "empty": f"{HERE}/clients/empty.text",
    "increment": f"{HERE}/../examples/increment.text",
    "cache": f"{HERE}/../examples/cache.text",
}

# the workloads: the work, the client, and the peers' works for comparison
WORKS = [
    ("prepare", "empty", ()),
    ("prepare", "increment", ("sqlite-prepare", "lua-load")),
    ("prepare", "cache", ()),
    ("run", "empty", ("lua-empty",)),
    ("run", "increment", ("sqlite-step", "lua-call")),
]

# how often a workload is repeated in a pass, to count instructions and to measure times
COUNTED, TIMED = 2000, 200000


def made(segtool, folder):
    """The image and the clients, by name."""
    image = f"{folder}/image"
    run(segtool, "new", image, "4096", "best", "tree")
    files = {}
    for name, text in CLIENTS.items():
        files[name] = f"{folder}/{name}.client"
        run(segtool, "asm", text, files[name])
    maker = f"{folder}/maker.text"
    with open(maker, "w", encoding="utf-8") as out:
        out.write("type i64\nname x\nMAKE r0 - - t0 k0\nELSE\nEND\n")
    run(segtool, "asm", maker, f"{folder}/maker")
    run(segtool, "run", image, image, f"{folder}/maker")
    return image, files


def counted(command):
    """The number of instructions of one repetition."""
    return (instructions(command(COUNTED, 2)) - instructions(command(COUNTED, 1))) / COUNTED


def compiled_peer(folder):
    """The program of clients.c."""
    peer = f"{folder}/peer"
    run("cc", "-O2", "-I/usr/include/lua5.4", f"{HERE}/clients.c", "-o", peer, "-lsqlite3", "-llua5.4")
    return peer


def own_count(command, times):
    """The number of instructions of one repetition, by a C program, which counts only its repetitions."""
    return instructions(command(times), ["--instr-atstart=no"]) / times


def own_time(command, times):
    """The nanoseconds of one repetition, as a C program prints them."""
    return float(run(*command(times)).stdout.split()[-1])


def row(work, who, count, time):
    print(f"{work:34}{who:24}{count:12.0f}{time:12.1f}", flush=True)


def main():
    parser = argparse.ArgumentParser(description=__doc__, formatter_class=argparse.RawDescriptionHelpFormatter)
    parser.add_argument("segtool")
    parser.add_argument("calls", nargs="+", metavar="BENCH_CALLS")
    parser.add_argument("--time", type=int, default=7, metavar="ROUNDS")
    parser.add_argument("--no-count", action="store_true")
    words = parser.parse_args()
    with tempfile.TemporaryDirectory(dir=MEMORY) as folder:
        peer = compiled_peer(folder)
        image, files = made(os.path.abspath(words.segtool), folder)
        print(f"{'work':34}{'by':24}{'instr.':>12}{'ns':>12}")
        for work, client, peers in WORKS:
            commands = [
                lambda times, passes, it=it: [os.path.abspath(it), work, str(times), str(passes), image, files[client]]
                for it in words.calls
            ]
            timers = [partial(seconds, command(TIMED, passes)) for command in commands for passes in (2, 1)]
            others = [lambda times, it=it: [peer, it, str(times)] for it in peers]
            timers += [partial(own_time, command, TIMED) for command in others]
            found = least(timers, words.time)
            ends = 2 * len(commands)
            ours = [(whole - base) / TIMED * 1e9 for whole, base in zip(found[:ends:2], found[1:ends:2])]
            for command, it, time in zip(commands, words.calls, ours):
                row(f"{work} {client}", it[-22:], 0 if words.no_count else counted(command), time)
            for command, it, time in zip(others, peers, found[ends:]):
                row(f"{work} {client}", it, 0 if words.no_count else own_count(command, COUNTED), time)


if __name__ == "__main__":
    main()
