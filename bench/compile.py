#!/usr/bin/env python3
"""Compares compiling programs of several lengths with Lua's compiler.

    compile.py SEGTOOL [--time ROUNDS]

A program consists of blocks of ten lines, each with numbers, a condition, a key of a map, a loop and a line of output. Lua compiles a
program of the same form. What an empty program takes is subtracted, so starting a process doesn't count. Callgrind counts the
instructions, and a time is the shortest of ROUNDS rounds.

Needs valgrind and lua5.4."""
import argparse
import os
import tempfile
from functools import partial

from operations import MEMORY, instructions, least, run, seconds

FRONT = """object x: int
object m: map<int>
object l: list<int>
fail { print "no room" }
"""

BLOCK = """if 1 {
    let a = %d
    let b = a * 7 + 2
    if b > 20 { x = b } else { x = a }
    m[a] = b
    for i in 0..3 {
        l.push(i + a)
    }
    print a, " ", b
}
"""

LUA_BLOCK = """do
    local a = %d
    local b = a * 7 + 2
    if b > 20 then x = b else x = a end
    m[a] = b
    for i = 0, 2 do
        table.insert(l, i + a)
    end
    print(a, " ", b)
end
"""

# how many blocks the programs have; 24 of them reach the limit of 4,096 instructions
BLOCKS = (0, 5, 10, 20)


def program(front, block, blocks):
    return front + "".join(block % number for number in range(blocks))


def commands(segtool, folder, blocks):
    """The commands that compile the program of each language."""
    mine, lua = f"{folder}/{blocks}.lez", f"{folder}/{blocks}.lua"
    for name, text in ((mine, program(FRONT, BLOCK, blocks)), (lua, program("x, m, l = 0, {}, {}\n", LUA_BLOCK, blocks))):
        with open(name, "w", encoding="utf-8") as out:
            out.write(text)
    return [segtool, "compile", mine, f"{folder}/client", "--force"], ["luac5.4", "-o", f"{folder}/luac.out", lua]


def main():
    parser = argparse.ArgumentParser(description=__doc__, formatter_class=argparse.RawDescriptionHelpFormatter)
    parser.add_argument("segtool")
    parser.add_argument("--time", type=int, default=20, metavar="ROUNDS")
    words = parser.parse_args()
    segtool = os.path.abspath(words.segtool)
    with tempfile.TemporaryDirectory(dir=MEMORY) as folder:
        pairs = {blocks: commands(segtool, folder, blocks) for blocks in BLOCKS}
        for pair in pairs.values():
            for command in pair:
                run(*command)
        times = least([partial(seconds, command) for pair in pairs.values() for command in pair], words.time)
        print(f"{'lines':>6}{'by':>10}{'instr.':>14}{'ms':>9}")
        base = [instructions(command) for command in pairs[0]]
        for index, blocks in enumerate(BLOCKS[1:], 1):
            for which, (name, command) in enumerate(zip(("segtool", "luac"), pairs[blocks])):
                count = instructions(command) - base[which]
                time = times[2 * index + which] - times[which]
                print(f"{10 * blocks:6}{name:>10}{count:14,}{1000 * time:9.2f}", flush=True)


if __name__ == "__main__":
    main()
