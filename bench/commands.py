#!/usr/bin/env python3
"""Measures commands of segtool on a map of random keys in a segment of 64 MiB, and prints a table in Markdown.

    commands.py SEGTOOL [--rounds N] [--sizes KEYS,..]

A cell has seconds of the processor in user mode and elapsed seconds, the least of N rounds, and the most memory that was resident, in
MiB. Commands on one size take turns. `diff` compares with an image in which each value is another one."""
import argparse
import os
import tempfile
import time

from operations import HERE, MEMORY, run

ROWS = (
    ("`check`", ["check", "IMAGE"]),
    ("`stat`", ["stat", "IMAGE"]),
    ("`list`", ["list", "IMAGE"]),
    ("`show`", ["show", "IMAGE"]),
    ("`show --all`", ["show", "IMAGE", "--all"]),
    ("`show --json`", ["show", "IMAGE", "--json"]),
    ("`map`", ["map", "IMAGE"]),
    ("`map --json`", ["map", "IMAGE", "--json"]),
    ("`dump`", ["dump", "IMAGE"]),
    ("`load`", ["load", "DUMP", "LOADED", "--force"]),
    ("`diff`, all values differ", ["diff", "IMAGE", "OTHER"]),
)
STATUSES = {"diff": (0, 1)}


class Bench:
    """The images of one size in a folder."""

    def __init__(self, segtool, folder, keys):
        self.segtool, self.files = segtool, {it: f"{folder}/{it.lower()}" for it in ("IMAGE", "OTHER", "DUMP", "LOADED")}
        client = f"{folder}/client"
        text = open(f"{HERE}/clients/map_put.text", encoding="ascii").read().replace("@N", str(keys))
        for name, more in (("IMAGE", ""), ("OTHER", "ADD r8 r8 r1\n")):
            image = self.files[name]
            open(f"{client}.text", "w", encoding="ascii").write(text.replace("STORE r3 r8\n", f"{more}STORE r3 r8\n"))
            run(segtool, "asm", f"{client}.text", client, "--force")
            run(segtool, "new", image, str(64 << 20), "best", "tree", "--force")
            run(segtool, "run", image, image, client)
        with open(self.files["DUMP"], "w", encoding="ascii") as file:
            file.write(run(segtool, "dump", self.files["IMAGE"]).stdout)

    def measure(self, words):
        """The seconds of a command in user mode and in all, and its memory."""
        begun = time.perf_counter()
        child = os.fork()
        if child == 0:
            os.dup2(os.open(os.devnull, os.O_WRONLY), 1)
            os.execv(self.segtool, [self.segtool, *(self.files.get(it, it) for it in words)])
        _, status, used = os.wait4(child, 0)
        if os.waitstatus_to_exitcode(status) not in STATUSES.get(words[0], (0,)):
            raise SystemExit(f"{words}: status {os.waitstatus_to_exitcode(status)}")
        return used.ru_utime, time.perf_counter() - begun, used.ru_maxrss / 1024

    def rows(self, rounds):
        measured = [[self.measure(words) for _, words in ROWS] for _ in range(rounds)]
        return [tuple(map(min, zip(*of_row))) for of_row in zip(*measured)]


def main():
    parser = argparse.ArgumentParser(description=__doc__, formatter_class=argparse.RawDescriptionHelpFormatter)
    parser.add_argument("segtool")
    parser.add_argument("--rounds", type=int, default=5, metavar="N")
    parser.add_argument("--sizes", default="250000,500000,1000000", metavar="KEYS,..")
    words = parser.parse_args()
    sizes = [int(it) for it in words.sizes.split(",")]
    found = []
    for keys in sizes:
        with tempfile.TemporaryDirectory(dir=MEMORY) as folder:
            found.append(Bench(os.path.realpath(words.segtool), folder, keys).rows(words.rounds))
    print("| Command | " + " | ".join(f"{keys:,} keys" for keys in sizes) + " |\n|" + "---|" * (len(sizes) + 1))
    for (row, _), measured in zip(ROWS, zip(*found)):
        print(f"| {row} | " + " | ".join(f"{user:.2f} / {wall:.2f} s, {memory:,.0f} MiB" for user, wall, memory in measured) + " |")


if __name__ == "__main__":
    main()
