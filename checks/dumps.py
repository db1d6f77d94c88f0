#!/usr/bin/env python3
"""Loads random dumps, and compares what `dump` prints of the images: the same text.

    dumps.py SEGTOOL [--count N] [--seed S]

A dump has a segment of any allocator and index, frozen numbers that values share, named objects and arrays, and unique objects,
with values of each kind of type, nested."""
import argparse
import difflib
import random
import subprocess
import sys
import tempfile
from pathlib import Path

# each type is made of types before it
TYPES = ["i64", "str", "vec t1", "map t0", "own t3", "struct t0 t2 t4", "flat_map t5", "shared t0", "list t7", "vec t8", "own t6"]
BACKSLASH = 92
# the type of the list that points to all frozen objects, since `load` drops a frozen object that no cell points to
ALL = 8


def text_of(rng):
    """Up to 20 random bytes, as dump writes them."""
    bytes_ = rng.randbytes(rng.randrange(20))
    return "".join(chr(byte) if 32 <= byte < 127 and byte != BACKSLASH else f"\\{byte:02x}" for byte in bytes_)


def lines_of(rng, number, frozen):
    """The lines of a random value of a type, of an image with this many frozen numbers."""
    kind, *parts = TYPES[number].split()
    parts = [int(part[1:]) for part in parts]
    if kind == "i64":
        return [str(rng.choice([0, -1, 2**63 - 1, -(2**63), rng.randrange(-(2**63), 2**63)]))]
    if kind == "str":
        return [f'"{text_of(rng)}"']
    if kind == "shared":
        return [f"frozen {rng.randrange(frozen)}"] if frozen and rng.random() < 0.7 else ["nothing"]
    if kind == "own" and rng.random() < 0.3:
        return ["nothing"]
    if kind == "own":
        values = [lines_of(rng, parts[0], frozen)]
    elif kind == "struct":
        values = [lines_of(rng, part, frozen) for part in parts]
    elif kind in ("map", "flat_map"):
        keys = sorted({rng.randrange(-20, 20) for _ in range(rng.randrange(12))})
        values = [lines_of(rng, parts[0], frozen) for _ in keys]
        for key, value in zip(keys, values):
            value[0] = f"{key}: {value[0]}"
    else:
        values = [lines_of(rng, parts[0], frozen) for _ in range(rng.randrange(5))]
    return [kind, *("  " + line for value in values for line in value), "end"]


def dump_of(rng):
    """The lines of a random dump."""
    size = 1 << rng.randrange(16, 19)
    lines = [f"segment {size} {rng.choice(['seq', 'best'])} {rng.choice(['flat', 'tree'])}"]
    lines += [f"type {entry}" for entry in TYPES]
    frozen = rng.randrange(4)
    for number in range(frozen):
        lines += [f"frozen {number} t0", "  " + lines_of(rng, 0, 0)[0]]
    lines += [f"name all t{ALL}", "  list", *(f"    frozen {number}" for number in range(frozen)), "  end"]
    for name in sorted({f"n{rng.randrange(30)}" for _ in range(rng.randrange(9))}):
        kind, count = rng.randrange(len(TYPES)), rng.choice([1, 1, 1, rng.randrange(1, 6)])
        lines.append(f"name {name} t{kind}" + (f" {count}" if count > 1 else ""))
        for _ in range(count):
            lines += ["  " + line for line in lines_of(rng, kind, frozen)]
    for kind in sorted(rng.sample(range(len(TYPES)), rng.randrange(4))):
        lines += [f"unique t{kind}", *("  " + line for line in lines_of(rng, kind, frozen))]
    return lines


def run(*words):
    done = subprocess.run(words, capture_output=True, text=True)
    if done.returncode:
        raise SystemExit(f"{' '.join(words)}: {done.stderr}")
    return done.stdout


def main():
    parser = argparse.ArgumentParser(description=__doc__, formatter_class=argparse.RawDescriptionHelpFormatter)
    parser.add_argument("segtool")
    parser.add_argument("--count", type=int, default=1000)
    parser.add_argument("--seed", type=int, default=1)
    asked = parser.parse_args()
    with tempfile.TemporaryDirectory() as folder:
        text, image = Path(folder, "text"), Path(folder, "image")
        for seed in range(asked.seed, asked.seed + asked.count):
            lines = dump_of(random.Random(seed))
            text.write_text("\n".join(lines) + "\n", encoding="ascii")
            run(asked.segtool, "load", str(text), str(image))
            if run(asked.segtool, "check", str(image)) != "ok\n":
                raise SystemExit(f"seed {seed}: the image isn't sound")
            dumped = run(asked.segtool, "dump", str(image)).splitlines()
            if dumped != lines:
                differences = difflib.unified_diff(lines, dumped, "text", "dump", lineterm="")
                raise SystemExit("\n".join([f"\nseed {seed}: another dump", *differences]))
            image.unlink()
            if sys.stderr.isatty():
                print(f"\r{seed - asked.seed + 1} of {asked.count} dumps", end="", file=sys.stderr)
    print(f"{asked.count} dumps, each the same after it was loaded")


if __name__ == "__main__":
    main()
