#!/usr/bin/env python3
"""Writes the images that the tests of the checker describe, sound and damaged, to a folder: test_images.py DIR

Reads the texts in crates/test_segment and crates/test_command. crates/test_segment/src/tests/image.rt describes the notation."""
import re
import struct
import sys
from pathlib import Path

ROOT = Path(__file__).resolve().parent.parent
TYPE_KINDS = "unused i64 str vec list flat_map map own struct shared".split()
BLOCK_KINDS = "gap named object buffer node index index_node frozen".split()
LIVE = 1 << 31
TYPES, UNIQUES, HEAP = 64, 576, 704


class Image:
    """An image that is built block by block."""

    def __init__(self, bytes_=None):
        self.bytes, self.types, self.before = bytes_, 0, 0
        if bytes_ is None:
            self.bytes = bytearray(HEAP)
            self.bytes[:8] = b"SEGIMAGE"
            for at in (8, 24, 32, *(UNIQUES + 4 * number for number in range(32))):
                self.put(at, 1)

    def put(self, at, word):
        struct.pack_into("<I", self.bytes, at, word & 0xFFFFFFFF)

    def point(self, at, target):
        self.put(at, 1 if target is None else target - at)

    def build(self, line):
        """Does what a line of a text requires."""
        words = line.split()
        if words[:1] == ["type"]:
            self.add_type(words[1], words[2:])
        elif words[:1] == ["chain"]:
            self.add_chain(words[1], number(words[2]), number(words[3]))
        elif len(words) > 1 and re.fullmatch(r"\d+", words[0]):
            self.add_block(number(words[0]), words[1:])
        else:
            for change in words:
                self.change(change)

    def add_type(self, kind, parts):
        at = TYPES + 16 * self.types
        entry = bytes([TYPE_KINDS.index(kind), len(parts), *(number(part[1:]) for part in parts)])
        self.bytes[at : at + 16] = entry.ljust(16, b"\0")
        self.types += 1

    def add_block(self, payload, words):
        if words[0] == "gap":
            return self.push(payload, number(words[1]), 0, 0)
        type_id = number(words[1][1:])
        if words[0] == "unique":
            self.point(UNIQUES + 4 * type_id, payload)
        kind = "object" if words[0] == "unique" else words[0]
        return self.push(payload, number(words[2]), LIVE, BLOCK_KINDS.index(kind) + 256 * type_id)

    def push(self, payload, units, live, tag):
        block = len(self.bytes)
        if payload != block + 16:
            raise ValueError(f"no block can have its payload at {payload}")
        self.bytes += struct.pack("<IIII", units + live, self.before, tag, 1) + bytes(16 * units - 16)
        self.put(12, len(self.bytes) // 16)
        self.before = units

    def add_chain(self, kind, pointer, count):
        for _ in range(count):
            node = len(self.bytes) + 16
            self.push(node, 3, LIVE, BLOCK_KINDS.index(kind))
            self.point(node, None)
            self.point(node + 4, None)
            self.point(pointer, node)
            pointer = node

    def change(self, change):
        if "->" in change:
            at, target = change.split("->")
            self.point(number(at), None if target == "null" else number(target))
        elif ":" in change:
            at, long = change.split(":")
            struct.pack_into("<q", self.bytes, number(at), int(long))
        else:
            at, word = change.split("=")
            self.put(number(at), word_of(word))


def number(text):
    return int(text, 0)


def word_of(text):
    if text.startswith("'"):
        return int.from_bytes(text.strip("'").encode(), "little")
    low, _, high = text.partition(",")
    return number(low) + (number(high) << 16 if high else 0)


def images_of(text):
    """The images of a text: the image that it builds, with each list of changes."""
    image = Image()
    for line in text.split("\n"):
        changes, arrow, _ = line.partition(";")[0].partition("=>")
        if not arrow:
            image.build(changes)
            continue
        for change in changes.split("|"):
            changed = Image(bytearray(image.bytes))
            changed.build(change)
            yield bytes(changed.bytes)


def texts_of(source):
    """The texts of images in a file: the statements that begin with `$ image`, and constants without statements."""
    for text in re.findall(r'const \w+: &str = "\n([^"]*)"', source):
        first, *statements = text.split("$")
        yield from (lines.partition("\n")[2] for lines in statements if lines.split()[:1] == ["image"])
        if not statements:
            yield first


def changed_counters():
    """The counter's image with the changes that the tests of the commands make."""
    counter = (ROOT / "examples" / "counter.image").read_bytes()
    for file in sorted((ROOT / "crates" / "test_command" / "data").glob("*.cases")):
        source = file.read_text(encoding="utf-8")
        said = r"^(?:\$ (?:counter \w+|explains check changed) )?((?:\d+(?:=|:|->)\S+ ?)+)(?: *;.*| *=> fault.*)?$"
        for changes in re.findall(said, source, re.M):
            image = Image(bytearray(counter))
            try:
                image.build(changes)
            except (ValueError, struct.error):
                continue
            yield bytes(image.bytes)


def main():
    folder = Path(sys.argv[1])
    folder.mkdir(parents=True, exist_ok=True)
    found, unread = dict.fromkeys(changed_counters()), 0
    for file in sorted((ROOT / "crates" / "test_segment" / "src" / "tests").glob("*.rt")):
        for text in texts_of(file.read_text(encoding="utf-8")):
            try:
                found.update(dict.fromkeys(images_of(text)))
            except (ValueError, IndexError, struct.error):
                unread += 1
    for index, image in enumerate(found):
        (folder / f"{index:04}.image").write_bytes(image)
    print(f"{len(found)} images; {unread} texts weren't understood")


if __name__ == "__main__":
    main()
