#!/usr/bin/env python3
"""Finds each file that lists the operations, the types, the commands or the fields of an image's header, and fails if
docs/CHANGING.md doesn't name the file in the section about that change."""
import re
import subprocess
import sys
from pathlib import Path

ROOT = Path(__file__).resolve().parent.parent
PAGE = ROOT / "docs" / "CHANGING.md"


def read(path):
    return (ROOT / path).read_text(encoding="utf-8")


def items(path, opening):
    """The names that a block of a file declares, one per line."""
    block = read(path).partition(opening)[2].partition("\n}")[0]
    return re.findall(r"^ +(\w+)(?:\([^)]*\))?(?: = \d+)?,", block, re.M)


def subjects():
    """For each section of the page: how a file cites a name, the names, and how many of them make a list."""
    operations = items("crates/client_spec/src/table.rt", "pub enum Operation {")
    types = items("crates/seg_layout/src/kind.rt", "pub enum Type {")
    forms = [re.sub(r"(?<=[a-z])(?=[A-Z])", "_", name).lower() for name in types]
    commands = re.findall(r'\n        name: "(\w+)"', read("crates/cli_host/src/command_line.rt"))
    fields = re.findall(r"^(?:pub )?const ([A-Z_]+): usize", read("crates/seg_ptr/src/header.rt"), re.M)
    return {
        "A new instruction": (r"\b(?:Operation|op)(?:::|\.)(%s)\b", operations, 16),
        "A new type": (r"\b(?:Type::|Form\.)(%s)\b", types + forms, 6),
        "A new command": (r'"(%s)"', commands, 8),
        "A new field of the image's header": (r"\bheader::(%s)\b", fields, 4),
    }


def section(title):
    return PAGE.read_text(encoding="utf-8").partition(f"## {title}\n")[2].partition("\n## ")[0]


def is_named(path, said):
    """Whether a section names a file: by its path, or without its ending in a row that names a folder around it."""
    file = path.removeprefix("crates/")
    parts = file.rpartition(".")[0].split("/")
    splits = [("/".join(parts[:i]), "/".join(parts[i:])) for i in range(1, len(parts))]
    return file in said or any(f"`{folder}`" in row and f"`{rest}`" in row for row in said.splitlines() for folder, rest in splits)


def sources():
    listed = subprocess.run(["git", "ls-files", "crates"], cwd=ROOT, capture_output=True, text=True, check=True).stdout.split()
    return [path for path in listed if path.endswith((".rt", ".antt"))]


def main():
    wrong = 0
    for title, (pattern, names, fewest) in subjects().items():
        cited, said = re.compile(pattern % "|".join(names)), section(title)
        lists = [path for path in sources() if len(set(cited.findall(read(path)))) >= fewest]
        missing = [path for path in lists if not is_named(path, said)]
        wrong += len(missing)
        print(f"{title}: {len(lists)} files with a list, {len(missing)} of them not on the page")
        for path in missing:
            print(f"  {path}")
    return 1 if wrong else 0


if __name__ == "__main__":
    sys.exit(main())
