#!/usr/bin/env python3
"""Compares the words of lezgauri.c for statuses and reasons with those that `segtool --explain` prints, and the version of lezgauri.h
with segtool's. Fails if a status, a fault or a reason has no words, if the words of a fault don't end with what segtool prints for it, or
if the versions differ."""
import re
import sys
from pathlib import Path

ROOT = Path(__file__).resolve().parent.parent
LIBRARY = ROOT / "crates" / "lezgauri_c" / "include"
sys.path.insert(0, str(ROOT / "packaging"))

import commands  # noqa: E402

LITERAL = r'"((?:[^"\\]|\\.|\\\n)*)"'


def read(path):
    return (ROOT / "crates" / path).read_text(encoding="utf-8")


def literal(text):
    """What a string literal means: without its line breaks in the source, and without the line end at its end."""
    return re.sub(r"\\\n\s*", "", text).removesuffix("\\n")


def statuses():
    """The numbers of the statuses in lezgauri.h, by their names."""
    header = (LIBRARY / "lezgauri.h").read_text(encoding="utf-8")
    body = re.search(r"enum \{\s*LEZGAURI_OK = .*?\};", header, re.DOTALL)[0]
    return {name: int(number) for name, number in re.findall(r"(LEZGAURI_\w+) = (\d+)", body)}


def meanings(table, names):
    """A table of lezgauri.c: the words for each number."""
    source = (LIBRARY / "lezgauri.c").read_text(encoding="utf-8")
    body = re.search(rf"static const meaning {table}\[\] = \{{(.*?)\n\}};", source, re.DOTALL)[1]
    rows = re.findall(rf"\{{(\w+),((?:\s*{LITERAL})+)\}}", body)
    return {names[word] if word in names else int(word): "".join(re.findall(LITERAL, text)) for word, text, _ in rows}


def faults():
    """The numbers of the faults, by the names of their variants."""
    return {name: int(number) for name, number in re.findall(r"Fault::(\w+)(?:\(_\)| \{ \.\. \})? => (\d+),", read("seg_raw/src/fault.rt"))}


def limits():
    """The numbers that segtool prints in a rule, by the names of their constants."""
    source = read("seg_ptr/src/window.rt")
    found = re.findall(r"pub const (M\w+_LEN): u32 = (\d+)(?: << (\d+))?;", source)
    return {name: str(int(number) << int(shift or 0)) for name, number, shift in found}


def rules():
    """The rule that segtool prints for each fault that has one, by the name of its variant."""
    source = read("cli_explain/src/fault.rt")
    found = {}
    for name, text in re.findall(rf"Fault::(\w+)(?:\(_\))? =>\s*(?:\{{\s*)?{LITERAL}", source):
        found[name] = literal(text)
    for name, text in re.findall(rf"Fault::(\w+)(?:\(number\))? => write!\(\s*explanation,\s*{LITERAL}", source):
        found[name] = literal(text).replace("move {number}, counted from 0,", "a move")
    for constant, value in limits().items():
        found = {name: text.replace(f"{{{constant}}}", value) for name, text in found.items()}
    return {name: text for name, text in found.items() if text}


def reasons():
    """The rule that segtool prints for each reason, by the reason's number."""
    numbers = dict(re.findall(r"(\w+) = (\d),", read("client_verify/src/reason.rt")))
    body = read("cli_explain/src/rejection.rt").partition("fn rule(")[2].partition("\n}\n")[0]
    found = {name: literal(text) for name, text in re.findall(rf"Reason::(\w+)\.number\(\) \{{\s*{LITERAL}", body)}
    # the last branch has the one that is left
    (last,) = numbers.keys() - found.keys()
    found[last] = literal(re.search(rf"\}} else \{{\s*{LITERAL}", body)[1])
    return {int(numbers[name]): text for name, text in found.items()}


def main():
    problems = []
    names, ours, numbers, printed = statuses(), meanings("statuses", statuses()), faults(), rules()
    for number in sorted({*names.values(), *numbers.values()} - ours.keys()):
        problems.append(f"status {number} has no words in lezgauri.c")
    for name, rule in printed.items():
        text = ours.get(numbers[name], "")
        if not text.endswith(rule):
            problems.append(f"{name}: lezgauri.c has `{text}`, segtool prints `{rule}`")
    whys, why = meanings("reasons", {}), reasons()
    for number in sorted({*whys, *why}):
        if whys.get(number) != why.get(number):
            problems.append(f"reason {number}: lezgauri.c has `{whys.get(number)}`, segtool prints `{why.get(number)}`")
    header = (LIBRARY / "lezgauri.h").read_text(encoding="utf-8")
    version = re.search(r'^#define LEZGAURI_VERSION "(.*)"$', header, re.M)[1]
    if version != commands.version():
        problems.append(f"lezgauri.h has version {version}, segtool {commands.version()}")
    print(f"{len(ours)} statuses and {len(whys)} reasons, {len(printed) + len(why)} of them with words of segtool; version {version}")
    for problem in problems:
        print(f"  {problem}")
    return 1 if problems else 0


if __name__ == "__main__":
    sys.exit(main())
