#!/usr/bin/env python3
"""Makes random programs of the language's core, and tests that `segtool verify --explain` shows the meaning of each.

The core is what docs/LANGUAGE.md calls so. A program that the compiler refuses because it passes a limit isn't counted.
Programs that need more than the core are made, too: of these nothing may be shown."""
import argparse
import random
import subprocess
import sys
import tempfile
from pathlib import Path

ROOT = Path(__file__).resolve().parent.parent
NUMBERS = [0, 1, 2, 3, 7, 10, 255, 2**31 - 1, 2**31, 123456789012, 2**62]
OPERATORS = ["+", "-", "*", "<", "<=", ">", ">=", "==", "!=", "&&", "||"]
SETTERS = ["=", "+=", "-=", "*="]
# each needs more than the core
BEYOND = ['for i in 0..3 { print i }\n', 'object m: map<int>\nm[1] = 2 else { }\n', 'let n = 7\nprint n / 2, "\\n"\n',
          'let n = 7\nprint n, " is seven"\n', 'fn f() -> int { return 1 }\nprint f()\n', 'for b in input { print b }\n']


class Maker:
    def __init__(self, seed):
        self.random = random.Random(seed)
        self.names = 0
        self.objects = self.random.sample(["x", "y", "z"], self.random.randint(0, 3))

    def text(self):
        rows = [f"object {name}: int" + self.random.choice(["", f' as "{name}-1"']) for name in self.objects]
        rows.append(self.random.choice(['fail { print "no room" }', "fail { }"]))
        rows += self.block([], [], self.random.randint(0, 3), 0)
        return "\n".join(rows) + "\n"

    def number(self, variables, depth=2):
        roll = self.random.random()
        if depth == 0 or roll < 0.3:
            return self.random.choice(variables) if variables and roll < 0.2 else str(self.random.choice(NUMBERS))
        inner = self.number(variables, depth - 1)
        if roll < 0.4 and self.objects:
            return f"({self.random.choice(self.objects)} ?? {inner})"
        if roll < 0.5:
            return f"{self.random.choice('-!')}({inner})"
        return f"({inner} {self.random.choice(OPERATORS)} {self.number(variables, depth - 1)})"

    def block(self, variables, fixed, depth, indent):
        variables, rows = list(variables), []
        for _ in range(self.random.randint(1, 5)):
            rows += self.statement(variables, fixed, depth, indent)
        return [row if row.startswith(" ") else "    " * indent + row for row in rows]

    def statement(self, variables, fixed, depth, indent):
        choose, number = self.random.choice, self.number(variables)
        settable = [name for name in variables if name not in fixed]
        kinds = ["print", "line"] + ["let"] * (len(variables) < 6) + ["set"] * bool(settable)
        kinds += ["store", "delete"] * bool(self.objects) + ["if", "while"] * (depth > 0)
        kinds += ["find"] * (depth > 0 and bool(self.objects) and len(variables) < 6)
        match choose(kinds):
            case "print":
                return [f'print "t{self.random.randint(0, 9)}"']
            case "line":
                return [choose(["print ", 'print "n = ", ']) + number]
            case "let":
                variables.append(self.name())
                return [f"let {variables[-1]} = {number}"]
            case "set":
                return [f"{choose(settable)} {choose(SETTERS)} {number}"]
            case "store":
                return [f"{choose(self.objects)} {choose(SETTERS)} {number}" + choose(["", ' else { print "E" }'])]
            case "delete":
                return [f"delete {choose(self.objects)}"]
            case "if":
                return self.parts(f"if {number}", variables, fixed, variables, fixed, depth, indent)
            case "while":
                head = f"while {number} max {self.random.randint(1, 20)}"
                return self.parts(head, variables, fixed, variables, fixed, depth, indent)
            case _:
                name = self.name()
                head = f"if let {name} = {choose(self.objects)}"
                return self.parts(head, [*variables, name], [*fixed, name], variables, fixed, depth, indent)

    def parts(self, head, inside, fixed, outside, outside_fixed, depth, indent):
        """A statement with a block and perhaps an `else`."""
        rows = [f"{head} {{", *self.block(inside, fixed, depth - 1, indent + 1)]
        if self.random.random() < 0.5:
            rows += ["    " * indent + "} else {", *self.block(outside, outside_fixed, depth - 1, indent + 1)]
        return [*rows, "    " * indent + "}"]

    def name(self):
        self.names += 1
        return f"v{self.names}"


def shown(segtool, folder, text):
    """The last line of `verify --explain`, or None if the program passes a limit."""
    program = folder / "program.lez"
    program.write_text(text)
    done = subprocess.run([segtool, "verify", "image", "program.lez", "--explain"], cwd=folder, capture_output=True, text=True)
    if done.returncode == 1 and "error:" in done.stderr:
        return None
    return done.stdout.splitlines()[-1] if done.stdout else f"status {done.returncode}: {done.stderr}"


def main():
    parser = argparse.ArgumentParser(description=__doc__, formatter_class=argparse.RawDescriptionHelpFormatter)
    parser.add_argument("count", type=int, nargs="?", default=1000)
    parser.add_argument("--seed", type=int, default=1)
    parser.add_argument("--segtool", default=str(ROOT / "crates/segtool/out/segtool"))
    options = parser.parse_args()
    wrong = refused = 0
    with tempfile.TemporaryDirectory() as name:
        folder = Path(name)
        subprocess.run([options.segtool, "new", "image", "4096", "best", "tree"], cwd=folder, check=True)
        for seed in range(options.seed, options.seed + options.count):
            text = Maker(seed).text()
            line = shown(options.segtool, folder, text)
            if line is None:
                refused += 1
            elif line != "meaning shown":
                wrong += 1
                print(f"seed {seed}: {line}\n{text}", flush=True)
        for text in BEYOND:
            line = shown(options.segtool, folder, text)
            if line != "meaning not shown":
                wrong += 1
                print(f"beyond the core: {line}\n{text}", flush=True)
    print(f"{options.count} programs, {refused} past a limit, {wrong} wrong")
    return 1 if wrong or refused * 10 > options.count else 0


if __name__ == "__main__":
    sys.exit(main())
