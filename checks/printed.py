#!/usr/bin/env python3
"""Runs the commands of docs/TUTORIAL.md, and compares their output with the page.

    printed.py SEGTOOL

A block begins with ```console. Its lines that begin with `$ ` are commands; if one ends in <<'EOF', it continues up to EOF. The
other lines are the output of the command before them, on both outputs."""
import os
import re
import shutil
import subprocess
import sys
import tempfile
from pathlib import Path

ROOT = Path(__file__).resolve().parent.parent
PAGE = ROOT / "docs" / "TUTORIAL.md"


def steps(text):
    """The commands of a page, each with the lines that it should print."""
    found = []
    for block in re.findall(r"(?ms)^```console\n(.*?)^```", text):
        lines = block.splitlines()
        while lines:
            command = lines.pop(0)
            if not command.startswith("$ "):
                raise SystemExit(f"{PAGE.name}: a block begins with what no command prints: {command}")
            command = command[2:]
            if command.endswith("<<'EOF'"):
                end = lines.index("EOF") + 1
                command = "\n".join([command, *lines[:end]])
                del lines[:end]
            printed = []
            while lines and not lines[0].startswith("$ "):
                printed.append(lines.pop(0))
            found.append((command, printed))
    return found


def main():
    if len(sys.argv) != 2 or not os.access(sys.argv[1], os.X_OK):
        raise SystemExit(__doc__)
    wrong = 0
    with tempfile.TemporaryDirectory() as room:
        shutil.copytree(ROOT / "examples", f"{room}/examples")
        os.makedirs(f"{room}/bin")
        shutil.copy2(sys.argv[1], f"{room}/bin/segtool")
        env = {**os.environ, "PATH": f"{room}/bin:{os.environ['PATH']}"}
        commands = steps(PAGE.read_text(encoding="utf-8"))
        for command, wanted in commands:
            ran = subprocess.run(["bash", "-c", command], cwd=room, env=env, stdout=subprocess.PIPE, stderr=subprocess.STDOUT, text=True)
            if ran.stdout.splitlines() != wanted:
                wrong += 1
                print(f"$ {command}\n--- the page says\n" + "\n".join(wanted) + f"\n--- it prints\n{ran.stdout}")
    print(f"{len(commands)} commands, {wrong} print something else")
    return 1 if wrong else 0


if __name__ == "__main__":
    sys.exit(main())
