#!/usr/bin/env python3
"""Tests the colours of reports: only on a terminal, and only if the user wants them; and the bar of long work.

    terminal.py SEGTOOL

Compiles a program with an error and one with a warning, with the error output on a pseudo-terminal or in a pipe, and
compares what is written with a text in which the colours are marked. Then runs a program that counts for some seconds,
and commands on large images: a terminal shows a bar that grows, for each kind of work, and that is removed before the
output. The output is the same without a bar."""
import filecmp
import os
import pty
import re
import shutil
import subprocess
import sys
import tempfile
from pathlib import Path

WRONG = """object x: int
let unused = 1
x = y
"""

WARNED = "let unused = 1\n"

# <..> is red, (..) yellow and [..] cyan. The carets of a warning are red too.
WRONG_REPORT = """wrong.lez:3:5: <error:> there is no `y` here
x = y
    <^>
"""

WARNED_REPORT = """warned.lez:1:5: (warning:) `unused` isn't used
let unused = 1
    <^^^^^^>
[hint:] if it isn't wanted, let its name begin with `_`
"""

WRONG_WORDS = "<error:> unrecognized subcommand 'chek'\n"

# Each command, with the beginning of its report.
REPORTS = [
    (["compile", "wrong.lez", "out"], WRONG_REPORT),
    (["compile", "warned.lez", "out", "--force"], WARNED_REPORT),
    (["chek"], WRONG_WORDS),
]

# It takes about 900 million steps, and prints a number.
LONG = """let n = 0
for i in 0..160000000 { n += i }
print n
"""

# They make a map with many keys, and many objects.
KEYS = """object all: map<int>
for i in 0..8000000 { all[i] = i }
print "made"
fail { print "no room"; stop }
"""

NAMES = """family name: int
for i in 0..3000000 { name[i] = i }
print "made"
fail { print "no room"; stop }
"""

# The sizes of images: for the keys and the names, and one whose check alone is expected to take more than a second.
FILLED = 512 << 20
LARGE = 640 << 20

# Each long command, with the words of its bars, in order. Nothing but the check takes long on the large image, which is
# empty.
WATCHED = [
    (["check", "large.image"], ["checking"]),
    (["check", "large.image", "--json"], ["checking"]),
    (["stat", "large.image", "--all"], ["checking"]),
    (["types", "large.image"], ["checking"]),
    (["verify", "large.image", "keys.lez"], ["checking"]),
    (["trace", "large.image", "empty.lez"], ["checking"]),
    (["compile", "keys.lez", "keys.client", "--on", "large.image"], ["checking"]),
    (["run", "large.image", "large.image", "empty.lez"], ["checking"]),
    (["list", "names.image"], ["listing"]),
    (["list", "names.image", "--json"], ["listing", "printing"]),
    (["show", "keys.image", "--all"], ["printing"]),
    (["show", "keys.image", "--json"], ["printing"]),
    (["get", "keys.image", "all"], ["printing"]),
    (["dump", "keys.image"], ["printing"]),
    (["map", "keys.image"], ["mapping", "printing"]),
    (["map", "keys.image", "--json"], ["mapping", "printing"]),
    (["diff", "keys.image", "other.image"], ["collecting", "comparing"]),
    (["load", "keys.dump", "loaded.image", "--force"], ["loading"]),
]

COLOURS = {"<": "\x1b[1;31m", "(": "\x1b[1;33m", "[": "\x1b[1;36m", ">": "\x1b[0m", ")": "\x1b[0m", "]": "\x1b[0m"}


def shown(text, is_coloured):
    """A text with its colours, or without them."""
    return "".join((colour if is_coloured else "") if (colour := COLOURS.get(letter)) else letter for letter in text)


def on_terminal(words, folder, env, out=subprocess.DEVNULL):
    """What a command writes to its error output, if that is a terminal. Its output goes to a file."""
    ours, theirs = pty.openpty()
    try:
        ran = subprocess.Popen(words, cwd=folder, env=env, stdout=out, stderr=theirs)
        os.close(theirs)
        written = b""
        while True:
            try:
                part = os.read(ours, 4096)
            except OSError:
                break
            if not part:
                break
            written += part
        ran.wait()
    finally:
        os.close(ours)
    return written.decode().replace("\r\n", "\n")


def in_pipe(words, folder, env, out=subprocess.DEVNULL):
    """What a command writes to its error output, if that is a pipe. Its output goes to a file."""
    return subprocess.run(words, cwd=folder, env=env, stdout=out, stderr=subprocess.PIPE, text=True, check=False).stderr


BAR = re.compile(r"\r([a-z]+) \[(#*) *\](?: +(\d+) %)?\x1b\[K")


def bars(shown):
    """For each kind of work that a terminal showed, in order: its word, and how much of it was done, in percent."""
    found = []
    for word, _, percent in BAR.findall(shown):
        if not found or found[-1][0] != word:
            found.append((word, []))
        found[-1][1].append(int(percent or 0))
    return found


def has_bars(shown, words):
    """Whether a terminal showed a bar for each of these kinds of work, in order, which grew, and nothing was left."""
    found = bars(shown)
    wanted = [it for it in found if it[0] in words]
    grows = all(parts == sorted(set(parts)) and (word == "checking" or len(parts) > 1) for word, parts in wanted)
    # the marks are counted from the work itself, which may be up to a per cent more
    is_drawn = all(len(mark) - int(percent or 0) * 40 // 100 in (0, 1) for _, mark, percent in BAR.findall(shown))
    rest = BAR.sub("", shown).replace("\r\x1b[K", "")
    return [word for word, _ in wanted] == words and grows and is_drawn and not rest and shown.endswith("\r\x1b[K")


def wrong_bars(segtool, words, works, folder, plain):
    """How many of the outputs of a long command are wrong: on a terminal, and without one that takes a bar."""
    command = [segtool, *words]
    with open(Path(folder, "with_bar"), "wb") as out:
        shown = on_terminal(command, folder, plain, out)
    with open(Path(folder, "without"), "wb") as out:
        quiet = [in_pipe(command, folder, plain, out), on_terminal(command, folder, {**plain, "TERM": "dumb"})]
    is_right = has_bars(shown, works)
    if not is_right:
        print(f"{words}: {bars(shown)} and not {works}: {shown[-400:]!r}")
    for it in filter(None, quiet):
        print(f"{words}, without a bar: {it!r}")
    is_same = filecmp.cmp(Path(folder, "with_bar"), Path(folder, "without"), shallow=False)
    if not is_same:
        print(f"{words} prints something else if it shows a bar")
    return (not is_right) + sum(map(bool, quiet)) + (not is_same)


def wrong_commands(segtool, folder, plain):
    """How many of the error outputs of long commands on large images are wrong."""
    for name, text in (("keys.lez", KEYS), ("names.lez", NAMES), ("empty.lez", "print 1\n")):
        Path(folder, name).write_text(text, encoding="ascii")
    for image, size in (("keys.image", FILLED), ("names.image", FILLED), ("large.image", LARGE)):
        subprocess.run([segtool, "new", image, str(size), "best", "tree"], cwd=folder, check=True)
    for made in ("keys", "names"):
        image = f"{made}.image"
        subprocess.run([segtool, "run", image, image, f"{made}.lez"], cwd=folder, stdout=subprocess.DEVNULL, check=True)
    shutil.copy(Path(folder, "keys.image"), Path(folder, "other.image"))
    subprocess.run([segtool, "set", "other.image", "all[7]", "8"], cwd=folder, check=True)
    with open(Path(folder, "keys.dump"), "wb") as dump:
        subprocess.run([segtool, "dump", "keys.image"], cwd=folder, stdout=dump, check=True)
    return sum(wrong_bars(segtool, words, works, folder, plain) for words, works in WATCHED)


def main():
    if len(sys.argv) != 2 or not os.access(sys.argv[1], os.X_OK):
        raise SystemExit(__doc__)
    segtool = os.path.abspath(sys.argv[1])
    plain = {"PATH": os.environ["PATH"], "TERM": "xterm"}
    cases = [
        (on_terminal, plain, True),
        (on_terminal, {**plain, "NO_COLOR": ""}, True),
        (on_terminal, {**plain, "NO_COLOR": "1"}, False),
        (on_terminal, {**plain, "TERM": "dumb"}, False),
        (on_terminal, {"PATH": plain["PATH"]}, False),
        (in_pipe, plain, False),
    ]
    wrong = 0
    with tempfile.TemporaryDirectory() as folder:
        Path(folder, "wrong.lez").write_text(WRONG, encoding="ascii")
        Path(folder, "warned.lez").write_text(WARNED, encoding="ascii")
        for run, env, is_coloured in cases:
            for words, report in REPORTS:
                written = run([segtool, *words], folder, env)
                if not written.startswith(shown(report, is_coloured)):
                    wrong += 1
                    print(f"{run.__name__} {env} {words}: {written!r}")
        Path(folder, "long.lez").write_text(LONG, encoding="ascii")
        subprocess.run([segtool, "new", "empty.image", "4096", "best", "tree"], cwd=folder, check=True)
        wrong += wrong_bars(segtool, ["run", "empty.image", "empty.image", "long.lez"], ["running"], folder, plain)
        wrong += wrong_commands(segtool, folder, plain)
    print(f"{len(REPORTS) * len(cases)} reports and {3 * (len(WATCHED) + 1)} long commands, {wrong} wrong")
    return 1 if wrong else 0


if __name__ == "__main__":
    sys.exit(main())
