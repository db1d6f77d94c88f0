"""The commands of segtool with their arguments and options, read from what `segtool --help` and `segtool COMMAND --help` print."""
import os
import re
import subprocess
import sys
from dataclasses import dataclass
from pathlib import Path

ROOT = Path(__file__).resolve().parent.parent
SEGTOOL = ROOT / "crates" / "segtool" / "out" / "segtool"
SKIPPED = 77


@dataclass
class Argument:
    name: str
    is_required: bool
    is_repeated: bool
    help: str
    values: list  # the only values that it may have, or none


@dataclass
class Option:
    flags: list  # `-h` and `--help`, or only the long one
    value: str  # what follows it, or nothing
    help: str

    @property
    def long(self):
        return self.flags[-1]


@dataclass
class Command:
    name: str
    about: str
    arguments: list
    options: list
    notes: list  # the paragraphs after the options: lines each


@dataclass
class Program:
    about: str
    commands: list
    options: list  # of the program itself
    shared: list  # of each command
    notes: list


def version():
    """The version of Lezgauri."""
    source = ROOT / "crates" / "cli_host" / "src" / "command_line.rt"
    return re.search(r'^const VERSION: &str = "(\S+)', source.read_text(encoding="utf-8"), re.M)[1]


def rows(lines):
    """The rows of a table with two columns."""
    found = [re.match(r" +(\S.*?)  +(\S.*)$", line) for line in lines]
    if not all(found):
        raise SystemExit(f"a table of the help isn't understood: {lines}")
    return [(row[1], row[2]) for row in found]


def argument(name, text):
    values = re.search(r" \[possible values: (.*)\]$", text)
    return Argument(
        name=name.strip("<>[].").rstrip(">]"),
        is_required=name.startswith("<"),
        is_repeated=name.endswith("..."),
        help=text[: values.start()] if values else text,
        values=values[1].split(", ") if values else [],
    )


def option(flags, text):
    value = re.search(r" <(.*)>$", flags)
    return Option((flags[: value.start()] if value else flags).split(", "), value[1] if value else "", text)


def sections(text):
    """The parts of a help text: those with a title, and the paragraphs before and after them."""
    titled, plain = {}, []
    for part in text.rstrip("\n").split("\n\n"):
        lines = part.split("\n")
        if lines[0] in ("Commands:", "Arguments:", "Options:"):
            titled[lines[0][:-1]] = rows(lines[1:])
        elif not lines[0].startswith("Usage: "):
            plain.append(lines)
    return titled, plain


def read_help(program, *words):
    ran = subprocess.run([program, *words, "--help"], stdout=subprocess.PIPE, text=True, check=True)
    return sections(ran.stdout)


def read_command(program, name):
    titled, plain = read_help(program, name)
    return Command(
        name=name,
        about=plain[0][0],
        arguments=[argument(*row) for row in titled.get("Arguments", [])],
        options=[option(*row) for row in titled["Options"]],
        notes=plain[1:],
    )


def read_program(program):
    """All that the program's help texts tell. The options that every command has are told once, as `shared`."""
    titled, plain = read_help(program)
    commands = [read_command(program, name) for name, _ in titled["Commands"] if name != "help"]
    shared = [it for it in commands[0].options if all(it in command.options for command in commands)]
    for command in commands:
        command.options = [it for it in command.options if it not in shared]
    commands += [
        Command(name, about, [Argument("COMMAND", False, False, "A command", [it.name for it in commands])], [], [])
        for name, about in titled["Commands"]
        if name == "help"
    ]
    return Program(plain[0][0], commands, [option(*row) for row in titled["Options"]], shared, plain[1:])


def generate(doc, texts):
    """The main function of a script that generates files: writes the texts, or with --check compares them with the files.

    `texts` are pairs of a file's name and a function that makes its text from the program's help. The function has no argument where
    it doesn't need the program."""
    words = [it for it in sys.argv[1:] if it != "--check"]
    if len(words) > 1 or any(it.startswith("-") for it in words):
        raise SystemExit(doc)
    segtool = Path(words[0] if words else os.environ.get("SEGTOOL", SEGTOOL))
    program = read_program(segtool) if os.access(segtool, os.X_OK) else None
    status = 0
    for name, needs_program, make in texts:
        file = Path(__file__).parent / name
        if needs_program and program is None:
            print(f"{file.relative_to(ROOT)}: skipped, because {segtool} isn't built", file=sys.stderr)
            status = status or SKIPPED
            continue
        text = make(program) if needs_program else make()
        if "--check" not in sys.argv:
            file.write_text(text, encoding="utf-8")
        elif not file.exists() or file.read_text(encoding="utf-8") != text:
            print(f"{file.relative_to(ROOT)} isn't what {Path(sys.argv[0]).name} generates", file=sys.stderr)
            status = 1
    return status
