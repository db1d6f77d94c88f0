#!/usr/bin/env python3
"""Generates the manual pages segtool.1, from the help texts of segtool, and lezgauri.3, from the comments of lezgauri.h.

    man.py [SEGTOOL]           writes the pages
    man.py --check [SEGTOOL]   fails if a page isn't what it would write

SEGTOOL is crates/segtool/out/segtool if it is left out. Without that program segtool.1 is skipped, and the status is 77."""
import re
import sys
import textwrap

import commands

DATE = "November 28, 2026"  # of the version
HEADER = commands.ROOT / "crates" / "lezgauri_c" / "include" / "lezgauri.h"

# What mdoc prints as another character.
SPECIAL = str.maketrans({"\\": r"\e", "^": r"\(ha", "~": r"\(ti", "`": r"\(ga"})


def escape(text):
    """A text whose characters all mean themselves."""
    return re.sub(r"(?<![\w.])-(?=[-\w])|(?<=-)-(?=\w)", r"\-", text.translate(SPECIAL))


def plain(text):
    """A text as lines of mdoc that begin no macro."""
    wrapped = textwrap.wrap(text, 76, break_long_words=False, break_on_hyphens=False)
    return [re.sub(r"^(?=[.'])", r"\&", escape(line)) for line in wrapped]


def macro_of(word):
    """The macro for a word of the header's comments, or None."""
    if re.fullmatch(r"LEZGAURI_[A-Z_]+", word):
        return f"Dv {word}"
    if re.fullmatch(r"lezgauri_[a-z_]+", word):
        return f"Fn {word}"
    if re.fullmatch(r"`[^`]+`|\*[a-z]+|[a-z]+->[a-z]+", word):
        return f"Fa {word.strip('`')}"
    if word in ("malloc", "segtool"):
        return {"malloc": "Xr malloc 3", "segtool": "Xr segtool 1"}[word]
    return None


def sentence(text):
    """A sentence as lines of mdoc. A word that has a macro begins a line."""
    lines, words = [], []
    for token in text.split():
        before, word, after = re.fullmatch(r"([(]*)(.*?)([).,:;]*)", token).groups()
        macro = macro_of(word)
        if macro is None or after.startswith(".."):
            words.append(token)
            continue
        lines += plain(" ".join(words))
        name, arguments = macro.split(" ", 1)
        lines.append(" ".join([f".{name}", *before, arguments, *after]))
        words = []
    return lines + plain(" ".join(words))


def prose(text):
    """A paragraph as lines of mdoc. Each sentence begins a line."""
    return [line for it in re.split(r"(?<=[.:])\s+(?=[A-Z`*])", text.strip()) if it for line in sentence(it)]


def head(title, section):
    return [f".Dd {DATE}", f".Dt {title} {section}", f".Os Lezgauri {commands.version()}"]


def first_small(text):
    return text[:1].lower() + text[1:]


def first_large(text):
    """A text whose first letter is large, unless its first word is a name."""
    first = re.match(r"[\w`*]*", text)[0]
    return text if macro_of(first) else text[:1].upper() + text[1:]


# segtool.1


def options_of(command):
    return [f".Op Fl {it.long[1:]}{' Ar ' + it.value if it.value else ''}" for it in command.options]


def arguments_of(command):
    lines = []
    for it in command.arguments:
        name = f"Ar {it.name}{' ...' if it.is_repeated else ''}"
        lines.append(f".{name}" if it.is_required else f".Op {name}")
    return lines


def items(command_arguments, options):
    """A list of arguments and options, with what each is."""
    lines = [".Bl -tag -width Ds"]
    for it in command_arguments:
        lines += [f".It Ar {it.name}", *prose(it.help)]
        if it.values:
            lines += [".Pp", "One of", *(f".Cm {value} ,"[: -2 if value == it.values[-1] else None] for value in it.values)]
    for it in options:
        lines += [f".It {' , '.join(f'Fl {flag[1:]}' for flag in it.flags)}{' Ar ' + it.value if it.value else ''}", *prose(it.help)]
    return [*lines, ".El"] if len(lines) > 1 else []


def note(lines):
    """A paragraph after the options: examples, whose lines are indented, or prose."""
    if lines[0] in ("Example:", "Examples:"):
        return [".Pp", lines[0], ".Bd -literal -offset indent", *(escape(it.strip()) for it in lines[1:]), ".Ed"]
    return [".Pp", *(line for it in lines for line in prose(it))]


def statuses(notes):
    """The exit statuses, and the other lines."""
    lines = [line for it in notes for line in it]
    told = [it for it in lines if it.startswith("Exit status: ")]
    cases = [it.split(" ", 1) for it in told[0].removeprefix("Exit status: ").rstrip(".").split("; ")]
    return cases, [it for it in lines if it not in told]


def segtool(program):
    cases, others = statuses(program.notes)
    lines = [*head("SEGTOOL", 1), ".Sh NAME", ".Nm segtool", f".Nd {escape(first_small(program.about))}", ".Sh SYNOPSIS"]
    for it in program.commands:
        lines += [".Nm", f".Cm {it.name}", *options_of(it), *arguments_of(it)]
    for it in program.options:
        lines += [".Nm", f".Fl {it.long[1:]}"]
    lines += [".Sh DESCRIPTION", ".Nm", f"{escape(first_small(program.about))}."]
    lines += [line for it in others for line in prose(it)]
    lines += [".Pp", "The program has these options:", *items([], program.options)]
    lines += [".Pp", "Each command has these options:", *items([], program.shared), ".Sh COMMANDS"]
    for it in program.commands:
        lines += [f".Ss {it.name}", *prose(f"{it.about}."), *items(it.arguments, it.options)]
        lines += [line for paragraph in it.notes for line in note(paragraph)]
    lines += [".Sh EXIT STATUS", ".Bl -tag -width Ds"]
    lines += [line for status, text in cases for line in (f".It {status}", *prose(first_large(text)))]
    lines += [".El", ".Sh SEE ALSO", ".Xr lezgauri 3", ".Pp"]
    lines += prose("TUTORIAL.md is an introduction. FORMATS.md specifies the files and what the commands print.")
    lines += prose("Both are in the folder share/doc/lezgauri of the installation.")
    return "\n".join(lines) + "\n"


# lezgauri.3


def pieces(text):
    """The header's comments, each with the declaration after it. The comments in declarations stay there."""
    body = text.partition('extern "C" {')[2].partition("#ifdef __cplusplus")[0].partition("#endif")[2]
    found = re.findall(r"(?ms)^/\*(.*?)\*/\n(.*?)(?=^/\*|\Z)", body)
    return [(paragraphs(comment), declaration.strip()) for comment, declaration in found]


def paragraphs(comment):
    """The paragraphs of a comment, lines each."""
    lines = [re.sub(r"^ \* ?", "", line).rstrip() for line in comment.strip("\n").split("\n")]
    text = "\n".join(lines).strip()
    return [it.split("\n") for it in re.split(r"\n\s*\n", text)]


def comment_text(found):
    """The paragraphs of a comment as mdoc. A paragraph of indented lines is a list of parameters."""
    lines = []
    for it in found:
        if all(line.startswith("  ") for line in it):
            lines += [".Bl -tag -width clients"]
            for line in it:
                name, text = line.split(None, 1)
                lines += [f".It Fa {name}", *prose(text)]
            lines += [".El"]
        else:
            lines += [".Pp", *prose(" ".join(it))]
    return lines[1:] if lines[0] == ".Pp" else lines


def functions(declaration):
    """The prototypes of a declaration: the type of the result, the name, and the parameters."""
    for result, name, parameters in re.findall(r"(?s)^([\w ]+ \**)(\w+)\((.*?)\);", declaration):
        yield result.strip(), name, [" ".join(it.split()) for it in parameters.split(",")]


def prototype(result, name, parameters):
    return [f".Ft {result}", f".Fo {name}", *(f'.Fa "{it}"' for it in parameters), ".Fc"]


def constants(declaration):
    """The constants of an enum, with their values and comments, as a list."""
    lines = [".Bl -tag -width Ds"]
    for name, value, text in re.findall(r"(?m)^ +(\w+) = ([^,/]*?),?(?: +/\* (.*) \*/)?$", declaration):
        lines += [f".It Dv {name} Pq {value.strip()}", *prose(first_large(text))]
    return [*lines, ".El"]


def fields(declaration):
    """The fields of a struct with their comments, as a list."""
    lines = [".Bl -tag -width Ds"]
    for field, text in re.findall(r"(?m)^ +([^;]*);(?: +/\* (.*?) \*/)?$", declaration):
        lines += [f'.It Fa "{field}"', *prose(first_large(text))]
    return [*lines, ".El"]


def introduction(found):
    """The header's first comment. A paragraph that begins with a few words and a colon has them as its title."""
    lines = prose(" ".join(found[0]))
    for it in found[1:]:
        title, _, text = " ".join(it).partition(": ")
        lines += [f".Ss {title}", *prose(first_large(text))]
    return lines


def kind_of(declaration):
    """What a declaration is, and its name."""
    for kind, pattern in (
        ("struct", r"typedef struct (\w+) \{"),
        ("type", r"typedef struct (\w+) \w+;"),
        ("enum", r"enum (\{)"),
        ("define", r"#define (\w+) "),
        ("function", r"[\w ]+ \**(\w+)\("),
    ):
        found = re.match(pattern, declaration)
        if found:
            return kind, found[1]
    raise SystemExit(f"a declaration isn't understood: {declaration}")


def lezgauri():
    text = HEADER.read_text(encoding="utf-8")
    all_pieces = [(*kind_of(declaration), comment, declaration) for comment, declaration in pieces(text)]
    prototypes = [it for _, _, _, declaration in all_pieces for it in functions(declaration)]
    names = [name for _, name, _ in prototypes]
    lines = [*head("LEZGAURI", 3), ".Sh NAME"]
    lines += [f".Nm {name}{' ,' if name != names[-1] else ''}" for name in names]
    lines += [".Nd managed memory segments, checked before use, and verified clients", ".Sh LIBRARY"]
    lines += ["liblezgauri", ".Pq Fl llezgauri ;", ".Ql pkg-config --cflags --libs lezgauri", "prints the flags of the compiler."]
    lines += [".Sh SYNOPSIS", ".In lezgauri.h"]
    lines += [line for it in prototypes for line in prototype(*it)]
    lines += [".Sh DESCRIPTION", *introduction(paragraphs(re.match(r"(?s)/\*(.*?)\*/", text)[1]))]
    # the first enum has the statuses
    returned, *enums = [[*comment_text(comment), *constants(text)] for kind, _, comment, text in all_pieces if kind == "enum"]
    defines = [line for kind, name, comment, _ in all_pieces if kind == "define" for line in (f".It Dv {name}", *comment_text(comment))]
    lines += [".Ss Constants", *enums[0], *(line for it in enums[1:] for line in (".Pp", *it)), ".Pp", "Others:"]
    lines += [".Bl -tag -width Ds", *defines, ".El"]
    for kind, name, comment, declaration in all_pieces:
        if kind not in ("enum", "define"):
            lines += [f".Ss {name}", *comment_text(comment), *(fields(declaration) if kind == "struct" else [])]
    lines += [".Sh RETURN VALUES", *returned, ".Sh SEE ALSO", ".Xr segtool 1"]
    return "\n".join(lines) + "\n"


if __name__ == "__main__":
    sys.exit(commands.generate(__doc__, [("segtool.1", True, segtool), ("lezgauri.3", False, lezgauri)]))
