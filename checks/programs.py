#!/usr/bin/env python3
"""Tests the compiler of programs from outside, with random programs and with damaged ones.

    programs.py random [--count N] [--seed S] [--segtool PATH] [--jobs J] [--short] [--stops]
    programs.py damaged [--count N] [--seed S] [--segtool PATH] [--jobs J]

`random` runs a table of short programs, then N random well-typed ones, ten for an image, with `segtool run`. It
compares what they print and the objects that they leave with `program_meaning.py`. With `--short` the images are so
small that memory runs out.
`damaged` changes the bytes of programs; `segtool compile` has to report an error for each, or to write a client that
the verifier accepts. A failure is printed with what repeats it."""
import argparse
import copy
import multiprocessing
import os
import random
import re
import resource
import subprocess
import sys
import tempfile
import threading
import time
from collections import Counter
from pathlib import Path

import program_meaning as meaning

ROOT = Path(__file__).resolve().parent.parent
COMBINATIONS = [("seq", "flat"), ("best", "tree"), ("seq", "tree"), ("best", "flat")]
SESSION = 10  # programs that run on one image
SIZE, SHORT_SIZES = 1 << 18, (1024, 1536, 2048, 3072, 4096)
MOST_TYPES = 28
MOST_SHOWN = 200  # the bytes of a line that are shown before and after the beginning of an error

INT, TEXT = ("int",), ("text",)
SEQUENCES, MAPS, CELLS = ("vec", "list"), ("map", "flat_map"), ("own", "shared")


# ---- what the programs of an image have in common


def written(kind):
    if kind[0] == "struct":
        return kind[1]
    return kind[0] if len(kind) == 1 else f"{kind[0]}<{written(kind[1])}>"


class Object:
    """An object, a family or a unique object. `count` is the length of an array, `exact` the name in the segment."""

    def __init__(self, name, word, kind, count=None, exact=None):
        self.name, self.word, self.kind, self.count, self.exact = name, word, kind, count, exact

    def declaration(self):
        count = f"[{self.count}]" if self.count else ""
        exact = f' as "{self.exact}"' if self.exact else ""
        return f"{self.word} {self.name}{count}: {written(self.kind)}{exact}"


class World:
    """The structs and objects that the programs of an image use."""

    def __init__(self, rng):
        self.rng = rng
        while True:
            self.structs = {}
            names = [f"S{number}" for number in range(rng.randint(1, 3))]
            for name in names:
                earlier = list(self.structs)
                fields = [(f"a{number}", self.type(2, earlier, names)) for number in range(rng.randint(1, 4))]
                if not any(kind == INT for _, kind in fields):
                    fields[0] = ("a0", INT)
                self.structs[name] = fields
            self.objects = [self.object(number) for number in range(rng.randint(4, 9))]
            uniques = [self.shape(thing.kind, 4) for thing in self.objects if thing.word == "unique"]
            if len(self.types()) <= MOST_TYPES and len(uniques) == len(set(uniques)):
                break

    def object(self, number):
        rng, names = self.rng, list(self.structs)
        word = rng.choices(["object", "array", "family", "unique"], [12, 1.5, 2, 2])[0]
        kind = self.type(3, names, names)
        if word == "array":
            return Object(f"o{number}", "object", rng.choice([INT, INT, TEXT, kind]), rng.randint(2, 5))
        exact = rng.choice(["", "", "", f"other-{number}!"]) if word != "unique" else ""
        if word == "unique":
            kind = ("struct", rng.choice(names))
        return Object(f"o{number}", word, kind, None, exact)

    def type(self, depth, inline, names):
        """A random type. `inline` are the structs that may lie in it directly, `names` those behind a pointer."""
        rng = self.rng
        word = rng.choices(["int", "text", "vec", "list", "map", "flat_map", "own", "shared", "struct"],
                           [5, 3, 2, 3, 3, 2, 1.5, 1.5, 2])[0]
        if word == "struct" and inline:
            return ("struct", rng.choice(inline))
        if word in ("int", "text") or depth == 0 or word == "struct":
            return TEXT if word == "text" else INT
        if word in CELLS:
            if rng.random() < 0.7 and names:
                return (word, ("struct", rng.choice(names)))
            return (word, rng.choice([INT, TEXT, ("list", INT), ("map", TEXT), ("map", INT)]))
        # an item may be a struct that isn't declared yet, since it is behind a pointer
        return (word, self.type(depth - 1, names, names))

    def shape(self, kind, depth):
        """A type without names, to a depth. Two unique objects of the same shape are one object."""
        return (kind[0], *(self.shape(part, depth - 1) for part in self.parts(kind))) if depth else kind[0]

    def parts(self, kind):
        if kind[0] == "struct":
            return [part for _, part in self.structs[kind[1]]]
        return list(kind[1:])

    def types(self):
        """All types that an image gets. Two structs of the same shape count twice."""
        found = {INT, TEXT}
        waiting = [thing.kind for thing in self.objects] + [("struct", name) for name in self.structs]
        while waiting:
            kind = waiting.pop()
            if kind not in found:
                found.add(kind)
                waiting += self.parts(kind)
        return found


# ---- a random program


class Name:
    """A local name. `path` is where its place lies; a number has none."""

    def __init__(self, text, kind, path=None, settable=False, frozen=False, owned=False, loop=0):
        self.text, self.kind, self.path, self.settable = text, kind, path, settable
        self.frozen, self.owned, self.loop = frozen, owned, loop
        self.alive = True


class Place:
    """An expression for a place. `absent` tells whether it may be absent, `bare` whether it is only a local name."""

    def __init__(self, text, kind, path, absent, frozen=False, bare=False):
        self.text, self.kind, self.path, self.absent, self.frozen, self.bare = text, kind, path, absent, frozen, bare


class Function:
    """A function: the types of its parameters, whether it returns a number, what it removes, the numbers of the
    parameters that it changes, and whether it may stop the program."""

    def __init__(self, name, parameters, gives):
        self.name, self.parameters, self.gives = name, parameters, gives
        self.removals, self.written, self.stops = [], set(), False


def meets(one, other):
    """Whether two steps of paths may be the same: fields by name, and keys unless both are constant and differ."""
    if one[0] == "key" and other[0] == "key":
        return one[1] is None or other[1] is None or one[1] == other[1]
    return one == other


def same_step(one, other):
    """As `meets`, but constant keys count as the same."""
    return one[0] == other[0] == "key" or one == other


def ends(path, removal):
    """Whether a removal ends a name with this path. It has a path too, and tells whether the place itself goes, or only
    what is below it."""
    (root, steps), ((other, gone), whole) = path, removal
    if root[:2] != other[:2]:
        return False
    if not gone and len(root) > 2 and root[2] is not None and other[2] is not None and root[2] != other[2]:
        return False if whole else True
    if len(steps) < len(gone) + (0 if whole else 1):
        return False
    if not all(same_step(one, two) for one, two in zip(steps, gone)):
        return False
    return not (whole and gone) or meets(steps[len(gone) - 1], gone[-1])


LITERALS = ["0", "1", "2", "3", "4", "7", "10", "255", "256", "1_000", "0x7f", "'a'", "'\\n'", "true", "false"]
LARGE = ["9223372036854775807", "2147483647", "2147483648", "4294967296", "1_000_000_007", "0x7fff_ffff_ffff"]
PIECES = ["", "a", "bc", "x y", "n=", "end", "\\n", "\\t", "\\x01", "\\xff", "\\0", "\\r", "\\'", "\\\"", "\\\\", "é",
          "#", "//", "0"]


class Maker:
    """Makes one program for a world. A statement is a list of lines."""

    def __init__(self, rng, world, number, short=False, stops=False):
        self.rng, self.world, self.number, self.short, self.stops = rng, world, number, short, stops
        self.names, self.in_key = 0, False
        self.functions, self.constants, self.texts = [], [], []
        self.objects = [thing for thing in world.objects if rng.random() < 0.8] or world.objects[:1]
        self.budget, self.deepest = rng.randint(6, 26), rng.choice([1, 2, 2, 3, 3, 4])
        self.begin()

    def begin(self):
        """Forgets the local names, for the body of a function or of the program. `scope` are the names that can be
        used, `every` all names so far, `protected` the paths that nothing may remove, and `held` objects of a `use`."""
        self.scope, self.every, self.protected = [], [], []
        self.held, self.loop, self.function, self.turns, self.deep = {}, 0, None, 1, 0

    def chance(self, likely):
        return self.rng.random() < likely

    def fresh(self):
        self.names += 1
        return f"v{self.names}"

    def add(self, name):
        self.scope.append(name)
        self.every.append(name)
        return name

    # places

    def numbers(self):
        return [name for name in self.scope if name.kind == INT and name.path is None]

    def root(self):
        """Where a place can begin, or None."""
        names = [name for name in self.scope if name.path is not None and name.alive]
        things = [thing for thing in self.objects if thing.name not in self.held]
        if not names and not things:
            return None
        found = self.rng.choice(names + names + things)
        if isinstance(found, Name):
            return Place(found.text, found.kind, found.path, False, found.frozen, True)
        if found.word == "family":
            text, key = self.key()
            return Place(f"{found.name}[{text}]", found.kind, (("family", found.name, key), ()), True)
        path = (("object", found.name), ())
        text = f"{found.name}[{self.key(found.count)[0]}]" if found.count else found.name
        return Place(text, found.kind, path, True)

    def key(self, most=4):
        """A key or an index: its text, and its number if it is constant."""
        choice = self.rng.random()
        numbers = self.numbers()
        if choice < 0.55 or not numbers and choice < 0.9:
            number = self.rng.randrange(most)
            return str(number), number
        if choice < 0.85:
            return self.rng.choice(numbers).text, None
        if self.in_key or not numbers and choice < 0.97:
            return self.atom()[0], None
        self.in_key = True
        text = self.number_text(1)
        self.in_key = False
        return text, None

    def place(self, wanted, write=False):
        """A random place whose type is wanted, or None. With `write` it isn't in a frozen object."""
        for _ in range(12):
            place = self.root()
            if place is None:
                return None
            for _ in range(5):
                if place.frozen and write:
                    break
                if wanted(place.kind) and self.chance(0.7):
                    return place
                place = self.further(place)
                if place is None:
                    break
        return None

    def further(self, place):
        """A place one step further, or None."""
        text, kind, (root, steps), absent, frozen = place.text, place.kind, place.path, place.absent, place.frozen
        if kind[0] in CELLS:
            frozen = frozen or kind[0] == "shared"
            kind, steps, absent = kind[1], steps + (("content",),), True
        if kind[0] == "struct":
            field, part = self.rng.choice(self.world.structs[kind[1]])
            return Place(f"{text}.{field}", part, (root, steps + (("field", field),)), absent, frozen)
        if kind[0] in SEQUENCES + MAPS:
            key_text, key = self.key()
            return Place(f"{text}[{key_text}]", kind[1], (root, steps + (("key", key),)), True, frozen)
        return None

    def removes(self, removal):
        """Ends the names that a removal ends. Returns False, and ends none, if a loop or a function still needs one."""
        (root, _), _ = removal
        function = self.function
        if function is not None:
            places = [parameter for parameter in function.parameters if parameter != INT]
            if root[0] != "owned" and places and (root[0] != "parameter" or len(places) > 1):
                return False
        if any(ends(path, removal) for path in self.protected):
            return False
        for name in self.every:
            if name.path is not None and (ends(name.path, removal) or function and root[0] == "parameter"
                                          and name.path[0][0] not in ("parameter", "owned")):
                name.alive = False
        if function is not None and root[0] != "owned":
            function.removals.append(removal)
        return True

    def writes(self, place):
        if self.function is not None and place.path is not None and place.path[0][0] == "parameter":
            self.function.written.add(place.path[0][1])

    # expressions: a text, and how strongly its outermost operator binds

    def at(self, level, depth):
        text, binds = self.expression(depth)
        return text if binds >= level and not self.chance(0.1) else f"({text})"

    def number_text(self, depth=2):
        return self.expression(depth)[0]

    def expression(self, depth):
        rng, choice = self.rng, self.rng.random()
        if depth == 0 or choice < 0.3:
            return self.atom()
        if choice < 0.5:
            return self.read()
        if choice < 0.57:
            call = self.called(True)
            return (call, 6) if call else self.read()
        if choice < 0.63:
            operation = rng.choice("-!")
            text = self.at(6, depth - 1)
            return (operation + (f"({text})" if text[0] == "-" else text), 6)
        if choice < 0.68:
            place = self.place(lambda kind: kind == TEXT)
            if place:
                return (f"{place.text} {rng.choice(['==', '!='])} {self.constant_text()}", 3)
            return self.atom()
        if choice < 0.71:
            divisors = [name.text for name in self.numbers()] if self.chance(0.5) else []
            divisor = rng.choice(divisors or ["2", "3", "10", "(-7)"])
            return (f"{self.at(5, depth - 1)} {rng.choice('/%')} {divisor}", 5)
        if choice < 0.85:
            operation = rng.choice(["+", "-", "*"])
            level = 5 if operation == "*" else 4
            return (f"{self.at(level, depth - 1)} {operation} {self.at(level + 1, depth - 1)}", level)
        if choice < 0.94:
            operation = rng.choice(["==", "!=", "<", "<=", ">", ">="])
            return (f"{self.at(4, depth - 1)} {operation} {self.at(4, depth - 1)}", 3)
        operation, level = rng.choice([("&&", 2), ("||", 1)])
        return (f"{self.at(level, depth - 1)} {operation} {self.at(level + 1, depth - 1)}", level)

    def atom(self):
        numbers = self.numbers()
        if numbers and self.chance(0.6):
            return (self.rng.choice(numbers).text, 6)
        if self.constants and self.chance(0.2):
            return (self.rng.choice(self.constants), 6)
        return (self.rng.choice(LARGE if self.chance(0.04) else LITERALS), 6)

    def read(self):
        """A number of the segment."""
        kinds = ("text",) + SEQUENCES + MAPS
        choice = self.rng.random()
        if choice < 0.03:
            arrays = [thing for thing in self.objects if thing.count]
            if arrays:
                return (f"{self.rng.choice(arrays).name}.len", 6)
        if choice < 0.25:
            place = self.place(lambda kind: self.inside(kind)[0] in kinds)
            if place:
                return self.defaulted(f"{place.text}.len", place.absent or place.kind[0] in CELLS)
        if choice < 0.35:
            place = self.place(lambda kind: self.inside(kind)[0] in MAPS)
            if place:
                step = "first" if self.chance(0.5) else f"after({self.number_text(0)})"
                return self.defaulted(f"{place.text}.{step}", True)
        if choice < 0.42:
            place = self.place(lambda kind: kind == TEXT)
            if place:
                return self.defaulted(f"{place.text}[{self.key()[0]}]", True)
        place = self.place(lambda kind: kind == INT)
        return self.defaulted(place.text, place.absent) if place else self.atom()

    def inside(self, kind):
        """The type of what `.` and `[ ]` see."""
        return kind[1] if kind[0] in CELLS else kind

    def defaulted(self, text, absent):
        if not absent:
            return (text, 6)
        other = self.rng.choice(["0", "1", "-1", "7"]) if self.chance(0.85) else self.at(6, 1)
        return (f"{text} ?? {other}", 6)

    def constant_text(self, long=False):
        if self.texts and self.chance(0.2):
            return self.rng.choice(self.texts)
        if long and self.chance(0.01):
            # a constant of a client has 255 bytes
            return '"' + "long text " * self.rng.randint(25, 60) + '"'
        return '"' + "".join(self.rng.choice(PIECES) for _ in range(self.rng.randint(1, 2))) + '"'

    def called(self, number):
        """A call of a function, in an expression or alone."""
        function = self.rng.choice(self.functions) if self.functions else None
        if function is None or number and (not function.gives or function.removals):
            return None
        if number and function.stops and not self.stops:
            return None
        if self.function is not None:
            self.function.stops = self.function.stops or function.stops
        values, paths, given = [], {}, []
        for at, kind in enumerate(function.parameters):
            if kind == INT:
                values.append(self.number_text(1))
                continue
            place = self.place(lambda other, kind=kind: other == kind, write=at in function.written)
            if place is None or place.absent or place.path in given:
                return None
            if at in function.written:
                self.writes(place)
            paths[at] = place.path
            given.append(place.path)
            values.append(place.text)
        removals = []
        for (root, steps), whole in function.removals:
            if root[0] == "parameter":
                root, steps = paths[root[1]][0], paths[root[1]][1] + steps
            removals.append(((root, steps), whole))
        # a function that removes something of the object that it is given a part of would end its own parameter
        for removal in removals:
            if self.function is not None and removal[0][0][0] != "owned":
                return None
            if any(ends(path, removal) for path in [*self.protected, *paths.values()]):
                return None
        for removal in removals:
            if not self.removes(removal):
                return None
        return f"{function.name}({', '.join(values)})"

    # blocks

    def block(self, most, begin=(), before=()):
        """A block: its lines without braces, and whether its end is never reached. `begin` are names that it begins
        with, and `before` lines."""
        scope, held = list(self.scope), dict(self.held)
        for name in begin:
            self.add(name)
        lines, left = list(before), False
        self.deep += 1
        for _ in range(self.rng.randint(1, most)):
            if self.budget <= 0:
                break
            made, left = self.statement()
            lines += made
            if left:
                break
        self.deep -= 1
        for name in self.scope[len(scope):]:
            if name.owned:
                self.removes(((name.path[0], ()), True))
        self.scope, self.held = scope, held
        return lines or ([] if self.chance(0.3) else ['print "-"']), left

    def branches(self, first, second):
        """Makes the parts of a branch; a name is alive after it if it is alive after each part that ends."""
        before = {name: name.alive for name in self.every}
        one, left_one = first()
        after = {name: name.alive for name in self.every}
        for name, alive in before.items():
            name.alive = alive
        other, left_other = second()
        for name, alive in after.items():
            if name in before:
                name.alive = name.alive and alive
        return one, other, left_one and left_other

    def braces(self, lines):
        if not lines:
            return ["{ }"]
        if len(lines) == 1 and self.chance(0.4) and not lines[0].lstrip().startswith("#"):
            return [f"{{ {lines[0].strip()} }}"]
        return ["{"] + ["    " + line for line in lines] + ["}"]

    def join(self, head, lines, *rest):
        """A statement of a head, a block, and further heads and blocks."""
        made = self.braces(lines)
        made[0] = f"{head} {made[0]}"
        for head, lines in zip(rest[::2], rest[1::2]):
            block = self.braces(lines)
            made[-1] += f" {head} {block[0]}"
            made += block[1:]
        return made

    def code(self):
        """The head of an else part, and the name of its code or None."""
        if self.chance(0.4):
            name = self.fresh()
            return f"else {name}", Name(name, INT)
        return "else", None

    def short_block(self, code=None, alone=False):
        """A small block that changes nothing, for an else part."""
        lines = []
        if code is not None:
            lines.append(f'print "code ", {code.text}')
        elif alone or self.short or self.chance(0.8):
            lines.append(f'print "{self.rng.choice(["none", "failed", "no", "-"])}"')
        return lines

    def leaving(self, printing=True):
        """A statement that leaves."""
        choices = ["stop"] if self.chance(0.05) else []
        if self.loop:
            choices += ["break", "continue"]
        if self.function is not None:
            choices.append(f"return {self.number_text(1)}" if self.function.gives else "return")
        if not choices:
            choices = ["stop"]
        lines = self.short_block(None, True) if printing and self.chance(0.5) else []
        lines.append(self.rng.choice(choices))
        return lines if lines[-1] != "stop" else lines[:-1] + [self.stop()]

    def stop(self):
        if self.function is not None:
            self.function.stops = True
        return "stop"

    def otherwise(self, likely=0.5):
        """An else part for a statement that can fail, as words to add, or nothing."""
        if not self.chance(likely) and not (self.short and self.fail is None):
            return ""
        head, code = self.code()
        lines = self.short_block(code)
        if self.loop and self.chance(0.2) and not lines:
            lines.append(self.rng.choice(["break", "continue"]))
        return f" {head} {{ {'; '.join(lines)} }}" if lines else f" {head} {{ }}"

    # statements

    def statement(self):
        """The lines of a random statement, and whether what follows it is never reached."""
        self.budget -= 1
        rng = self.rng
        outside = not self.loop and self.function is None
        simple = [
            (self.print_items, 9), (self.set_number, 7), (self.set_place, 12), (self.push, 7), (self.pop, 4),
            (self.set_text, 6), (self.delete, 4), (self.clear, 2), (self.move, 4), (self.share, 2), (self.let, 6),
            (self.call, 3), (self.freeze, 3), (self.fill, 6)]
        nested = [
            (self.condition, 6), (self.lookup, 9), (self.pushed, 4), (self.popped, 3),
            (self.lookup_or_leave, 1 if outside else 3), (self.range_loop, 4), (self.container_loop, 5),
            (self.input_loop, 2), (self.while_loop, 3), (self.use, 4), (self.new, 3), (self.publish, 6), (self.take, 3)]
        choices = simple + (nested if self.deep < self.deepest else [])
        if self.deep > 1 and self.chance(0.06):
            return self.leaving(), True
        if self.chance(0.03):
            lines, left = self.statement()
            return [rng.choice(["# it's {", "// a \"comment", "#"])] + lines, left
        for _ in range(8):
            made = rng.choices([choice for choice, _ in choices], [weight for _, weight in choices])[0]()
            if made is not None:
                return made if isinstance(made, tuple) else (made, False)
        return self.print_items(), False

    def print_items(self):
        items = []
        for _ in range(self.rng.choices([0, 1, 2, 3], [1, 6, 4, 2])[0]):
            choice = self.rng.random()
            if choice < 0.35:
                items.append(self.constant_text(True))
            elif choice < 0.55:
                place = self.place(lambda kind: kind == TEXT)
                items.append(place.text if place else self.constant_text())
            else:
                items.append(self.number_text() + (f" : {self.rng.randint(1, 9)}" if self.chance(0.1) else ""))
        word = "write" if items and self.chance(0.3) else "print"
        return [f"{word} {', '.join(items)}".strip() + (";" if self.chance(0.05) else "")]

    def set_number(self):
        names = [name for name in self.numbers() if name.settable]
        if not names:
            return None
        name = self.rng.choice(names)
        operation = self.rng.choices(["=", "+=", "-=", "*=", "/=", "%="], [5, 4, 3, 2, 0.5, 0.5])[0]
        value = self.number_text()
        if operation in ("/=", "%="):
            value = self.rng.choice(["2", "3", "10"] + [other.text for other in self.numbers()])
        return [f"{name.text} {operation} {value}"]

    def set_place(self):
        place = self.place(lambda kind: kind == INT, write=True)
        if place is None:
            return None
        self.writes(place)
        operation = self.rng.choices(["=", "+=", "-=", "*="], [5, 4, 2, 1])[0]
        return [f"{place.text} {operation} {self.number_text()}{self.otherwise(0.3)}"]

    def container(self, wanted):
        """A place to add to or to take from. A method goes through an own cell by itself."""
        place = self.place(lambda kind: kind[0] != "shared" and wanted(self.inside(kind)), write=True)
        if place is not None and place.kind[0] == "own":
            (root, steps), kind = place.path, place.kind[1]
            return Place(place.text, kind, (root, steps + (("content",),)), True)
        return place

    def push(self):
        place = self.container(lambda kind: kind == TEXT or kind[0] in SEQUENCES)
        if place is None:
            return None
        method, value = "push", ""
        if place.kind == TEXT:
            value = self.rng.choice(["'a'", "'\\n'", "255", "98"]) if self.chance(0.6) else self.number_text()
        else:
            if place.kind[0] == "list" and self.chance(0.3) and self.removes((place.path, False)):
                method = "push_front"
            if place.kind[1] == INT:
                value = self.number_text()
        self.writes(place)
        return [f"{place.text}.{method}({value}){self.otherwise(0.3)}"]

    def removed_from(self):
        """A container or text to take something from, and the method."""
        place = self.container(lambda kind: kind == TEXT or kind[0] in SEQUENCES)
        if place is None or not self.removes((place.path, False)):
            return None, None
        self.writes(place)
        return place, "pop_front" if place.kind[0] == "list" and self.chance(0.5) else "pop"

    def pop(self):
        place, method = self.removed_from()
        return [f"{place.text}.{method}(){self.otherwise(0.4)}"] if place else None

    def set_text(self):
        place = self.place(lambda kind: kind == TEXT, write=True)
        if place is None:
            return None
        items, limit = [], ""
        for at in range(1 if self.short else self.rng.choices([1, 2, 3], [4, 3, 1])[0]):
            choice = self.rng.random()
            if choice < 0.5 or self.short and choice < 0.8:
                items.append(self.constant_text(not self.short))
            elif choice < 0.65 and not limit and not self.short:
                other = self.place(lambda kind: kind == TEXT)
                if other is None or self.related(other, place):
                    return None
                items.append(other.text)
                limit = f" max {self.rng.choice([1, 3, 20])}"
            else:
                # the number doesn't look at what the statement makes
                items.append(self.local_number())
        self.writes(place)
        return [f"{place.text} {self.rng.choice(['=', '+='])} {', '.join(items)}{limit}{self.otherwise(0.3)}"]

    def related(self, one, other):
        """Whether two places may lie in the same object."""
        roots = one.path[0], other.path[0]
        return roots[0][:2] == roots[1][:2] or "parameter" in (roots[0][0], roots[1][0])

    def local_number(self):
        """A number that doesn't depend on the segment."""
        numbers = self.numbers()
        first = self.rng.choice(numbers).text if numbers and self.chance(0.7) else self.rng.choice(LITERALS)
        return first if self.chance(0.5) else f"{first} {self.rng.choice('+-*')} {self.rng.randint(0, 9)}"

    def delete(self):
        if self.chance(0.4):
            things = [thing for thing in self.objects if thing.name not in self.held]
            if not things:
                return None
            thing = self.rng.choice(things)
            if thing.word == "family":
                text, key = self.key()
                removal, text = ((("family", thing.name, key), ()), True), f"{thing.name}[{text}]"
            else:
                removal, text = ((("object", thing.name), ()), True), thing.name
            return [f"delete {text}"] if self.removes(removal) else None
        place = self.place(lambda kind: kind[0] in MAPS, write=True)
        if place is None:
            return None
        text, key = self.key()
        root, steps = place.path
        if not self.removes(((root, steps + (("key", key),)), True)):
            return None
        self.writes(place)
        return [f"delete {place.text}[{text}]"]

    def clear(self):
        word = "clear" if self.chance(0.75) else "shrink"
        if word == "shrink":
            place = self.place(lambda kind: kind[0] in ("text", "vec", "flat_map"), write=True)
        else:
            place = self.place(lambda kind: kind != INT, write=True)
            if place is not None and not self.removes((place.path, False)):
                return None
        if place is None:
            return None
        self.writes(place)
        return [f"{word} {place.text}"]

    def owned(self):
        return [name for name in self.scope if name.owned and name.alive and name.loop == self.loop]

    def moved(self, kind, cell):
        """An owned object of this type and a place to move it to, which isn't in it."""
        for name in self.rng.sample(self.owned(), len(self.owned())):
            if name.kind != kind and kind is not None:
                continue
            place = self.place(lambda other, name=name: other == (cell, name.kind), write=True)
            if place is None or place.path[0] == name.path[0]:
                continue
            gone, below = ((name.path[0], ()), True), (place.path, False)
            if any(ends(path, gone) or ends(path, below) for path in self.protected):
                continue
            if self.removes(below) and self.removes(gone):
                self.writes(place)
                return name, place
        return None, None

    def move(self):
        name, place = self.moved(None, "own")
        return [f"{place.text} = {name.text}{self.otherwise(0.4)}"] if name else None

    def freeze(self):
        name, place = self.moved(None, "shared")
        return [f"freeze {place.text} = {name.text}{self.otherwise(0.4)}"] if name else None

    def share(self):
        place = self.place(lambda kind: kind[0] == "shared", write=True)
        if place is None:
            return None
        source = self.place(lambda kind: kind == place.kind)
        if source is None or not self.removes((place.path, False)):
            return None
        self.writes(place)
        return [f"share {place.text} = {source.text}{self.otherwise(0.6)}"]

    def let(self):
        if self.chance(0.2):
            place = self.place(lambda kind: kind != INT)
            if place is not None and not place.absent and not place.bare:
                name = self.fresh()
                self.add(Name(name, place.kind, place.path, frozen=place.frozen))
                return [f"let {name} = {place.text}"]
        value = self.number_text()
        name = self.fresh()
        self.add(Name(name, INT, settable=True))
        return [f"let {name} = {value}"]

    def call(self):
        call = self.called(False)
        return [call] if call else None

    def new_type(self):
        """A type for `new`: one that some place can own or share."""
        kinds = sorted({kind[1] for kind in self.world.types() if kind[0] in CELLS})
        if not kinds or self.chance(0.15):
            kinds = [TEXT, ("list", INT), ("map", INT)]
        return self.rng.choice(kinds)

    def new(self):
        kind, text = self.new_type(), self.fresh()
        name = Name(text, kind, (("owned", text), ()), owned=True, loop=self.loop)
        if self.chance(0.4):
            head, code = self.code()
            one, other, left = self.branches(lambda: self.block(4, [name]), lambda: (self.short_block(code), False))
            return self.join(f"if let {text} = new {written(kind)}", one, head, other), left
        words = f"let {text} = new {written(kind)}"
        if self.chance(0.3):
            words += f" else {{ {'; '.join(self.leaving())} }}"
        elif self.short and not self.fail_stops:
            words += f" else {{ {self.stop()} }}"
        self.add(name)
        return [words]

    def filled(self, place):
        """A statement that puts something into a place, or None."""
        for _ in range(4):
            if place is None or place.frozen or place.kind in (INT, TEXT):
                break
            if place.kind[0] in SEQUENCES and (place.kind[1] == INT or self.chance(0.3)):
                value = self.number_text(1) if place.kind[1] == INT else ""
                return f"{place.text}.push({value}){self.otherwise(0.2)}"
            place = self.further(place)
        if place is None or place.frozen or place.kind not in (INT, TEXT):
            return None
        value = self.number_text() if place.kind == INT else self.constant_text()
        return f"{place.text} {self.rng.choice(['=', '+='])} {value}{self.otherwise(0.2)}"

    def fill(self):
        """Puts something into an object or into what a name refers to."""
        place = self.root()
        statement = self.filled(place) if place is not None and not place.frozen else None
        if statement is not None:
            self.writes(place)
        return [statement] if statement else None

    def publish(self):
        """Makes an object, fills it, and moves it into an own cell or freezes it."""
        cell = self.place(lambda kind: kind[0] in CELLS, write=True)
        if cell is None or any(ends(path, (cell.path, False)) for path in self.protected):
            return None
        text, kind = self.fresh(), cell.kind[1]
        lines = [f"let {text} = new {written(kind)}"]
        if self.short and not self.fail_stops:
            lines[0] += f" else {{ {self.stop()} }}"
        scope, self.scope = self.scope, self.numbers()
        for _ in range(self.rng.randint(0, 3)):
            lines.append(self.filled(Place(text, kind, (("owned", text), ()), False)))
        self.scope = scope
        if not self.removes((cell.path, False)):
            return None
        self.writes(cell)
        word = "freeze " if cell.kind[0] == "shared" else ""
        lines.append(f"{word}{cell.text} = {text}{self.otherwise(0.3)}")
        return [line for line in lines if line]

    def take(self):
        place = self.place(lambda kind: kind[0] == "own", write=True)
        if place is None or not self.removes((place.path, False)):
            return None
        self.writes(place)
        text = self.fresh()
        name = Name(text, place.kind[1], (("owned", text), ()), owned=True, loop=self.loop)
        if self.chance(0.6) or not self.loop and self.function is None:
            head, code = self.code()
            one, other, left = self.branches(lambda: self.block(4, [name]), lambda: (self.short_block(code), False))
            return self.join(f"if let {text} = take {place.text}", one, head, other), left
        leaving = self.leaving()
        self.add(name)
        return [f"let {text} = take {place.text} else {{ {'; '.join(leaving)} }}"]

    def condition(self):
        test = self.number_text()
        if self.chance(0.5):
            lines, _, _ = self.branches(lambda: self.block(3), lambda: ([], False))
            return self.join(f"if {test}", lines)
        lines, others, left = self.branches(lambda: self.block(3), self.alternatives)
        return self.join(f"if {test}", lines, *others), left

    def alternatives(self):
        """Else parts, as heads and blocks, and whether all of them leave."""
        choice = self.rng.random()
        if choice < 0.2:
            test = self.number_text(1)
            lines, others, left = self.branches(lambda: self.block(2), self.alternatives)
            return [f"else if {test}", lines, *others], left
        if choice < 0.35:
            source, name = self.looked_up()
            if source is not None:
                lines, others, left = self.branches(lambda: self.block(2, [name]), self.alternatives)
                return [f"else if let {name.text} = {source}", lines, *others], left
        lines, left = self.block(3)
        return ["else", lines], left

    def looked_up(self):
        """A lookup that may fail: its text, and the name of what it finds."""
        text, choice = self.fresh(), self.rng.random()
        if choice < 0.12:
            place = self.place(lambda kind: kind[0] in MAPS)
            if place is not None:
                step = "first" if self.chance(0.5) else f"after({self.number_text(1)})"
                return f"{place.text}.{step}", Name(text, INT, settable=True)
        cell = choice < 0.35
        place = self.place(lambda kind: kind[0] in CELLS if cell else kind != INT or self.chance(0.4))
        if place is None:
            return None, None
        if place.kind[0] in CELLS:
            root, steps = place.path
            frozen = place.frozen or place.kind[0] == "shared"
            if place.kind[1] == INT:
                return place.text, Name(text, INT, settable=True)
            return place.text, Name(text, place.kind[1], (root, steps + (("content",),)), frozen=frozen)
        if not place.absent:
            return None, None
        if place.kind == INT:
            return place.text, Name(text, INT, settable=True)
        return place.text, Name(text, place.kind, place.path, frozen=place.frozen)

    def lookup(self):
        source, name = self.looked_up()
        if source is None:
            return None
        head, code = self.code()
        if self.chance(0.4):
            one, _, _ = self.branches(lambda: self.block(4, [name]), lambda: ([], False))
            return self.join(f"if let {name.text} = {source}", one)
        if self.chance(0.2):
            one, others, left = self.branches(lambda: self.block(4, [name]), self.alternatives)
            return self.join(f"if let {name.text} = {source}", one, *others), left
        one, other, left = self.branches(lambda: self.block(4, [name]),
                                         lambda: self.block(2, [code] if code else [], self.short_block(code)))
        return self.join(f"if let {name.text} = {source}", one, head, other), left

    def lookup_or_leave(self):
        source, name = self.looked_up()
        if source is None:
            return None
        lines = self.leaving()
        self.add(name)
        return [f"let {name.text} = {source} else {{ {'; '.join(lines)} }}"]

    def pushed(self):
        place = self.container(lambda kind: kind[0] in SEQUENCES and kind[1][0] not in CELLS)
        if place is None:
            return None
        method, value, text = "push", "", self.fresh()
        if place.kind[1] == INT:
            value = self.number_text(1)
        if place.kind[0] == "list" and self.chance(0.3) and self.removes((place.path, False)):
            method = "push_front"
        self.writes(place)
        root, steps = place.path
        name = Name(text, place.kind[1], (root, steps + (("key", None),)))
        if place.kind[1] == INT:
            name = Name(text, INT, settable=True)
        head, code = self.code()
        one, other, left = self.branches(lambda: self.block(3, [name]), lambda: (self.short_block(code), False))
        return self.join(f"if let {text} = {place.text}.{method}({value})", one, head, other), left

    def popped(self):
        place = self.container(lambda kind: kind == TEXT or kind[0] in SEQUENCES and kind[1] == INT)
        if place is None or not self.removes((place.path, False)):
            return None
        self.writes(place)
        method = "pop_front" if place.kind[0] == "list" and self.chance(0.5) else "pop"
        name = Name(self.fresh(), INT, settable=True)
        if (self.loop or self.function is not None) and self.chance(0.25):
            lines = self.leaving()
            self.add(name)
            return [f"let {name.text} = {place.text}.{method}() else {{ {'; '.join(lines)} }}"]
        head, code = self.code()
        one, other, left = self.branches(lambda: self.block(3, [name]), lambda: (self.short_block(code), False))
        return self.join(f"if let {name.text} = {place.text}.{method}()", one, head, other), left

    # loops

    def body(self, turns, most, begin=(), paths=()):
        """The body of a loop. A name from before the loop is either not used in it, or nothing in it ends the name."""
        scope, protected, outside = list(self.scope), list(self.protected), self.turns
        kept = [name for name in self.scope if name.path is None or name.alive and self.chance(0.7)]
        self.protected += [name.path for name in kept if name.path is not None] + list(paths)
        self.scope, self.turns = kept, self.turns * turns
        held = dict(self.held)
        self.loop += 1
        lines, _ = self.block(most, begin)
        self.loop -= 1
        self.held = held
        self.scope, self.protected, self.turns = scope, protected, outside
        return lines

    def cut(self, lines, head):
        """Adds the else part of a loop, if it gets one."""
        if self.chance(0.35):
            return self.join(head, lines, "else", self.short_block(None, True))
        return self.join(head, lines)

    def few(self):
        return self.rng.randint(1, 6) if self.turns < 40 else self.rng.randint(1, 2)

    def limit(self, turns):
        """The words behind `max`."""
        return self.rng.choice([str(turns), str(turns), f"{turns} + 0", f"2 * {turns} - {turns}", f"({turns})"])

    def range_loop(self):
        text = self.fresh()
        name = Name(text, INT)
        turns = self.few()
        numbers = self.numbers()
        if self.chance(0.5) or not numbers:
            low = self.rng.randint(-2, 3)
            head = f"for {text} in {low}..{low + turns}"
            if self.chance(0.2):
                turns = self.rng.randint(1, turns)
                head += f" max {turns}"
        else:
            # a range of two constants has their difference as its limit
            low, high = self.rng.choice(numbers).text, self.at(1, 1)
            if self.chance(0.3):
                low, high = "0", low
            head = f"for {text} in {low}..{high} max {self.limit(turns)}"
        return self.cut(self.body(turns, 3, [name]), head)

    def while_loop(self):
        turns = self.few()
        names = [name for name in self.numbers() if name.settable]
        if names and self.chance(0.5):
            test = f"{self.rng.choice(names).text} {self.rng.choice(['<', '>', '!='])} {self.rng.randint(0, 9)}"
        else:
            test = "true" if self.chance(0.3) else self.number_text()
        # the test is repeated after each turn
        paths = [name.path for name in self.scope if name.path is not None and name.alive]
        return self.cut(self.body(turns, 3, (), paths), f"while {test} max {self.limit(turns)}")

    def input_loop(self):
        if self.function is not None:
            return None
        text, turns = self.fresh(), self.few()
        if self.turns == 1 and self.chance(0.1):
            # the longest input: a turn has 950 steps at most
            budget, self.budget = self.budget, 1
            lines = self.body(60, 1, [Name(text, INT)])
            self.budget = budget
            return self.cut(lines, f"for {text} in input")
        return self.cut(self.body(turns, 3, [Name(text, INT)]), f"for {text} in input max {turns}")

    def container_loop(self):
        place = self.place(lambda kind: kind == TEXT or kind[0] in SEQUENCES + MAPS)
        if place is None:
            return None
        turns, both = self.few(), self.chance(0.5)
        root, steps = place.path
        part = INT if place.kind == TEXT else place.kind[1]
        first, second = self.fresh(), self.fresh()
        item = Name(second, INT)
        if part != INT:
            item = Name(second, part, (root, steps + (("key", None),)), frozen=place.frozen)
        number = Name(first, INT)
        if not both:
            item.text = first
        begin = [number, item] if both else [number] if place.kind[0] in MAPS else [item]
        head = f"for {first}, {second}" if both else f"for {first}"
        lines = self.body(turns, 3, begin, [place.path])
        return self.cut(lines, f"{head} in {place.text} max {self.limit(turns)}")

    def use(self):
        """`use` of an object by its own name, or of a place with a name."""
        if self.chance(0.6):
            things = [thing for thing in self.objects if thing.name not in self.held and thing.word != "family"
                      and not thing.count]
            if not things or self.function is not None:
                return None
            chosen = self.rng.sample(things, 1 if self.chance(0.7) else min(2, len(things)))
            names = [Name(thing.name, thing.kind, (("object", thing.name), ())) for thing in chosen]
            words = "use " + ", ".join(thing.name for thing in chosen)
        else:
            place = self.place(lambda kind: kind != INT or self.chance(0.3), write=True)
            if place is None or place.bare:
                return None
            self.writes(place)
            names, chosen = [Name(self.fresh(), place.kind, place.path)], []
            words = f"use {place.text} as {names[0].text}"
        if self.chance(0.5):
            held = dict(self.held)

            def inside():
                self.held = {**held, **{name.text: name for name in names if chosen}}
                return self.block(4, names)
            head, code = self.code() if self.fail is None or self.chance(0.4) else ("", None)
            one, other, left = self.branches(inside, lambda: (self.short_block(code), False))
            self.held = held
            return self.join(words, one, head, other) if head else self.join(words, one), left
        if self.chance(0.4) or self.short and not self.fail_stops or self.function is not None:
            # without it the rest of a function's block, with its return, might be left out
            words += f" else {{ {'; '.join(self.leaving())} }}"
        for name in names:
            self.add(name)
            if chosen:
                self.held[name.text] = name
        return [words]

    # the whole

    def function_made(self):
        """The lines of a function, which is then known."""
        places = [kind for kind in self.world.types() if kind != INT and kind[0] not in CELLS]
        parameters = [INT for _ in range(self.rng.randint(0, 2))]
        for likely in (0.5, 0.1):
            if self.chance(likely):
                parameters.append(self.rng.choice(sorted(places)))
        function = Function(f"f{len(self.functions)}", parameters, self.chance(0.7))
        names = []
        for at, kind in enumerate(parameters):
            text = self.fresh()
            names.append(Name(text, INT, settable=True) if kind == INT else Name(text, kind, (("parameter", at), ())))
        self.begin()
        self.function, function.stops = function, self.fail_stops
        self.protected = [name.path for name in names if name.path is not None]
        budget, self.budget = self.budget, self.rng.randint(2, 5)
        lines, left = self.block(4, names)
        self.budget = budget
        if function.gives and not left:
            self.scope = [name for name in names if name.kind == INT]
            lines.append(f"return {self.number_text()}")
        head = ", ".join(name.text if name.kind == INT else f"{name.text}: {written(name.kind)}" for name in names)
        self.begin()
        self.functions.append(function)
        return self.join(f"fn {function.name}({head})" + (" -> int" if function.gives else ""), lines)

    def program(self):
        rng = self.rng
        for at, thing in enumerate(self.objects):
            if thing.word == "object" and not thing.count and self.chance(0.01):
                # the object has another type in the other programs
                kind = rng.choice(sorted(self.world.types()))
                self.objects[at] = Object(thing.name, thing.word, kind, None, thing.exact)
        self.fail, self.fail_stops = None, False
        if self.short or self.chance(0.7):
            self.fail_stops = self.chance(0.5 if self.short else 0.15)
            words = f', " ", {self.read()[0]}' if self.chance(0.15) else ""
            self.fail = [f'print "no room"{words}'] + (["stop"] if self.fail_stops else [])
        declarations = []
        for name, fields in self.world.structs.items():
            words = ", ".join(f"{field}: {written(kind)}" for field, kind in fields)
            declarations.append([f"struct {name} {{ {words} }}"])
        declarations += [[thing.declaration()] for thing in self.objects]
        if self.chance(0.3):
            declarations.append([f"const C = {rng.choice(['3', '2 + 3 * 4', '-(7)', '(1 < 2) + 1', '0x10 % 3'])}"])
            self.constants.append("C")
        if self.chance(0.3):
            declarations.append([f"const T = {self.constant_text()}"])
            self.texts.append("T")
        for _ in range(rng.choices([0, 1, 2], [5, 4, 2])[0]):
            declarations.append(self.function_made())
        if self.fail is not None:
            declarations.append(self.join("fail", self.fail))
        if self.chance(0.3):
            rng.shuffle(declarations)
        parts = [[f'print "@@{self.number}"']]
        for _ in range(rng.choice([0, 0, 2, 4])):
            parts.append(self.fill() or [])
        left = False
        while self.budget > 0 and not left:
            made, left = self.statement()
            parts.append(made)
        if self.chance(0.2):
            for declaration in declarations:
                parts.insert(rng.randrange(len(parts) + 1), declaration)
        else:
            parts = declarations + parts
        return "".join(line + "\n" for part in parts for line in part)


# ---- running programs


LIMITS = re.compile(r"more than 16 numbers and references|more than 8 parts would be open|more than 32 types|"
                    r"instructions, and 4,?096 are the limit|far more than 4,096 instructions|constants are needed|"
                    r"could take [\d,]+ steps")
HEADER = re.compile(rb"(?P<file>[^\n]*?):(?P<line>\d+):(?P<column>\d+): (?P<kind>error|warning): (?P<text>[^\n]+)")


class Outcome:
    """What running programs on an image did. `kind` is `ran`, `limit` (a program is past one), `rejected`, `refused`
    (by the verifier) or `broken`. `program` is the one that didn't compile."""

    def __init__(self, kind, program=None, text="", output=b"", shown=None):
        self.kind, self.program, self.text, self.output, self.shown = kind, program, text, output, shown

    def sort(self):
        """What has to stay the same while a program is made smaller."""
        return (self.kind, self.text if self.kind == "rejected" else "")


class Tool:
    """`segtool` and a folder to use it in, of one process."""

    def __init__(self, path, room):
        self.path, self.room, self.images = path, Path(room), {}

    def call(self, *words, timeout=60):
        return subprocess.run([self.path, *map(str, words)], cwd=self.room, stdout=subprocess.PIPE,
                              stderr=subprocess.PIPE, stdin=subprocess.DEVNULL, close_fds=False, timeout=timeout,
                              check=False)

    def told(self, *words, timeout=60, most=1 << 24):
        """The status of a command, or None if it took too long or told too much, what it told, and whether it printed
        something."""
        with open(self.room / "printed", "wb") as printed:
            process = subprocess.Popen([self.path, *words], cwd=self.room, stdin=subprocess.DEVNULL, stdout=printed,
                                       stderr=subprocess.PIPE, close_fds=False)
            timer = threading.Timer(timeout, process.kill)
            timer.start()
            told = process.stderr.read(most)
            ended = len(told) < most
            if not ended:
                process.kill()
            process.stderr.close()
            process.wait()
            ended = ended and timer.is_alive()
            timer.cancel()
        return process.returncode if ended else None, told, os.path.getsize(self.room / "printed") > 0

    def image(self, combination, size):
        if (combination, size) not in self.images:
            name = f"{'-'.join(combination)}-{size}.image"
            made = self.call("new", name, size, *combination)
            if made.returncode:
                raise SystemExit(f"segtool new: {made.stderr.decode()}")
            self.images[combination, size] = name
        return self.images[combination, size]

    def run(self, programs, given, image, out="out.image"):
        """Runs programs on an image."""
        (self.room / "input").write_bytes(given)
        clients = []
        for number, text in enumerate(programs):
            clients.append(f"{number}.lez")
            (self.room / clients[-1]).write_text(text, encoding="utf-8")
        try:
            ran = self.call("run", image, out, *clients, "--input", "input")
        except subprocess.TimeoutExpired:
            return Outcome("broken", None, "it takes more than a minute")
        if ran.returncode:
            return self.failed(ran)
        shown = self.call("show", out, "--all")
        if shown.returncode:
            return Outcome("broken", None, f"show: {shown.stderr.decode()}")
        return Outcome("ran", output=ran.stdout, shown=objects_of(shown.stdout.decode()))

    def failed(self, ran):
        headers = map(HEADER.fullmatch, ran.stderr.split(b"\n"))
        errors = [match for match in headers if match and match["kind"] == b"error"]
        text = ran.stderr.decode(errors="replace")
        if errors and ran.returncode == 1:
            texts = [match["text"].decode() for match in errors]
            kind = "limit" if all(map(LIMITS.search, texts)) else "rejected"
            return Outcome(kind, int(errors[0]["file"].split(b".")[0]), "\n".join(texts))
        if ran.returncode == 1 and re.search(r"fault 2[23]\b", text):
            return Outcome("refused", None, text)
        return Outcome("broken", None, f"status {ran.returncode}\n{text}")


def objects_of(text):
    """The objects that `show` prints, each a list of lines, in order of their lines. The types of unique objects are
    left out."""
    found = []
    for line in text.splitlines():
        if line[:1] in (" ", "("):
            found[-1].append(line)
        else:
            found.append([re.sub(r"^unique t\d+:", "unique:", line)])
    return sorted(found)


class Wanted:
    """What a run of programs has to print and to leave."""

    def __init__(self, programs, given):
        run = meaning.Run(meaning.Segment(), given)
        for text in programs:
            run.program(meaning.parse(text))
        self.output, self.shown = bytes(run.output), sorted(meaning.shown(run.segment))
        self.failed, self.turns = Counter(run.failed), run.turns


class Apart(Exception):
    """What the interpreter prints isn't what was printed."""


def ranked(shown):
    """Objects with the numbers of frozen objects counted from 0: how many were made before isn't known."""
    numbers = sorted({int(number) for lines in shown for line in lines for number in re.findall(r"frozen (\d+)", line)})
    ranks = {str(number): f"frozen {rank}" for rank, number in enumerate(numbers)}
    return [[re.sub(r"frozen (\d+)", lambda match: ranks[match[1]], line) for line in lines] for lines in shown]


def explained(text, given, segment, outcome, most=3000):
    """The run of a program that does the same as `outcome`, if memory is refused at some of its requests. False if
    there is none, None if that isn't decided after so many runs."""
    refused, unsure = [], False
    for _ in range(most):
        at = 0

        def allocate():
            nonlocal at
            if not outcome.output.startswith(run.output):
                raise Apart
            at += 1
            if at > len(refused):
                refused.append(False)
            if refused[at - 1]:
                raise meaning.Failed(meaning.NO_MEMORY)
        run = meaning.Run(copy.deepcopy(segment), given, allocate)
        try:
            run.program(meaning.parse(text))
            if run.output == outcome.output:
                if ranked(sorted(meaning.shown(run.segment))) == ranked(outcome.shown):
                    return run
        except Apart:
            pass
        except meaning.Unsure:
            unsure = True
        del refused[at:]
        while refused and refused[-1]:
            refused.pop()
        if not refused:
            return None if unsure else False
        refused[-1] = True
    return None


def short_difference(tool, programs, given, image):
    """As `difference`, on a small image. Runs one program after the other."""
    wanted, segment = Wanted(programs, given), meaning.Segment()
    wanted.failed.clear()
    for number, text in enumerate(programs):
        out = f"short-{number}.image"
        outcome = tool.run([text], given, image, out)
        if outcome.kind != "ran":
            outcome.program = number
            return outcome, wanted, None if outcome.kind == "limit" else outcome.kind
        run = explained(text, given, segment, outcome)
        if not run:
            outcome.text = f"program {number}, on its own"
            return outcome, wanted, "undecided" if run is None else "no refused memory explains this"
        wanted.failed += Counter(run.failed)
        segment, image = run.segment, out
    return outcome, wanted, None


def difference(tool, programs, given, combination, size):
    """Runs programs. Returns the outcome, what was wanted, and in words what differs, or None."""
    image = tool.image(combination, size)
    if size != SIZE:
        return short_difference(tool, programs, given, image)
    outcome = tool.run(programs, given, image)
    wanted = Wanted(programs, given)
    if outcome.kind != "ran":
        return outcome, wanted, None if outcome.kind == "limit" else outcome.kind
    if outcome.output != wanted.output:
        return outcome, wanted, "the output differs"
    if outcome.shown != wanted.shown:
        return outcome, wanted, "the objects differ"
    return outcome, wanted, None


# ---- programs that are easily got wrong


FAIL = 'fail { print "failed" }\n'
EXAMPLES = [
    # names of what an array, a family or a cell contains
    FAIL + 'object a[3]: text\na[0] = "b"\nif let v = a[0] { print v.len, v }',
    FAIL + "object a[3]: int\nuse a[2] as v\nlet y = v + 1\nprint y",
    FAIL + "object a[3]: list<list<int>>\nif let v = a[0].push() { print v.len }",
    FAIL + "object a[3]: int\na[7] = 1 else why { print why }\nprint a[0] ?? -1",
    FAIL + "family f: int\nf[-3] = 4\nprint f[-3] ?? 0",
    FAIL + "struct S { a: int }\nobject l: list<own<S>>\nl.push()\nfor v in l max 9 { print v.a ?? 7 }",
    FAIL + "object o: own<list<int>>\nlet x = new list<int>\no = x\no.push(3)\nprint o.len ?? -1",
    # what one part of a branch does, the other part doesn't see
    FAIL + "object o: own<text>\nobject l: list<list<int>>\nlet v = new text\n"
           'if let y = l[0] { o = v } else { v = "a" }',
    FAIL + "object o: shared<text>\nobject l: list<list<int>>\nlet v = new text\n"
           "if let y = l[0] { freeze o = v } else { freeze o = v }",
    FAIL + 'object m: map<text>\nobject l: list<list<int>>\nm[0] = "a"\n'
           "if let v = m[0] { if let y = l[0] { clear m } else { print v } }",
    FAIL + 'object m: map<text>\nm[0] = "a"\nm[1] = "b"\nfor k, v in m max 4 { if k { clear m } else { print v } }',
    # constants
    "print 9223372036854775807 + 1",
    "let x = 9223372036854775807 * 2\nprint x",
    # the fail part
    "object a: shared<text>\nobject b: shared<text>\nfail { stop }\nshare a = b\nprint 1",
    'fail { print "failed"; stop }\nobject l: list<list<int>>\nuse l[3] as x { print 1 }\nprint 2',
    FAIL + "object l: list<list<int>>\nuse l[3] as x\nprint 1",
    # the order of evaluation
    FAIL + "object x: int\nfn f() -> int { x += 1; return 10 }\nuse x\nprint x + f() * 100\nprint f() + x",
    FAIL + "object x: int\nfn f() -> int { x += 1; return x ?? 0 }\nlet a = f() - f() * f()\nprint a",
    FAIL + "object m: map<int>\nobject x: int\nfn f() -> int { x += 1; return x ?? 0 }\n"
           "m[f()] = f()\nprint m[1] ?? 0, m[2] ?? 0\nprint m[f()] ?? f(), x ?? 0",
    FAIL + "object x: int\nfn f() -> int { x += 1; return 1 }\nprint f() && f() || f(), x ?? 0\n"
           "print 0 && f(), 1 || f(), x ?? 0",
    FAIL + 'fn f() -> int { print "in f"; return 3 }\nprint "a", f(), "b", f()',
    FAIL + "object m: map<int>\nm[1] = m.len ?? 0\nm[2] += m.len ?? 0\nprint m[1] ?? 5, m[2] ?? 5",
    FAIL + 'object x: int\nfn f() -> int { x += 1; return 1 }\nwhile f() max 3 { print "." } else { print "cut" }\n'
           "print x ?? 0",
    # loops
    FAIL + "object m: map<int>\nm[1] = 1\nm[2] = 2\n"
           "for k, v in m max 10 { print k, v; if k == 1 { delete m; m[5] = 3 } }",
    "let n = 3\nfor i in 0..n max 9 { n = 0; print i }",
    # places that are absent, and what a write leaves
    FAIL + "object g: map<list<int>>\ng[1][0] = 5\nprint g.len ?? -1",
    FAIL + 'object m: map<text>\nm[1] = "a"\nclear m[5]\nprint m.len ?? -1',
    FAIL + 'object t: text\nprint t == "", t != ""',
    FAIL + 'object l: list<own<text>>\nlet t = new text\nt = "abc"\nl[3] = t\nprint l.len ?? -1',
    # a number that is read in a loop behind lookups of several objects
    "family n: int\nobject o: own<S>\nstruct S { a: int, b: shared<map<int>> }\nobject m: map<text>\n"
    "let v = new S\nlet k = n[3] ?? 0\nif let w = new S { if let x = w.b { let y = o.b else { stop }\n"
    'for z in x max 2 { let i = -k\nwrite "#", m[i] } } }',
]

# What follows `stop` in a function that is called within a statement.
STOPPING = ["fn f(a) -> int { if a { stop }\nreturn 5 }\n" + text for text in [
    "print f(0)\nprint f(1)", 'print "a", f(1), "b"', 'print "a", f(1) : 4, "b"',
    FAIL + "object t: text\nt = f(0), f(1)", FAIL + "object x: int\nx = f(0) + f(1)",
    'if f(1) { print "yes" } else { print "no" }',
    'while f(1) max 3 { print "yes" } else { print "cut" }\nprint "after"']]


def try_examples(_seed):
    """Runs each example on a new image. Returns 0, counts, and failures in words."""
    tool, counts, found = STATE["tool"], Counter(), []
    for number, text in enumerate(EXAMPLES + (STOPPING if STATE["options"].stops else [])):
        combination = COMBINATIONS[number % len(COMBINATIONS)]
        outcome, _, differs = difference(tool, [text], b"", combination, SIZE)
        counts["examples past a limit" if outcome.kind == "limit" else "examples"] += 1
        if differs:
            counts["failed"] += 1
            found.append(report(tool, f"0 (example {number})", combination, [text], b"", SIZE, differs))
    return 0, counts, found


# ---- sessions


def session(seed, short, stops=False):
    """Ten programs for one image, and an input."""
    rng = random.Random(seed)
    world, programs = World(rng), []
    given = bytes(rng.choice(b"abc 12\n\xff") for _ in range(rng.choice([0, 5, 20, 60])))
    for number in range(SESSION):
        text = Maker(rng, world, number, short, stops).program()
        try:
            Wanted(programs + [text], given)
        except meaning.Unsure as unsure:
            if "too long" not in str(unsure):
                raise meaning.Unsure(f"seed {seed}, program {number}: {unsure}\n{text}") from None
            continue
        programs.append(text)
    return programs, given


def try_random(seed):
    """The examples for 0, and a session for each other seed."""
    return try_session(seed) if seed else try_examples(seed)


def try_session(seed):
    """Runs a session. Returns the seed, counts, and failures in words."""
    options, tool, counts = STATE["options"], STATE["tool"], Counter()
    try:
        programs, given = session(seed, options.short, options.stops)
    except meaning.Unsure as unsure:
        return seed, counts, [str(unsure)]
    combination = COMBINATIONS[seed % len(COMBINATIONS)]
    size = SHORT_SIZES[seed // len(COMBINATIONS) % len(SHORT_SIZES)] if options.short else SIZE
    found = []
    while programs:
        outcome, wanted, differs = difference(tool, programs, given, combination, size)
        if outcome.kind == "limit":
            counts["past a limit"] += 1
            counts["past: " + re.sub(r"[\d,]+", "N", LIMITS.search(outcome.text).group())] += 1
            del programs[outcome.program]
            continue
        counts["runs"] += 1
        if differs == "undecided":
            counts["undecided"] += 1
        elif differs:
            counts[differs] += 1
            small = smaller(tool, programs, given, combination, size, outcome, differs)
            found.append(report(tool, seed, combination, *small))
            if outcome.program is not None:
                counts["failed"] += 1
                del programs[outcome.program]
                continue
            counts["failed"] += len(programs)
            break
        counts["programs"] += len(programs)
        for code, number in wanted.failed.items():
            counts[f"else parts with code {code}"] += number
        break
    return seed, counts, found


def smaller(tool, programs, given, combination, size, outcome, differs, most=300):
    """Removes programs, statements and parts while the same still differs."""
    ends = time.monotonic() + 90

    def still(others, other_given):
        nonlocal most
        most -= 1
        if most < 0 or time.monotonic() > ends or not others:
            return False
        try:
            other, _, again = difference(tool, others, other_given, combination, size)
        except (meaning.Unsure, meaning.Wrong, KeyError, ValueError, AttributeError, TypeError, IndexError):
            return False
        return again == differs and other.sort() == outcome.sort()

    for number in reversed(range(len(programs))):
        others = programs[:number] + programs[number + 1:]
        if still(others, given):
            programs = others
    if given and still(programs, b""):
        given = b""
    changed = True
    while changed and most > 0:
        changed = False
        for number in reversed(range(len(programs))):
            done = set()
            while True:
                text = programs[number]
                others = reductions(text, outcome.kind == "rejected")
                for other in sorted(others, key=lambda other: (len(other), other)):
                    if other not in done:
                        done.add(other)
                        others = programs[:number] + [other] + programs[number + 1:]
                        if still(others, given):
                            programs, changed = others, True
                            break
                else:
                    break
    return programs, given, size, differs


DECLARES = re.compile(r"(?:let|const|struct|object|family|unique|fn) (\w+)|use (?:.* as )?(\w+)")


def reductions(text, careful):
    """The program with one statement, declaration or else part less, or with a statement replaced by one of its
    blocks. A name that is used keeps its declaration. `careful` does only what gives no new errors."""
    tree = meaning.parse(text)
    found = set()
    for start, end in tree.statements:
        rest = text[:start] + text[end:]
        declared = DECLARES.match(text, start)
        if not declared or not re.search(rf"\b{declared[1] or declared[2]}\b", rest):
            found.add(rest)
    if not careful:
        found |= {text[:start] + text[end:] for start, end in tree.others}
    for start, end in [] if careful else tree.statements:
        for first, last in tree.blocks:
            if start < first and last < end:
                found.add(text[:start] + text[first:last] + text[end:])
    return {"\n".join(line for line in other.splitlines() if line.strip()) + "\n" for other in found if other.strip()}


def report(tool, seed, combination, programs, given, size, differs):
    outcome, wanted, _ = difference(tool, programs, given, combination, size)
    lines = [f"seed {seed}, {' '.join(combination)}, {size} bytes: {differs}", f"input {given!r}"]
    for number, text in enumerate(programs):
        lines += [f"--- program {number}", text.rstrip("\n")]
    if outcome.text:
        lines += ["--- segtool", outcome.text.rstrip("\n")]
    if outcome.kind == "ran":
        lines += ["--- printed", outcome.output.decode(errors="backslashreplace")]
        if size == SIZE:
            lines += ["--- wanted", wanted.output.decode(errors="backslashreplace")]
        if outcome.output == wanted.output or size != SIZE:
            lines += ["--- objects", *("\n".join(one) for one in outcome.shown)]
        if outcome.output == wanted.output and size == SIZE:
            lines += ["--- wanted", *("\n".join(one) for one in wanted.shown)]
    return "\n".join(lines)


# ---- damaged programs


CONTROL = re.compile(r"[\x00-\x08\x0b-\x1f\x7f-\x9f]")
ODD = [b"\xff", b"\xc3", b"\xed\xa0\x80", b"\xc0\x80", b"\xf4\x90\x80\x80", b"\xef\xbb\xbf", b"\x00", b"\x1b[31m",
       b"\x07", b"\r", b"\t", b"\x7f", b"\xc2\x9b", b"\xe2\x80\xae", b"\\", b'"', b"'", b"{", b"}", b"(", b")",
       b"#", b"\n", "é".encode(), "𝛌".encode()]
NESTS = [
    (b"(", b"1", b")"), (b"-(", b"1", b")"), (b"!", b"1", b""), (b"- ", b"1", b""), (b"if 1 {\n", b"print 1", b"}\n"),
    (b"{", b"", b"}"), (b"m[", b"0", b"]"), (b"m[0] ?? ", b"0", b""), (b"1 + ", b"1", b""), (b"1 * (", b"1", b")"),
    (b"1 && ", b"1", b""), (b"f(", b"1", b")"), (b"for i in 0..2 {", b"", b"}"), (b"while 1 max 2 {", b"", b"}"),
    (b"if 1 { } else ", b"{ }", b""), (b"if let x = m[0] {", b"print x", b"} else { }"), (b"a.", b"b", b""),
    (b"list<", b"int", b">"), (b"fn f() {", b"", b"}"), (b"# ", b"", b""), (b"use m {", b"", b"}"),
    (b"let x = new text ", b"", b""), (b"'", b"", b""), (b'"a" ', b"", b""), (b"print 1;", b"", b"")]
HEADS = [b"print ", b"let y = ", b"", b"object m: map<int>\nprint ", b"object m: ", b"const c = ",
         b"fn f(a) -> int { return ", b"\t"]
ALONE = [b"", b"\n", b" ", b"\0", b"\xff", b"#", b"print", b"\xef\xbb\xbf", b"\n" * 5000, b"a" * 100_000,
         b'"' + b"a" * 70_000 + b'"', b"print 1 " * 20_000, b"x" * 300 + b" = 1", b"1" * 5000, b"object " * 3000,
         b"\x00" * 1000, b"print y\n" * 3000, b"let a = 1\n" * 3000, b'print "' + b"a" * 600 + b'"\n']


def nested(rng):
    """A text that is deep, long or both."""
    deep = rng.choice([8, 9, 30, 200, 3000, 30_000])
    begin, middle, end = rng.choice(NESTS)
    line = begin * deep + middle + end * (deep if rng.random() < 0.8 else deep // 2)
    return rng.choice(HEADS) + line[: 1 << 19] + rng.choice([b"", b"\n", b"}"])


def damaged(rng, texts):
    choice = rng.random()
    if choice < 0.04:
        return nested(rng)
    if choice < 0.05:
        return rng.choice(ALONE)
    data = bytearray(rng.choice(texts))
    if choice < 0.15:
        other = rng.choice(texts)
        at = rng.randrange(len(data) + 1)
        return bytes(data[:at] + other[rng.randrange(len(other) + 1):])
    if choice < 0.45:
        # words and lines
        words = re.findall(rb"\w+|\s+|[^\w\s]+", bytes(data))
        pool = re.findall(rb"\w+|[^\w\s]+", rng.choice(texts)) or [b"x"]
        for _ in range(rng.randint(1, 3)):
            if not words:
                break
            at, other = rng.randrange(len(words)), rng.randrange(len(words))
            change = rng.randrange(5)
            if change == 0:
                del words[at]
            elif change == 1:
                words.insert(at, words[other])
            elif change == 2:
                words[at], words[other] = words[other], words[at]
            elif change == 3:
                words[at] = rng.choice(pool)
            else:
                words[at:at] = [b" ", rng.choice(pool), b" "]
        return b"".join(words)
    if choice < 0.55:
        lines = bytes(data).split(b"\n")
        at, other = rng.randrange(len(lines)), rng.randrange(len(lines))
        change = rng.randrange(4)
        if change == 0:
            del lines[at]
        elif change == 1:
            lines.insert(at, lines[other])
        elif change == 2:
            lines[at], lines[other] = lines[other], lines[at]
        else:
            return b" ".join(lines)
        return b"\n".join(lines)
    for _ in range(rng.choice([1, 1, 1, 2, 3, 10])):
        if not data:
            break
        at = rng.randrange(len(data))
        change = rng.randrange(6)
        if change == 0:
            data[at] = rng.randrange(256)
        elif change == 1:
            del data[at]
        elif change == 2:
            data.insert(at, data[at])
        elif change == 3:
            data[at:at] = rng.choice(ODD)
        elif change == 4:
            last = at + rng.randint(1, 30)
            data[at:at] = data[at:last] * rng.randint(1, 3)
        else:
            del data[at:at + rng.randint(1, 30)]
    return bytes(data)


def is_long(source, column):
    """Whether a line is too long to be shown with an error in this column."""
    before = len(source[:column - 1].encode())
    return before >= MOST_SHOWN or len(source.encode()) - before >= MOST_SHOWN


def told_wrong(data, told, status):
    """What is wrong with what `compile` tells of a program, or None."""
    if not told:
        return "it tells nothing" if status else None
    try:
        lines = told.decode().split("\n")
    except UnicodeDecodeError:
        return "what it tells isn't UTF-8"
    if CONTROL.search(told.decode()):
        return f"it prints a control character: {CONTROL.search(told.decode()).group()!r}"
    if lines.pop():
        return "the last line doesn't end"
    errors, at, sources = 0, 0, data.split(b"\n")
    while at < len(lines):
        match = HEADER.fullmatch(lines[at].encode())
        if not match or match["file"] != b"damaged.lez":
            return f"this isn't the line of an error: {lines[at][:200]}"
        errors += match["kind"] == b"error"
        row, column = int(match["line"]), int(match["column"])
        if not 1 <= row <= len(sources):
            return f"there is no such line: {lines[at][:200]}"
        at += 1
        try:
            source = sources[row - 1].decode()
        except UnicodeDecodeError:
            # what is printed of such a line isn't specified
            while at < len(lines) and not HEADER.fullmatch(lines[at].encode()) and not lines[at].startswith("hint: "):
                at += 1
        else:
            if is_long(source, column) and lines[at:at + 1] != [source]:
                at += lines[at:at + 1] != [] and lines[at].startswith("hint: ")
                continue
            echo, carets = (lines[at:at + 2] + ["", ""])[:2]
            at += 2
            if not CONTROL.search(source):
                if echo != source:
                    return f"this isn't line {row} of the program: {echo[:200]}"
                if not 1 <= column <= len(source) + 1 or not re.fullmatch(r"[ \t]*\^+", carets):
                    return f"these aren't carets for column {column}: {carets[:200]}"
                if carets.index("^") != column - 1:
                    return f"these carets aren't in column {column}: {carets[:200]}"
        if at < len(lines) and lines[at].startswith("hint: "):
            at += 1
    if (errors > 0) != (status == 1):
        return f"status {status}, with {errors} errors"
    return None


def try_damaged(seed):
    """Compiles a hundred damaged programs. Returns the seed, counts, and failures in words."""
    tool, counts, found = STATE["tool"], Counter(), []
    rng = random.Random(seed)
    texts = [path.read_bytes() for path in sorted((ROOT / "examples").glob("*.lez"))]
    for number in range(6):
        texts.append(Maker(rng, World(rng), number).program().encode())
    program, client = tool.room / "damaged.lez", tool.room / "damaged.client"
    for number in range(100):
        data = damaged(rng, texts)
        program.write_bytes(data)
        client.unlink(missing_ok=True)
        before = resource.getrusage(resource.RUSAGE_CHILDREN)
        status, told, printed = tool.told("compile", program.name, client.name)
        after = resource.getrusage(resource.RUSAGE_CHILDREN)
        took = after.ru_utime + after.ru_stime - before.ru_utime - before.ru_stime
        counts["programs"] += 1
        counts["milliseconds"] += int(took * 1000)
        if status is None:
            wrong = f"it takes more than a minute, or tells more than 16 MB; {len(told)} bytes"
        elif status not in (0, 1):
            wrong = f"status {status}: {told[:300]!r}"
        elif took > 2:
            wrong = f"it takes {took:.1f} seconds"
        else:
            wrong = "it prints something" if printed else told_wrong(data, told, status)
            counts["compiled" if status == 0 else "reported"] += 1
        if wrong is None and status == 0:
            verified = tool.call("verify", tool.image(COMBINATIONS[0], SIZE), client.name)
            if verified.returncode:
                wrong = f"the verifier refuses its client: {verified.stderr.decode()}"
        elif wrong is None and client.exists():
            wrong = "it writes a client"
        if wrong:
            counts["failed"] += 1
            kept = Path(tempfile.gettempdir()) / f"damaged-{seed}-{number}.lez"
            kept.write_bytes(data)
            found.append(f"seed {seed}, text {number}, kept as {kept}: {wrong}\n{data[:300]!r}")
    return seed, counts, found


# ---- the two commands


STATE = {}


def begin(options):
    """Prepares a process."""
    room = tempfile.TemporaryDirectory(prefix="programs-")
    STATE["room"], STATE["options"] = room, options
    STATE["tool"] = Tool(options.segtool, room.name)


def main():
    parser = argparse.ArgumentParser(description=__doc__, formatter_class=argparse.RawDescriptionHelpFormatter)
    parser.add_argument("command", choices=["random", "damaged"])
    parser.add_argument("--count", type=int, default=1000)
    parser.add_argument("--seed", type=int, default=1)
    parser.add_argument("--segtool", default=str(ROOT / "crates/segtool/out/segtool"))
    parser.add_argument("--jobs", type=int, default=1)
    parser.add_argument("--short", action="store_true", help="uses images so small that memory runs out")
    parser.add_argument("--stops", action="store_true", help="calls functions that may stop in expressions, too")
    parser.add_argument("--failures", type=int, default=5, help="ends after so many failures")
    options = parser.parse_args()
    options.segtool = os.path.abspath(options.segtool)
    if not os.access(options.segtool, os.X_OK):
        parser.error(f"there is no {options.segtool}")
    each, work = (100, try_damaged) if options.command == "damaged" else (SESSION, try_random)
    seeds = range(options.seed, options.seed + -(-options.count // each))
    items = seeds if options.command == "damaged" else [0, *seeds]
    total, failures, began = Counter(), 0, time.monotonic()
    with multiprocessing.Pool(options.jobs, begin, (options,)) as pool:
        for done, (_, counts, found) in enumerate(pool.imap_unordered(work, items), 1):
            total += counts
            for words in found:
                print(words, end="\n\n", flush=True)
            failures += len(found)
            if failures >= options.failures:
                print(f"{failures} failures; the rest isn't run")
                break
            if done % 100 == 0:
                seconds = time.monotonic() - began
                print(f"{total['programs']} programs, {failures} failures, {seconds:.0f} s", flush=True)
        pool.terminate()
    print("; ".join(f"{name}: {number}" for name, number in sorted(total.items())))
    print(f"{failures} failures, {time.monotonic() - began:.0f} s, seeds {seeds[0]} to {seeds[-1]}")
    return 1 if failures else 0


if __name__ == "__main__":
    sys.exit(main())
