"""Types: those of a segment's type table, and names to describe them.

    from lezgauri import types as t

    USERS = t.map(t.struct(t.i64, t.str))    # a map from numbers to structs of a number and a string
    segment.add_types(USERS)
    users = segment.construct("users", USERS)

Import the module and not its names, since some of them are also names of Python. A type that contains itself refers to itself by its
number in the table: if a table is empty, `t.struct(t.i64, t.own(2))` becomes its type 2.
"""
import enum
import operator
from dataclasses import dataclass
from typing import MutableSequence, Tuple, Union

# The most components of a type, and the most numbers that one of them may be.
_MOST_COMPONENTS = 8
_MOST_NUMBERS = 256


class Kind(enum.IntEnum):
    """The kind of a type (docs/FORMATS.md, "Types")."""

    I64 = 1
    STR = 2
    VEC = 3
    LIST = 4
    FLAT_MAP = 5
    MAP = 6
    OWN = 7
    STRUCT = 8
    SHARED = 9


@dataclass(frozen=True)
class Type:
    """A type. The types of a segment are numbered from 0.

    kind        its kind
    components  the types of its components: none for I64 and STR, the fields of a STRUCT, and one for the others. Those of a segment's
                types are numbers. A description may have types in their place, which don't have numbers yet.
    """

    kind: Kind
    components: "Tuple[Union[int, Type], ...]" = ()

    def __post_init__(self) -> None:
        if len(self.components) > _MOST_COMPONENTS:
            raise ValueError(f"a type has at most {_MOST_COMPONENTS} components")
        for component in self.components:
            if not isinstance(component, Type) and not 0 <= operator.index(component) < _MOST_NUMBERS:
                raise ValueError(f"no type has the number {component}")

    def __str__(self) -> "_Str":
        name = self.kind.name.lower()
        return f"{name}({', '.join(f'{component}' for component in self.components)})" if self.components else name


# the name `str` is a type below
_Str = str

# What the calls take as a type: its number in the segment, or a description.
TypeOrNumber = Union[int, Type]


def number_in(table: MutableSequence[Type], of: TypeOrNumber) -> int:
    """The number of a type in a table. If the table doesn't have the type or one of its components, that is added at the end. Of several
    equal types it is the first."""
    if not isinstance(of, Type):
        return operator.index(of)
    entry = Type(of.kind, tuple(number_in(table, component) for component in of.components))
    if entry not in table:
        table.append(entry)
    return table.index(entry)


i64 = Type(Kind.I64)
str = Type(Kind.STR)


def vec(item: TypeOrNumber) -> Type:
    """A vector of such items."""
    return Type(Kind.VEC, (item,))


def list(item: TypeOrNumber) -> Type:
    """A linked list of such items."""
    return Type(Kind.LIST, (item,))


def flat_map(value: TypeOrNumber) -> Type:
    """A map from numbers to such values, in one buffer."""
    return Type(Kind.FLAT_MAP, (value,))


def map(value: TypeOrNumber) -> Type:
    """A map from numbers to such values, as a tree."""
    return Type(Kind.MAP, (value,))


def own(content: TypeOrNumber) -> Type:
    """Null, or a pointer to such an object of its own."""
    return Type(Kind.OWN, (content,))


def struct(*fields: TypeOrNumber) -> Type:
    """A struct with 1 to 8 such fields."""
    return Type(Kind.STRUCT, fields)


def shared(content: TypeOrNumber) -> Type:
    """Null, or a pointer to such a frozen object, which several places may share."""
    return Type(Kind.SHARED, (content,))
