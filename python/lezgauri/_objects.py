"""The objects of a segment: named, unique and anonymous ones, and its types."""
import operator
from collections.abc import Mapping
from ctypes import byref, c_size_t
from typing import Any, Callable, Iterator, NamedTuple, Optional, Tuple

from ._buffers import Buffer
from ._errors import Absent, BadArgument, NoValue, OtherType, OutOfRange
from ._handles import Closeable, handle_of
from ._library import MOST_TYPES, CFault, CNamed, CPlace, CType, library, refuse
from ._values import VIEWS, AnyView, Array, Item, Value
from .types import Kind, Type, TypeOrNumber, number_in

_NUMBERS = range(2**32)


class Named(NamedTuple):
    """A named object: its name, the number of its type, and how many values it has."""

    name: str
    type: int
    count: int


def _encoded(name: str) -> bytes:
    """A name for the library. A zero would end it, so another byte takes its place that no name has either."""
    if not isinstance(name, str):
        raise TypeError(f"a name is a str, not {type(name).__name__!r}")
    return name.replace("\0", "\1").encode("utf-8", "surrogatepass")


class Objects(Closeable, Mapping):  # type: ignore[type-arg]
    """What a segment has as a mapping from names to values."""

    # the types when they were last read; more may have been added since
    _types: Tuple[Type, ...] = ()

    # the image of a segment that is open only for reading
    _image: Optional[Buffer] = None

    # a segment is equal only to itself
    __eq__ = object.__eq__
    __hash__ = object.__hash__

    @property
    def read_only(self) -> bool:
        """Whether it is open only for reading."""
        return self._image is not None

    def _call(self, call: Callable[..., int], *arguments: Any, about: object = None) -> None:
        with handle_of(self, Closeable) as handle:
            refuse(call(handle, *arguments), about=about)

    # ---- types

    def types(self) -> Tuple[Type, ...]:
        """The segment's types, in the order of their numbers. A client may bring more types when it runs. Raises Busy."""
        entries, count = (CType * MOST_TYPES)(), c_size_t()
        self._call(library().lezgauri_types, entries, MOST_TYPES, byref(count))
        used = entries[: count.value]
        types = tuple(Type(Kind(entry.kind), tuple(entry.components[: entry.count])) for entry in used)
        self._types = types
        return types

    def add_types(self, *types: TypeOrNumber) -> Tuple[int, ...]:
        """Adds those of the types that the segment doesn't have, and types that they contain. Returns the number of each type: of
        several equal types of the segment the first. A type keeps its number for good.

        Raises Fault with BAD_TYPE if a type isn't allowed, or the segment would have more than 32. Then it gets none of them."""
        table = list(self.types())
        before = len(table)
        numbers = tuple(number_in(table, each) for each in types)
        if len(table) > before:
            entries = (CType * len(table))()
            for entry, each in zip(entries, table):
                entry.kind, entry.count = each.kind, len(each.components)
                entry.components[: entry.count] = each.components
            fault = CFault()
            with handle_of(self, Closeable) as handle:
                refuse(library().lezgauri_add_types(handle, entries, len(table), byref(fault)), fault)
        return numbers

    def _type(self, number: int) -> Type:
        """The type with a number."""
        types = self._types
        return types[number] if number < len(types) else self.types()[number]

    def _number(self, of: TypeOrNumber) -> int:
        """The number of a type. Raises OtherType if the segment doesn't have it."""
        if not isinstance(of, Type):
            number = operator.index(of)
            if number not in _NUMBERS:
                raise OtherType(of)
            return number
        for types in (lambda: self._types, self.types):
            known = types()
            number = number_in(list(known), of)
            if number < len(known):
                return number
        raise OtherType(of)

    def _view(self, place: CPlace, frozen: bool) -> Value:
        """The view of a place."""
        type = self._type(place.type)
        return VIEWS[type.kind](self, place, type, frozen)

    def upgrade(self) -> None:
        """Makes an image of version 1 one of version 2, which may have shared types. An image of version 2 stays as it is."""
        self._call(library().lezgauri_upgrade)

    # ---- named objects

    def names(self) -> Iterator[Named]:
        """The named objects in the order of their names. Objects may be made and destroyed during the loop: it continues with the next
        name."""
        named, after = CNamed(), None
        while True:
            try:
                self._call(library().lezgauri_next_name, after, byref(named))
            except NoValue:
                return
            after = named.name
            yield Named(after.decode("ascii"), named.type, named.count)

    def named(self, name: str) -> Named:
        """The object with this name: its type's number, and how many values it has. Raises Absent, a KeyError."""
        named = CNamed()
        self._call(library().lezgauri_named_object, _encoded(name), byref(named), about=name)
        return Named(name, named.type, named.count)

    def __iter__(self) -> Iterator[str]:
        return (named.name for named in self.names())

    def __len__(self) -> int:
        return sum(1 for _ in self.names())

    def __bool__(self) -> bool:
        return True

    def __contains__(self, name: object) -> bool:
        try:
            self.named(name)  # type: ignore[arg-type]
        except (Absent, TypeError):
            return False
        return True

    def __getitem__(self, name: str) -> Item:
        found = self.find(name)
        return found.value if isinstance(found, Value) else found

    def __setitem__(self, name: str, value: Any) -> None:
        found = self.find(name)
        if isinstance(found, Array):
            raise OtherType(name)
        found.assign(value)

    def __delitem__(self, name: str) -> None:
        named = self.named(name)
        self._call(library().lezgauri_destroy, _encoded(name), named.type, about=name)

    def find(self, name: str, type: Optional[TypeOrNumber] = None) -> AnyView:
        """The view of the object with this name, also if it is a number or a string, and an Array if it has several values.

        Raises Absent, a KeyError, and OtherType, a TypeError, if a type is given and the object has another."""
        named = self.named(name)
        number = named.type if type is None else self._number(type)
        if named.count > 1 and number == named.type:
            return Array(self, name, number, named.count)
        place = CPlace()
        self._call(library().lezgauri_find, _encoded(name), number, byref(place), about=name)
        return self._view(place, False)

    def _find_item(self, name: str, number: int, index: int, about: object) -> Value:
        place = CPlace()
        self._call(library().lezgauri_find_item, _encoded(name), number, index, byref(place), about=about)
        return self._view(place, False)

    def construct(self, name: str, type: TypeOrNumber, count: int = 1) -> AnyView:
        """Makes an object with this name, of `count` default values of this type, and returns its view: an Array if there are several.

        name   1 to 63 visible ASCII characters
        type   the number of a type of the segment, or its description, which `add_types` must have added before
        count  1 to 65535

        Raises OutOfRange, a ValueError, if the name or the count isn't allowed; OtherType if the segment has no such type;
        AlreadyExists if an object has the name; and BadAlloc. Then nothing changed."""
        number, many, place = self._number(type), operator.index(count), CPlace()
        if many not in _NUMBERS:
            raise OutOfRange(count)
        self._call(library().lezgauri_construct, _encoded(name), number, many, byref(place), about=name)
        return self._view(place, False) if many == 1 else Array(self, name, number, many)

    def find_or_construct(self, name: str, type: TypeOrNumber) -> AnyView:
        """Finds the object with this name, as `find` does, or makes one of one default value, as `construct` does."""
        number, place = self._number(type), CPlace()
        self._call(library().lezgauri_find_or_construct, _encoded(name), number, byref(place), about=name)
        return self.find(name, number)

    # ---- unique and anonymous objects

    def _placed(self, call: Callable[..., int], type: TypeOrNumber) -> Value:
        place = CPlace()
        self._call(call, self._number(type), byref(place), about=type)
        return self._view(place, False)

    def find_unique(self, type: TypeOrNumber) -> AnyView:
        """The view of the unique object of a type. Raises Absent, a KeyError, and OtherType if the segment has no such type."""
        return self._placed(library().lezgauri_find_unique, type)

    def construct_unique(self, type: TypeOrNumber) -> AnyView:
        """Makes the unique object of a type, and returns its view. Raises AlreadyExists, OtherType and BadAlloc."""
        return self._placed(library().lezgauri_construct_unique, type)

    def find_or_construct_unique(self, type: TypeOrNumber) -> AnyView:
        """Finds the unique object of a type, or makes it."""
        return self._placed(library().lezgauri_find_or_construct_unique, type)

    def destroy_unique(self, type: TypeOrNumber) -> None:
        """Destroys the unique object of a type, and all that it owns. Raises Absent, a KeyError."""
        self._call(library().lezgauri_destroy_unique, self._number(type), about=type)

    def construct_anonymous(self, type: TypeOrNumber) -> AnyView:
        """Makes an object without a name and without an owner, and returns its view. Raises OtherType and BadAlloc.

        While there is such an object, the segment's image isn't sound: destroy it by `destroy_anonymous` before the image is saved or the
        segment is closed."""
        return self._placed(library().lezgauri_construct_anonymous, type)

    def destroy_anonymous(self, value: Value) -> None:
        """Destroys an object that `construct_anonymous` made, and all that it owns."""
        if value.segment is not self:
            raise BadArgument("the object is in another segment")
        value._change(library().lezgauri_destroy_anonymous)
