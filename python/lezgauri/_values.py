"""Values of a segment where they are: views by kind."""
import array
import contextlib
import ctypes
import itertools
import operator
from collections.abc import ItemsView, KeysView, MutableMapping, Sequence, ValuesView
from ctypes import byref, c_int64, c_size_t, c_uint32
from typing import TYPE_CHECKING, Any, Callable, Dict, Iterable, Iterator, List as ListOf, Optional, Tuple, Type as TypeOf, Union

from ._buffers import Buffer, View
from ._errors import Absent, BadAlloc, BadArgument, Frozen, NoValue, OutOfRange
from ._handles import Closeable, handle_of
from ._library import CBytes, CEntry, CPair, CPlace, library, refuse
from .types import Kind, Type

if TYPE_CHECKING:
    from ._objects import Objects

# A view, whose class depends on the value's type, so that only the segment knows it.
AnyView = Any

# What the items of a view are: numbers, strings as bytes, and views of all other values.
Item = Any

_NUMBERS = range(-(2**63), 2**63)
_INDEXES = range(2**32)

# The entries that a loop over a map gets by one call if the segment is open only for reading.
_BATCH = 256

# The numbers that `extend` and `update` hand over by one call: an even number.
_NUMBERS_AT_ONCE = 4096


def _as_key(key: Any) -> int:
    """A key to look up. Raises Absent if no map can have it."""
    number = operator.index(key)
    if number not in _NUMBERS:
        raise Absent(key)
    return number


def _as_number(number: Any) -> int:
    """A number or a key to store."""
    number = operator.index(number)
    if number not in _NUMBERS:
        raise OverflowError(f"{number} doesn't fit 64 bits with a sign")
    return number


def _as_index(index: Any, count: Callable[[], int]) -> int:
    """An index from 0. A negative one counts from the end."""
    number = operator.index(index)
    if number < 0:
        number += count()
    if number not in _INDEXES:
        raise OutOfRange(index)
    return number


# Frozen objects that a copy of a value points to, each kept by an object of its own until the copy is used.
Kept = contextlib.ExitStack


def plain(value: Any, kept: Optional[Kept] = None) -> Any:
    """A view's value as objects of Python, or any other value as it is. With `kept`, a shared stays a view of a shared, which stays valid
    until `kept` is closed."""
    return value._plain(kept) if isinstance(value, (Value, Array)) else value


class Value:
    """A value of a segment, where it is. A view doesn't copy the value: it reads and changes the segment, each time that it is used.

    segment  the segment, which stays open as long as a view refers to it, unless it is closed explicitly
    type     the value's type, an entry of `segment.types()`

    **A view becomes invalid** when its object is destroyed, and when a container around its value gets or loses a value, is cleared or is
    shrunk to fit: keep a view of a container's value only until the container changes. Nothing can test this. An invalid view reads and
    writes only bytes of the segment, but these may be of another value, and then the segment's image may be refused later.

    Values are equal if their contents are, also to objects of Python: `segment["table"] == {7: (1815, b"Ada")}`.
    """

    __slots__ = ("segment", "type", "_place", "_frozen")
    __hash__ = None  # type: ignore[assignment]

    def __init__(self, segment: "Objects", place: CPlace, type: Type, frozen: bool = False) -> None:
        self.segment = segment
        self.type = type
        self._place = place
        self._frozen = frozen

    def __repr__(self) -> str:
        return f"<lezgauri.{type(self).__name__} of type {self._place.type} at {self._place.at}>"

    def __eq__(self, other: object) -> bool:
        return bool(self.plain() == plain(other))

    @property
    def value(self) -> Item:
        """The number, the bytes of a string, and of all other values this view."""
        return self

    def assign(self, value: Any) -> None:
        """Changes the value: to an int, to str or bytes, to the items of an iterable or a mapping, or to a copy of another view's value.
        None makes an own or a shared null.

        Raises BadAlloc if the segment is out of memory. A number or a string is unchanged then; of other values a part may be assigned."""
        raise NotImplementedError

    def plain(self) -> Any:
        """A copy as objects of Python: int, bytes, list, dict, tuple for a struct, and None for null."""
        return self._plain(None)

    def _plain(self, kept: Optional[Kept]) -> Any:
        raise NotImplementedError

    def clear(self) -> None:
        """Makes the value the default of its type: 0, empty, null, or for a struct the default of each field."""
        self._change(library().lezgauri_clear)

    def _read(self, call: Callable[..., int], *arguments: Any, about: object = None) -> None:
        with handle_of(self.segment, Closeable) as handle:
            refuse(call(handle, self._place, *arguments), about=about)

    def _change(self, call: Callable[..., int], *arguments: Any, about: object = None) -> None:
        if self._frozen:
            raise Frozen()
        self._read(call, *arguments, about=about)

    def _inside(self, call: Callable[..., int], *arguments: Any, about: object = None, frozen: bool = False) -> "Value":
        """The view of a value that a reading call returns."""
        place = CPlace()
        self._read(call, *arguments, byref(place), about=about)
        return self.segment._view(place, self._frozen or frozen)

    def _added(self, call: Callable[..., int], *arguments: Any, about: object = None) -> "Value":
        """The view of a value that a changing call returns."""
        place = CPlace()
        self._change(call, *arguments, byref(place), about=about)
        return self.segment._view(place, False)

    def _bytes(self, call: Callable[..., int]) -> memoryview:
        """A read-only view of the bytes that a call returns."""
        found = CBytes()
        handle = handle_of(self.segment, Closeable)
        with handle.reading() as address:
            refuse(call(address, self._place, byref(found)))
            return handle.exported(found.bytes, found.len) if found.len else memoryview(b"")

    def _numbers(self, call: Callable[..., int]) -> memoryview:
        """A read-only view of the numbers whose bytes a call returns."""
        numbers = self._bytes(call)
        return numbers.cast("q") if numbers.nbytes else memoryview(array.array("q")).toreadonly()

    def _has_numbers(self) -> bool:
        """Whether the values in a container are numbers."""
        return self.segment._type(self.type.components[0]).kind == Kind.I64

    def _add_numbers(self, call: Callable[..., int], numbers: Iterator[int], kind: Any) -> None:
        """Adds items, which are of this kind in C and consist of numbers, many by one call. If something isn't a number, the items before
        it are added."""
        added = 0
        is_more = True
        while is_more:
            batch = array.array("q")
            try:
                batch.extend(itertools.islice(numbers, _NUMBERS_AT_ONCE))
            finally:
                whole = len(batch) * batch.itemsize // ctypes.sizeof(kind)
                added += self._add_batch(call, (kind * whole).from_buffer(batch), added)
            is_more = len(batch) == _NUMBERS_AT_ONCE

    def _add_batch(self, call: Callable[..., int], items: "ctypes.Array[Any]", before: int) -> int:
        """Adds items by one call, after those that were added before. Returns how many it added."""
        added = c_size_t()
        if len(items) > 0:
            try:
                self._change(call, items, len(items), byref(added))
            except BadAlloc as error:
                error.added = before + added.value
                raise
        return added.value


def _add(add: Callable[[], Value], value: Any, undo: Callable[[], None]) -> None:
    """Adds a default value and assigns to it. If that fails, removes it again. A view is copied first, since adding may move its value."""
    with Kept() as kept:
        copy = plain(value, kept)
        added = add()
        try:
            added.assign(copy)
        except BaseException:
            undo()
            raise


def _taken(view: Value) -> Optional[Item]:
    """What remains of a value that is destroyed next."""
    value = view.value
    return None if isinstance(value, Value) else value


class Number(Value):
    """An i64: `number.value`, `number.value += 1`, `int(number)`."""

    __slots__ = ()

    @property
    def value(self) -> int:
        """The number. It can be set."""
        number = c_int64()
        self._read(library().lezgauri_load, byref(number))
        return number.value

    @value.setter
    def value(self, number: int) -> None:
        self._change(library().lezgauri_store, _as_number(number))

    def __index__(self) -> int:
        return self.value

    __int__ = __index__

    def assign(self, value: Any) -> None:
        self.value = plain(value)

    def _plain(self, kept: Optional[Kept]) -> int:
        return self.value


class _Sized(Value):
    """What strings and containers have in common."""

    __slots__ = ()

    def __len__(self) -> int:
        count = c_uint32()
        self._read(library().lezgauri_len, byref(count))
        return count.value

    def shrink_to_fit(self) -> None:
        """Gives back the memory that a string, a vector or a flat map has beyond its items. Raises OtherType for other containers."""
        self._change(library().lezgauri_shrink_to_fit)


class Text(_Sized):
    """A string of bytes: `bytes(text)`, `str(text)`, `text.append(b"..")`. It has no encoding, so it may contain any bytes, and the items
    of containers are `bytes`. `str(text)` decodes UTF-8, and raises UnicodeDecodeError if it isn't UTF-8. A str that is assigned or
    appended becomes UTF-8."""

    __slots__ = ()

    @property
    def value(self) -> bytes:
        """A copy of the bytes."""
        found = CBytes()
        with handle_of(self.segment, Closeable).reading() as handle:
            refuse(library().lezgauri_text(handle, self._place, byref(found)))
            return ctypes.string_at(found.bytes, found.len) if found.len else b""

    def view(self) -> memoryview:
        """A read-only view of the bytes without a copy, until the next call that changes the segment: after it the view has unspecified
        bytes. While it exists, `Segment.grow` raises BufferError."""
        return self._bytes(library().lezgauri_text)

    def __bytes__(self) -> bytes:
        return self.value

    def __str__(self) -> str:
        return self.value.decode()

    def assign(self, value: Union[str, Buffer, "Text"]) -> None:
        """Replaces the bytes."""
        self._write(library().lezgauri_assign, value)

    def append(self, value: Union[str, Buffer, "Text"]) -> None:
        """Adds bytes at the end."""
        self._write(library().lezgauri_append, value)

    def _write(self, call: Callable[..., int], value: Any) -> None:
        value = plain(value)
        with View(value.encode() if isinstance(value, str) else value, "string") as of:
            self._change(call, of.address, of.size)

    def pop(self) -> None:
        """Drops the last byte. Raises NoValue, an IndexError, if there is none."""
        self._change(library().lezgauri_pop_back)

    def _plain(self, kept: Optional[Kept]) -> bytes:
        return self.value


class _Items(Value, Sequence):  # type: ignore[type-arg]
    """What has items by index: vectors, lists and structs."""

    __slots__ = ()

    def at(self, index: int) -> AnyView:
        """The view of an item, also if it is a number or a string. A negative index counts from the end.

        Raises OutOfRange, an IndexError."""
        return self._inside(library().lezgauri_item, _as_index(index, self.__len__), about=index)

    def views(self) -> Iterator[AnyView]:
        """The views of the items in order."""
        return (self.at(index) for index in range(len(self)))

    def __getitem__(self, index: Any) -> Any:
        if isinstance(index, slice):
            return [self[each] for each in range(*index.indices(len(self)))]
        return self.at(index).value

    def __setitem__(self, index: int, value: Any) -> None:
        self.at(index).assign(value)

    def __iter__(self) -> Iterator[Any]:
        return (view.value for view in self.views())

    def _plain(self, kept: Optional[Kept]) -> Any:
        return [view._plain(kept) for view in self.views()]


class _Growing(_Items, _Sized):
    """What vectors and lists have in common."""

    __slots__ = ()

    def add(self) -> AnyView:
        """Adds a default item at the end, and returns its view. Raises BadAlloc."""
        return self._added(library().lezgauri_push_back)

    def append(self, value: Any) -> None:
        """Adds an item at the end. Raises BadAlloc; then it isn't added."""
        _add(self.add, value, self._drop)

    def extend(self, values: Iterable[Any]) -> None:
        """Adds items at the end. Raises BadAlloc; then the items before are added, and its attribute `added` is how many they are."""
        with Kept() as kept:
            for added, value in enumerate(plain(values, kept)):
                try:
                    self.append(value)
                except BadAlloc as error:
                    error.added = added
                    raise

    def __iadd__(self, values: Iterable[Any]) -> Any:
        self.extend(values)
        return self

    def pop(self) -> Optional[Item]:
        """Removes the last item, and returns it if it is a number or a string. All others are destroyed, and the result is None.

        Raises NoValue, an IndexError, if there is none."""
        count = len(self)
        last = _taken(self.at(count - 1)) if count else None
        self._drop()
        return last

    def _drop(self) -> None:
        self._change(library().lezgauri_pop_back)

    def assign(self, value: Iterable[Any]) -> None:
        with Kept() as kept:
            items = [plain(item, kept) for item in plain(value, kept)]
            self.clear()
            self.extend(items)


class Vector(_Growing):
    """A vector: a sequence with `append`, `extend` and `pop` at the end. Items can't be inserted or removed elsewhere."""

    __slots__ = ()

    def numbers(self) -> memoryview:
        """A read-only view of the numbers of a `vec(i64)` without a copy, of format "q", until the next call that changes the segment:
        after it the view has unspecified numbers. While it exists, `Segment.grow` raises BufferError. Raises OtherType if the items
        aren't numbers."""
        return self._numbers(library().lezgauri_numbers)

    def extend(self, values: Iterable[Any]) -> None:
        """Adds items at the end. Raises BadAlloc; then the items before are added, and its attribute `added` is how many they are.
        Numbers are added many by one call, so up to 4096 of them are taken from `values` before they are added."""
        if not self._has_numbers():
            super().extend(values)
            return
        with Kept() as kept:
            self._add_numbers(library().lezgauri_push_numbers, map(_as_number, plain(values, kept)), c_int64)

    def __iter__(self) -> Iterator[Any]:
        # one call for all numbers
        return iter(self.plain()) if self._has_numbers() else super().__iter__()

    def _plain(self, kept: Optional[Kept]) -> ListOf[Any]:
        if not self._has_numbers():
            return super()._plain(kept)  # type: ignore[no-any-return]
        with self.numbers() as numbers:
            return numbers.tolist()


class List(_Growing):
    """A linked list: a sequence with `append`, `extend`, `pop`, and at the front `appendleft` and `popleft`. Loops go step by step, and
    an index is found step by step from the nearer end."""

    __slots__ = ()

    def addleft(self) -> AnyView:
        """Adds a default item at the front, and returns its view. Raises BadAlloc."""
        return self._added(library().lezgauri_push_front)

    def appendleft(self, value: Any) -> None:
        """Adds an item at the front. Raises BadAlloc; then it isn't added."""
        _add(self.addleft, value, self._drop_first)

    def popleft(self) -> Optional[Item]:
        """Removes the first item as `pop` removes the last one."""
        first = _taken(self.at(0)) if len(self) else None
        self._drop_first()
        return first

    def _drop_first(self) -> None:
        self._change(library().lezgauri_pop_front)

    def _steps(self, first: int, step: Callable[..., int]) -> Iterator[Value]:
        """The views from an item on, each one step after the one before."""
        if len(self):
            item = self.at(first)
            while True:
                yield item
                try:
                    item = self._inside(step, item._place)
                except NoValue:
                    return

    def views(self) -> Iterator[AnyView]:
        return self._steps(0, library().lezgauri_next_item)

    def __reversed__(self) -> Iterator[Any]:
        return (view.value for view in self._steps(-1, library().lezgauri_previous_item))


class Struct(_Items):
    """A struct: a sequence of its fields, like a tuple whose items can be assigned. `age, name = struct` unpacks it."""

    __slots__ = ()

    def __len__(self) -> int:
        return len(self.type.components)

    def at(self, index: int) -> AnyView:
        """The view of a field, also if it is a number or a string. Raises OutOfRange, an IndexError."""
        return self._inside(library().lezgauri_field, _as_index(index, self.__len__), about=index)

    def assign(self, value: Iterable[Any]) -> None:
        """Assigns all fields in order. Raises ValueError if there are more or fewer values than fields."""
        with Kept() as kept:
            values = tuple(plain(value, kept))
            if len(values) != len(self):
                raise ValueError(f"{len(values)} values for {len(self)} fields")
            for field, each in zip(self.views(), values):
                field.assign(each)

    def _plain(self, kept: Optional[Kept]) -> Tuple[Any, ...]:
        return tuple(super()._plain(kept))


class Keys(KeysView):  # type: ignore[type-arg]
    """The keys of a map in ascending order, or those between two keys. A loop may change the map: it continues with the next key."""

    def __init__(self, map: "Map", after: Optional[int], before: Optional[int]) -> None:
        super().__init__(map)
        self._map = map
        self._after = None if after is None else operator.index(after)
        self._before = None if before is None else operator.index(before)

    def _has(self, key: int) -> bool:
        return (self._after is None or self._after < key) and (self._before is None or key < self._before)

    def _steps(self, step: Callable[[Optional[int]], Optional[int]], start: Optional[int]) -> Iterator[int]:
        key = step(start)
        while key is not None and self._has(key):
            yield key
            key = step(key)

    def __iter__(self) -> Iterator[int]:
        if self._map.segment.read_only:
            return itertools.takewhile(self._has, (key for key, _ in self._map._entries(self._after)))
        return self._steps(self._map._next, self._after)

    def __reversed__(self) -> Iterator[int]:
        return self._steps(self._map._previous, self._before)

    def __contains__(self, key: object) -> bool:
        return key in self._map and self._has(operator.index(key))  # type: ignore[arg-type]

    def __len__(self) -> int:
        return len(self._map) if self._after is None and self._before is None else sum(1 for _ in self)


class Entries(ItemsView):  # type: ignore[type-arg]
    """The keys of a map in ascending order with their values. A loop may change the map: it continues with the next key."""

    def __init__(self, map: "Map") -> None:
        super().__init__(map)
        self._map = map

    def __iter__(self) -> Iterator[Tuple[int, Item]]:
        return ((key, view.value) for key, view in self._map._views())

    def __reversed__(self) -> Iterator[Tuple[int, Item]]:
        return ((key, view.value) for key, view in self._map._steps(library().lezgauri_previous_entry))


class Values(ValuesView):  # type: ignore[type-arg]
    """The values of a map in ascending order of their keys. A loop may change the map: it continues with the next key."""

    def __init__(self, map: "Map") -> None:
        super().__init__(map)
        self._map = map

    def __iter__(self) -> Iterator[Item]:
        return (view.value for _, view in self._map._views())


class Map(_Sized, MutableMapping):  # type: ignore[type-arg]
    """A map from numbers, `map` or `flat_map`: a mapping with its keys in ascending order."""

    __slots__ = ()

    def at(self, key: int) -> AnyView:
        """The view of a key's value, also if it is a number or a string. Raises Absent, a KeyError."""
        return self._inside(library().lezgauri_get, _as_key(key), about=key)

    def put(self, key: int) -> AnyView:
        """The view of a key's value. A missing key is added with a default value. Raises BadAlloc."""
        return self._added(library().lezgauri_put, _as_number(key), about=key)

    def __getitem__(self, key: int) -> Item:
        return self.at(key).value

    def __setitem__(self, key: int, value: Any) -> None:
        if key in self:
            self.at(key).assign(value)
        else:
            _add(lambda: self.put(key), value, lambda: self.__delitem__(key))

    def __delitem__(self, key: int) -> None:
        self._change(library().lezgauri_remove, _as_key(key), about=key)

    def __contains__(self, key: object) -> bool:
        try:
            self.at(key)  # type: ignore[arg-type]
        except (Absent, TypeError):
            return False
        return True

    def first(self) -> int:
        """The least key. Raises NoValue, a KeyError, if the map is empty."""
        return self._some(self._next(None))

    def last(self) -> int:
        """The greatest key. Raises NoValue, a KeyError, if the map is empty."""
        return self._some(self._previous(None))

    @staticmethod
    def _some(key: Optional[int]) -> int:
        if key is None:
            raise NoValue()
        return key

    def keys(self, after: Optional[int] = None, before: Optional[int] = None) -> Keys:
        """The keys in ascending order, and with `reversed` in descending order: all, or those above `after` and below `before`."""
        return Keys(self, after, before)

    def items(self) -> Entries:
        """The keys in ascending order with their values, and with `reversed` in descending order."""
        return Entries(self)

    def values(self) -> Values:
        """The values in ascending order of their keys."""
        return Values(self)

    def pairs(self) -> memoryview:
        """A read-only view of the keys and numbers of a `flat_map(i64)` without a copy, of format "q": each key is followed by its number,
        so `pairs[::2]` are the keys in ascending order and `pairs[1::2]` the numbers. It is used as `Vector.numbers` is. Raises OtherType
        for other maps."""
        return self._numbers(library().lezgauri_pairs)

    def __iter__(self) -> Iterator[int]:
        return iter(self.keys())

    def __reversed__(self) -> Iterator[int]:
        return reversed(self.keys())

    def _next(self, after: Optional[int]) -> Optional[int]:
        """The least key above another one, or of all."""
        if after is not None and after not in _NUMBERS:
            return self._next(None) if after < 0 else None
        return self._key(library().lezgauri_next_key, after)

    def _previous(self, before: Optional[int]) -> Optional[int]:
        """The greatest key below another one, or of all."""
        if before is not None and before not in _NUMBERS:
            return self._previous(None) if before > 0 else None
        return self._key(library().lezgauri_previous_key, before)

    def _key(self, call: Callable[..., int], start: Optional[int]) -> Optional[int]:
        key = c_int64()
        try:
            self._read(call, None if start is None else byref(c_int64(start)), byref(key))
        except NoValue:
            return None
        return key.value

    def _views(self) -> Iterator[Tuple[int, AnyView]]:
        """The keys in ascending order with the views of their values."""
        if self.segment.read_only:
            return ((key, self.segment._view(place, self._frozen)) for key, place in self._entries(None))
        return self._steps(library().lezgauri_next_entry)

    def _entries(self, after: Optional[int]) -> Iterator[Tuple[int, CPlace]]:
        """The keys above another one, or all, with the places of their values. The segment is open only for reading."""
        entries, count = (CEntry * _BATCH)(), c_size_t(_BATCH)
        start = None if after is None or after < _NUMBERS[0] else c_int64(min(after, _NUMBERS[-1]))
        while count.value == _BATCH:
            self._read(library().lezgauri_next_entries, start, entries, _BATCH, byref(count))
            for entry in entries[: count.value]:
                yield entry.key, CPlace(entry.value.at, entry.value.type)
            start = c_int64(entries[_BATCH - 1].key)

    def _steps(self, call: Callable[..., int]) -> Iterator[Tuple[int, AnyView]]:
        """The keys with the views of their values, each from a call that returns the next entry."""
        key = c_int64()
        start = None
        while True:
            place = CPlace()
            try:
                self._read(call, start, byref(key), byref(place))
            except NoValue:
                return
            start = byref(key)
            yield key.value, self.segment._view(place, self._frozen)

    _NONE = object()

    def pop(self, key: int, default: Any = _NONE) -> Any:
        """Removes a key, and returns its value if it is a number or a string. All others are destroyed, and the result is None.

        Raises Absent, a KeyError, if the map doesn't have the key and no default is given."""
        try:
            value = _taken(self.at(key))
        except Absent:
            if default is self._NONE:
                raise
            return default
        del self[key]
        return value

    def popitem(self) -> Tuple[int, Any]:
        """Removes the least key, and returns it with what `pop` returns."""
        key = self.first()
        return key, self.pop(key)

    def update(self, other: Any = (), /, **more: Any) -> None:
        """Puts keys with their values, from a mapping or from pairs. Raises BadAlloc; then those before stay. In a map of numbers they are
        put many by one call, so up to 2048 pairs are taken from `other` before they are put, and the exception's attribute `added` is how
        many were put."""
        if not self._has_numbers():
            super().update(other, **more)
            return
        with Kept() as kept:
            pairs = plain(other, kept)
            pairs = itertools.chain(dict(pairs).items() if hasattr(pairs, "keys") else pairs, more.items())
            numbers = (_as_number(number) for key, value in pairs for number in (key, value))
            self._add_numbers(library().lezgauri_put_numbers, numbers, CPair)

    def setdefault(self, key: int, default: Any = _NONE) -> Any:
        """The value of a key. A missing key is added with this value, or with the default of its type."""
        if key not in self:
            if default is self._NONE:
                self.put(key)
            else:
                self[key] = default
        return self[key]

    def clear(self) -> None:
        """Removes all keys, in one call."""
        Value.clear(self)

    def assign(self, value: Any) -> None:
        with Kept() as kept:
            items = {key: plain(each, kept) for key, each in dict(plain(value, kept)).items()}
            self.clear()
            self.update(items)

    def _plain(self, kept: Optional[Kept]) -> Dict[int, Any]:
        if self.type.kind != Kind.FLAT_MAP or not self._has_numbers():
            return {key: view._plain(kept) for key, view in self._views()}
        # one call for all pairs
        with self.pairs() as pairs:
            return dict(zip(pairs[::2], pairs[1::2]))


class Own(Value):
    """An own: null, or an object of its own. It is true if it isn't null."""

    __slots__ = ()

    @property
    def content(self) -> Optional[Item]:
        """The object's value, or None if the own is null."""
        view = self.at()
        return None if view is None else view.value

    @content.setter
    def content(self, value: Any) -> None:
        self.assign(value)

    def at(self) -> Optional[AnyView]:
        """The view of the object, also if it is a number or a string, or None if the own is null."""
        try:
            return self._inside(library().lezgauri_content)
        except NoValue:
            return None

    def put_content(self) -> AnyView:
        """Makes a new object of a default value, destroys the one before, and returns the view of the new one. Raises BadAlloc."""
        return self._added(library().lezgauri_put_content)

    def __bool__(self) -> bool:
        return self.at() is not None

    def assign(self, value: Any) -> None:
        """Makes a new object of this value, or makes the own null if the value is None."""
        with Kept() as kept:
            copy = plain(value, kept)
            if copy is None:
                self.clear()
            else:
                _add(self.put_content, copy, self.clear)

    def _plain(self, kept: Optional[Kept]) -> Any:
        return plain(self.at(), kept)


class Shared(Value):
    """A shared: null, or a pointer to a frozen object, to which others may point. It is true if it isn't null. The frozen object can be
    read, but not changed: then Frozen is raised."""

    __slots__ = ()

    @property
    def content(self) -> Optional[Item]:
        """The frozen object's value, or None if the shared is null."""
        view = self.at()
        return None if view is None else view.value

    def at(self) -> Optional[AnyView]:
        """The view of the frozen object, also if it is a number or a string, or None if the shared is null."""
        try:
            return self._inside(library().lezgauri_content, frozen=True)
        except NoValue:
            return None

    def freeze(self, own: Own) -> None:
        """Freezes the object of an own, and points to it. The own is null after that.

        Raises NoValue if the own is null, OtherType if its object has another type, NumbersUsedUp, and BadAlloc. Then nothing changed."""
        if not isinstance(own, Own):
            raise TypeError(f"an Own is required, not {type(own).__name__!r}")
        self._same_segment(own)
        if self._frozen:
            raise Frozen()
        own._change(library().lezgauri_freeze, self._place)

    def share(self, other: "Shared") -> None:
        """Points to what another one points to, also if it is null. Raises OtherType if the types differ."""
        if not isinstance(other, Shared):
            raise TypeError(f"a Shared is required, not {type(other).__name__!r}")
        self._same_segment(other)
        self._change(library().lezgauri_share, other._place)

    def _same_segment(self, other: Value) -> None:
        if other.segment is not self.segment:
            raise BadArgument("the two values are in different segments")

    def __bool__(self) -> bool:
        return self.at() is not None

    def assign(self, value: Optional["Shared"]) -> None:
        """The same as `share`, or makes the pointer null if the value is None. Values of other kinds raise TypeError."""
        if value is None:
            self.clear()
        else:
            self.share(value)

    def _plain(self, kept: Optional[Kept]) -> Any:
        return self._kept(kept) if kept is not None and self else plain(self.at())

    def _kept(self, kept: Kept) -> "Shared":
        """A shared in an object of its own that points to the same frozen object, until `kept` is closed."""
        copy = self.segment.construct_anonymous(self._place.type)
        kept.callback(self.segment.destroy_anonymous, copy)
        copy.share(self)
        return copy  # type: ignore[no-any-return]


class Array(Sequence):  # type: ignore[type-arg]
    """A named object of several values: a sequence of fixed length."""

    __slots__ = ("segment", "name", "type", "_number", "_count")
    __hash__ = None  # type: ignore[assignment]

    def __init__(self, segment: "Objects", name: str, number: int, count: int) -> None:
        self.segment = segment
        self.name = name
        self.type = segment._type(number)
        self._number = number
        self._count = count

    def __repr__(self) -> str:
        return f"<lezgauri.Array {self.name!r} of {self._count} values of type {self._number}>"

    def __eq__(self, other: object) -> bool:
        return bool(self.plain() == plain(other))

    def __len__(self) -> int:
        return self._count

    def at(self, index: int) -> AnyView:
        """The view of a value, also if it is a number or a string. A negative index counts from the end.

        Raises OutOfRange, an IndexError, and Absent if the object was destroyed."""
        return self.segment._find_item(self.name, self._number, _as_index(index, self.__len__), index)

    def __getitem__(self, index: Any) -> Any:
        if isinstance(index, slice):
            return [self[each] for each in range(*index.indices(self._count))]
        return self.at(index).value

    def __setitem__(self, index: int, value: Any) -> None:
        self.at(index).assign(value)

    def plain(self) -> ListOf[Any]:
        """A copy as objects of Python: a list."""
        return self._plain(None)

    def _plain(self, kept: Optional[Kept]) -> ListOf[Any]:
        return [self.at(index)._plain(kept) for index in range(self._count)]


VIEWS: Dict[Kind, TypeOf[Value]] = {
    Kind.I64: Number,
    Kind.STR: Text,
    Kind.VEC: Vector,
    Kind.LIST: List,
    Kind.FLAT_MAP: Map,
    Kind.MAP: Map,
    Kind.OWN: Own,
    Kind.STRUCT: Struct,
    Kind.SHARED: Shared,
}
