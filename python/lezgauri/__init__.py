"""Lezgauri for Python: managed memory segments whose images are checked before use, and client programs that are verified before
they run.

    import lezgauri
    from lezgauri import types as t

    with lezgauri.Segment.create(65536) as segment:
        users = t.map(t.struct(t.i64, t.str))           # a map from numbers to structs
        segment.add_types(users)
        table = segment.construct("users", users)
        table[7] = (1815, "Ada")
        for number, (year, name) in segment["users"].items():
            print(number, year, name.decode())          # 7 1815 Ada
        image = segment.save()

    with lezgauri.Segment(image) as segment:            # checks the image, and works on a copy of it
        with segment.prepare(client) as count:          # verifies the client
            result = count(segment, b"some input")      # runs it
            print(result.output, result.steps)

This module calls the C library of crates/lezgauri_c/include/lezgauri.h, which specifies each call. docs/FORMATS.md specifies
images and clients. Sizes and positions are in bytes, unless stated otherwise.

A segment may also be used where it is, for example in a mapped file, or only be read there:

    with lezgauri.open_file("table.image") as file, lezgauri.Segment.open_in(file) as segment: ...
    with lezgauri.open_file("table.image", writable=False) as file, lezgauri.read(file) as segment: ...

**Values.** A segment is a mapping from the names of its objects to values. Numbers are `int`. Strings are `bytes`, since a segment's
strings are any bytes: `name.decode()` makes a `str`, and a `str` that is stored becomes UTF-8. All other values are views of the segment:
Vector, List, Map, Own, Struct, Shared, and Array for an object of several values. `at(..)` of a view, and `find` of a segment, also
return views of numbers and strings (Number, Text), which can be changed in place.

**A view becomes invalid** when its object is destroyed, and when a container around its value gets or loses a value. Nothing tests this:
an invalid view reads and writes bytes of the segment that may be of another value (see Value).

**Buffers.** Images, clients and inputs may be `bytes`, `bytearray`, `memoryview`, `mmap` or any other object with a contiguous
buffer. Nothing is copied, except the image by `Segment(image)` and the client by `Segment.prepare`. What a call writes must be a
writable buffer, else it raises TypeError. While a call runs, nobody may write the buffers that it reads, or use those that it
writes; only `Segment(image)` may be given bytes that others write, since it checks its own copy.

**Threads.** A call releases the interpreter's lock. Calls on different segments and clients may run at the same time. If another
thread's call uses the segment or the prepared client, the call raises Busy and has done nothing. Threads that read one image open
a segment each, by `read` and `Segment.reader`.

**Errors.** Each exception of this module is an Error. An image, a client or a text that is refused raises Fault, and a call on
objects and values that is refused raises Refused, of a class that is also a KeyError, IndexError or TypeError.
"""
from . import types
from ._calls import (CAPACITY, AllocatorKind, Client, Ended, FreeMemory, IndexKind, Report, Result, Runs, Segment, assemble,
                     canonical_text, check, read, run, run_on, run_whole, verify, version)
from ._errors import (Absent, AlreadyExists, BadAlloc, BadArgument, BadSize, Busy, Closed, Error, Fault, Frozen, LibraryError,
                      NoHostRoom, NoValue, NumbersUsedUp, OtherType, OutOfMemory, OutOfRange, OutputFull, ReadOnly, Reason, Refused,
                      Status, TooSmall)
from ._files import MappedFile, open_file
from ._objects import Named
from ._values import Array, Keys, List, Map, Number, Own, Shared, Struct, Text, Value, Vector
from .types import Kind, Type

__all__ = [
    "Absent", "AllocatorKind", "AlreadyExists", "Array", "BadAlloc", "BadArgument", "BadSize", "Busy", "CAPACITY", "Client", "Closed",
    "Ended", "Error", "Fault", "FreeMemory", "Frozen", "IndexKind", "Keys", "Kind", "LibraryError", "List", "Map", "MappedFile", "Named",
    "NoHostRoom", "NoValue", "Number", "NumbersUsedUp", "OtherType", "OutOfMemory", "OutOfRange", "OutputFull", "Own", "ReadOnly",
    "Reason", "Refused", "Report", "Result", "Runs", "Segment", "Shared", "Status", "Struct", "Text", "TooSmall", "Type", "Value",
    "Vector", "assemble", "canonical_text", "check", "open_file", "read", "run", "run_on", "run_whole", "types", "verify", "version",
]
