"""The numbers that calls return, and the exceptions for them."""
import enum
from typing import ClassVar, Optional


class Status(enum.IntEnum):
    """What calls of lezgauri.h return. Numbers below 100 are faults."""

    OK = 0
    MEMORY = 1
    MISPLACED = 2
    BAD_TYPE = 3
    TYPE_MISMATCH = 4
    BAD_SIZE = 5
    NO_HOST_ROOM = 6
    BAD_HEADER = 10
    BAD_BLOCK = 11
    BAD_FREE = 12
    BAD_INDEX = 13
    BAD_POINTER = 14
    DOUBLE_OWNER = 15
    UNOWNED = 16
    BAD_VALUE = 17
    BAD_CODE = 20
    BAD_LINE = 21
    REJECTED = 22
    TOO_LONG = 23
    BAD_ARGUMENT = 100
    OUTPUT_FULL = 101
    TOO_SMALL = 102
    BUSY = 103
    READ_ONLY = 104
    ALREADY_EXISTS = 111
    BAD_ALLOC = 112
    ABSENT = 113
    OTHER_TYPE = 114
    OUT_OF_RANGE = 115
    NO_VALUE = 116
    NUMBERS_USED_UP = 117


class Reason(enum.IntEnum):
    """Why the verifier refuses an instruction (docs/FORMATS.md, "The verifier")."""

    WRONG_OPERAND = 1
    OWNER_LOST = 2
    PUT_INTO_ITSELF = 3
    CHANGED_IN_LOOP = 4


# What the position of a fault counts. The other faults have no position.
UNITS = {
    Status.BAD_TYPE: "type",
    Status.TYPE_MISMATCH: "type",
    Status.BAD_BLOCK: "byte",
    Status.BAD_FREE: "byte",
    Status.BAD_INDEX: "byte",
    Status.BAD_POINTER: "byte",
    Status.DOUBLE_OWNER: "byte",
    Status.UNOWNED: "byte",
    Status.BAD_VALUE: "byte",
    Status.BAD_CODE: "byte",
    Status.BAD_LINE: "line",
    Status.REJECTED: "instruction",
}


def _name(table: "type[enum.IntEnum]", number: int) -> str:
    """The name of a number, or the number itself if only a later version of the library has it."""
    try:
        return table(number).name
    except ValueError:
        return str(number)


class Error(Exception):
    """A call of this module failed."""


class Fault(Error):
    """An image, a client or a text is refused. Nothing ran, and the segment is unchanged.

    number    the fault's number, one of Status
    name      its name, such as "BAD_POINTER"
    client    the client that has the fault, from 0 in the order of the call, or None if the image has it
    position  where the first fault is: in bytes from the start of the image or the client for BAD_BLOCK to BAD_CODE, the number of
              a type for BAD_TYPE and TYPE_MISMATCH, the number of an instruction for REJECTED, each from 0; the line for BAD_LINE, from
              1. None for other faults.
    reason    why the instruction of REJECTED is refused, one of Reason. None for other faults.
    reason_name  the reason's name, such as "WRONG_OPERAND". None for other faults.
    text      what the fault or its reason means, in words
    """

    def __init__(self, number: int, client: Optional[int] = None, position: int = 0, reason: int = 0) -> None:
        super().__init__(number, client, position, reason)
        self.number = number
        self.name = _name(Status, number)
        self.client = client
        self.position: Optional[int] = position if number in UNITS else None
        self.reason: Optional[int] = reason if number == Status.REJECTED else None
        self.reason_name: Optional[str] = _name(Reason, reason) if number == Status.REJECTED else None

    @property
    def text(self) -> str:
        from ._library import reason_text, status_text

        return status_text(self.number) if self.reason is None else reason_text(self.reason)

    def __str__(self) -> str:
        place = self.name
        if self.position is not None:
            place += f" at {UNITS[Status(self.number)]} {self.position}"
        if self.client is not None:
            place += f" of client {self.client}"
        if self.reason_name is not None:
            place += f", {self.reason_name}"
        try:
            return f"{place}: {self.text}"
        except LibraryError:
            return place


class OutOfMemory(Fault, MemoryError):
    """MEMORY: the library's request for memory was refused. Nothing ran."""


class BadSize(Fault, ValueError):
    """BAD_SIZE: a segment can't have this size, or can't grow by it. Nothing changed."""


class NoHostRoom(Fault, ValueError):
    """NO_HOST_ROOM: the memory that was lent to the segment is too small. Nothing changed."""


class BadArgument(Error, ValueError):
    """BAD_ARGUMENT: what the call writes overlaps other memory of the call. Nothing ran."""


class OutputFull(Error):
    """OUTPUT_FULL of run_whole: the output has no room for what the client prints. The segment is unchanged.

    needed    the length of the whole output in bytes
    """

    def __init__(self, needed: int) -> None:
        super().__init__(needed)
        self.needed = needed

    def __str__(self) -> str:
        return f"the output needs {self.needed} bytes"


class TooSmall(Error, ValueError):
    """TOO_SMALL: a buffer is shorter than the image that the call writes there. Nothing was written, and nothing ran.

    needed    the length of the image in bytes
    """

    def __init__(self, needed: int) -> None:
        super().__init__(needed)
        self.needed = needed

    def __str__(self) -> str:
        return f"the image needs {self.needed} bytes"


class Busy(Error):
    """BUSY: a call of another thread uses the segment or the prepared client. This call has done nothing."""


class Closed(Error, ValueError):
    """The segment or the prepared client was closed before."""


class Refused(Error):
    """A call on the objects or the values of a segment is refused. Nothing changed.

    number  the status, one of Status
    name    its name, such as "ABSENT"
    about   the name, the index, the key or the type that the call was given, or None
    text    what the status means, in words
    """

    number: ClassVar[Status]

    def __init__(self, about: object = None) -> None:
        super().__init__(about)
        self.about = about

    @property
    def name(self) -> str:
        return self.number.name

    @property
    def text(self) -> str:
        from ._library import status_text

        return status_text(self.number)

    def __str__(self) -> str:
        told = self.name if self.about is None else f"{self.name} ({self.about})"
        try:
            return f"{told}: {self.text}"
        except LibraryError:
            return told


class ReadOnly(Refused, TypeError):
    """READ_ONLY: the segment is open only for reading."""

    number = Status.READ_ONLY


class Frozen(ReadOnly):
    """The value is in a frozen object, which can't be changed."""

    text = "the value is in a frozen object"  # type: ignore[assignment]


class AlreadyExists(Refused, ValueError):
    """ALREADY_EXISTS: there is an object with this name, or a unique object of this type."""

    number = Status.ALREADY_EXISTS


class BadAlloc(Refused, MemoryError):
    """BAD_ALLOC: the segment is out of memory: no free block is large enough. `Segment.grow` adds memory.

    added   how many items `extend` added before, which stay. None if another call raised this.
    """

    number = Status.BAD_ALLOC
    added: Optional[int] = None

    def __str__(self) -> str:
        told = super().__str__()
        return told if self.added is None else f"{told} (items added before: {self.added})"


class Absent(Refused, KeyError):
    """ABSENT: there is no such object or key."""

    number = Status.ABSENT


class OtherType(Refused, TypeError):
    """OTHER_TYPE: the object or the value has another type, or the segment has no such type."""

    number = Status.OTHER_TYPE


class OutOfRange(Refused, IndexError, ValueError):
    """OUT_OF_RANGE: an index, a count or a name isn't allowed."""

    number = Status.OUT_OF_RANGE


class NoValue(Refused, IndexError, KeyError):
    """NO_VALUE: the container is empty, or the pointer is null."""

    number = Status.NO_VALUE


class NumbersUsedUp(Refused, OverflowError):
    """NUMBERS_USED_UP: no number is left for one more frozen object."""

    number = Status.NUMBERS_USED_UP


class LibraryError(Error):
    """The C library wasn't found, or can't be loaded."""
