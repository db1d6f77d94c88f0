"""The calls on images, segments and clients."""
import contextlib
import enum
import operator
from ctypes import byref, c_size_t, c_uint64, c_void_p
from dataclasses import dataclass
from typing import Callable, Iterable, Optional, Tuple, Union

from ._buffers import Buffer, View, WritableBuffer
from ._errors import BadArgument, BadSize, OutputFull, Status, TooSmall
from ._handles import Closeable, Handle, handle_of
from ._library import CBytes, CFault, CReport, library, refuse
from ._objects import Objects

# The bytes of room for an output if the caller gives neither a buffer nor a capacity.
CAPACITY = 65536

# No segment has as many bytes. A larger number isn't passed on, since it may not fit C's size_t.
_MOST = 2**31


class Ended(enum.IntEnum):
    """How the run of a client ended."""

    DONE = 0  # it ran to the end of its code
    OUTPUT_FULL = 1  # the output had no room for what it printed, and it stopped there


class AllocatorKind(enum.IntEnum):
    """The allocators of a segment."""

    SEQ_FIT = 0  # sequential fit: the first free block that is large enough
    BEST_FIT = 1  # best fit: the smallest one


class IndexKind(enum.IntEnum):
    """The indexes of a segment, which find objects by name."""

    FLAT = 0  # a sorted array
    TREE = 1


@dataclass(frozen=True)
class FreeMemory:
    """The free memory of a segment in bytes, with 16 for the header of each free block.

    all      all free blocks together
    largest  the largest free block
    """

    all: int
    largest: int


@dataclass(frozen=True)
class Report:
    """What a run of a client did.

    steps   the steps that it took, at most the bound that `verify` returns
    ended   Ended.DONE, or Ended.OUTPUT_FULL
    read    the bytes of the input that it read
    """

    steps: int
    ended: Ended
    read: int


@dataclass(frozen=True)
class Result:
    """What a run of one client printed and did.

    output  what it printed: bytes, or if the call was given a buffer a memoryview of the printed part of that buffer
    steps   the steps that it took, at most the bound that `verify` returns
    ended   Ended.DONE, or Ended.OUTPUT_FULL: then `output` is what fits, and the segment has the client's changes up to there
    read    the bytes of the input that it read
    """

    output: Union[bytes, memoryview]
    steps: int
    ended: Ended
    read: int


@dataclass(frozen=True)
class Runs:
    """What the runs of several clients printed and did.

    output   what they printed: bytes, or if the call was given a buffer a memoryview of the printed part of that buffer
    saved    the saved image: a bytearray, or if the call was given a buffer a memoryview of the image in that buffer
    reports  a Report for each client that ran. If the last one ended with Ended.OUTPUT_FULL, the clients after it didn't run
    """

    output: Union[bytes, memoryview]
    saved: Union[bytearray, memoryview]
    reports: Tuple[Report, ...]


class _Room(View):
    """The room for an output inside a `with` block: the caller's buffer, or new memory."""

    __slots__ = ("_given", "_memory")

    def __init__(self, output: Optional[WritableBuffer], capacity: int) -> None:
        self._given = output is not None
        self._memory: WritableBuffer = bytearray(operator.index(capacity)) if output is None else output
        super().__init__(self._memory, "output", writable=True)

    def __enter__(self) -> "_Room":
        return self

    def printed(self, length: int) -> Union[bytes, memoryview]:
        printed = memoryview(self._memory).cast("B")[:length]
        return printed if self._given else bytes(printed)


class Segment(Objects):
    """An open segment, whose image is checked once. `close()` or the end of a `with` block frees it.

    Segment(image)          a copy of an image
    Segment.open_in(memory) an image where it is
    Segment.create(size)    a new segment without objects or types
    read(image)             an image where it is, only for reading

    It is a mapping from the names of its objects to their values: `segment["users"]`. Numbers are int, strings are bytes, and all other
    values are views that read and change the segment (Vector, List, Map, Own, Struct, Shared). `segment["x"] = 5` changes the value of an
    object, and `del segment["x"]` destroys the object.

    Segment(image) raises Fault if the image isn't sound, and OutOfMemory if there is no memory for the copy. The image's bytes may
    change while they are copied: the copy is checked."""

    def __init__(self, image: Buffer) -> None:
        calls = library()
        address, fault = c_void_p(), CFault()
        with View(image, "image") as of:
            refuse(calls.lezgauri_open(of.address, of.size, byref(address), byref(fault)), fault)
        self._handle = Handle("segment", address.value or 0, calls.lezgauri_close)

    @classmethod
    def open_in(cls, memory: WritableBuffer, size: Optional[int] = None) -> "Segment":
        """Opens the image in the first `size` bytes of a writable buffer, or in all of it, where it is: it is checked there, and
        nothing is copied. Runs change the buffer, for example a file of `open_file`, and `grow` uses the rest of it. Until the
        segment is closed, the buffer can't be closed or resized.

        Only calls of this library may write the buffer until then. Other segments on the same memory, also of other processes, may
        be used between the calls of this one, if they don't change the image's size: lock the file, and open the segment anew if you
        don't trust the others. If a crash interrupts a run, the buffer is half changed.

        Raises Fault if the image isn't sound, OutOfMemory, and BadArgument if the buffer is shorter than `size`."""
        calls = library()
        address, fault = c_void_p(), CFault()
        with contextlib.ExitStack() as held:
            of = held.enter_context(View(memory, "memory", writable=True))
            length = of.size if size is None else operator.index(size)
            if not 0 <= length <= of.size:
                raise BadArgument(f"the buffer has {of.size} bytes, and the image {length}")
            refuse(calls.lezgauri_open_in(of.address, length, of.size, byref(address), byref(fault)), fault)
            return cls._made(address, held.pop_all())

    @classmethod
    def create(
        cls,
        size: int,
        allocator: AllocatorKind = AllocatorKind.BEST_FIT,
        index: IndexKind = IndexKind.TREE,
        *,
        memory: Optional[WritableBuffer] = None,
    ) -> "Segment":
        """Makes a segment of `size` bytes without objects or types, in its own memory or at the start of a writable buffer, where it
        stays as after `open_in`. All of the first `size` bytes of the buffer are written.

        Raises BadSize if `size` isn't a multiple of 16 from 736 to 2^30, NoHostRoom if the buffer is shorter, and OutOfMemory. Then
        the buffer is unchanged."""
        calls = library()
        address = c_void_p()
        length = operator.index(size)
        if length < 0:
            raise BadSize(Status.BAD_SIZE)
        length = min(length, _MOST)
        kinds = (AllocatorKind(allocator), IndexKind(index))
        with contextlib.ExitStack() as held:
            if memory is None:
                refuse(calls.lezgauri_create(length, *kinds, byref(address)))
            else:
                of = held.enter_context(View(memory, "memory", writable=True))
                refuse(calls.lezgauri_create_in(of.address, of.size, length, *kinds, byref(address)))
            return cls._made(address, held.pop_all())

    @classmethod
    def _read(cls, image: Buffer, handle: Optional[Handle] = None) -> "Segment":
        """Opens an image only for reading, or if a handle on it is given another handle."""
        calls = library()
        address, fault = c_void_p(), CFault()
        with contextlib.ExitStack() as held:
            of = held.enter_context(View(image, "image"))
            if handle is None:
                refuse(calls.lezgauri_read(of.address, of.size, byref(address), byref(fault)), fault)
            else:
                with handle as first:
                    refuse(calls.lezgauri_reader(first, byref(address)))
            segment = cls._made(address, held.pop_all())
        segment._image = image
        return segment

    def reader(self) -> "Segment":
        """Another segment on the same image, which isn't checked again: for another thread. It is closed by itself.

        Raises BadArgument if this segment isn't open only for reading, and OutOfMemory."""
        handle = handle_of(self, Segment)
        if self._image is None:
            raise BadArgument("the segment isn't open only for reading")
        return self._read(self._image, handle)

    @classmethod
    def _made(cls, address: c_void_p, held: contextlib.ExitStack) -> "Segment":
        """A segment whose memory is held until it is closed."""
        close = library().lezgauri_close

        def free(handle: int) -> None:
            close(handle)
            held.close()

        segment = cls.__new__(cls)
        segment._handle = Handle("segment", address.value or 0, free)
        return segment

    @property
    def size(self) -> int:
        """The bytes of the segment's image."""
        length = c_size_t()
        with handle_of(self, Segment) as handle:
            refuse(library().lezgauri_size(handle, byref(length)))
        return length.value

    @property
    def free_memory(self) -> FreeMemory:
        """The segment's free memory. Reads the header of each block. Raises Busy."""
        whole, largest = c_size_t(), c_size_t()
        with handle_of(self, Segment) as handle:
            refuse(library().lezgauri_free_memory(handle, byref(whole), byref(largest)))
        return FreeMemory(whole.value, largest.value)

    def grow(self, extra: int) -> int:
        """Adds `extra` bytes of free memory at the end, and returns the new size of the image in bytes.

        Raises BadSize if `extra` isn't a multiple of 16, or the new size is above 2^30; NoHostRoom if the segment is in a buffer
        that is shorter; OutOfMemory; Busy; and BufferError while a memoryview of a vector or a string exists, since the segment may
        move. Then nothing changed."""
        more, length = operator.index(extra), c_size_t()
        if more < 0:
            raise BadSize(Status.BAD_SIZE)
        with handle_of(self, Segment).moving() as handle:
            refuse(library().lezgauri_grow(handle, min(more, _MOST), byref(length)))
        return length.value

    def shrink(self) -> int:
        """Cuts the free block at the end, and returns the new size of the image in bytes. The memory keeps its size. Raises Busy."""
        length = c_size_t()
        with handle_of(self, Segment) as handle:
            refuse(library().lezgauri_shrink(handle, byref(length)))
        return length.value

    def __enter__(self) -> "Segment":
        super().__enter__()
        return self

    def prepare(self, client: Buffer) -> "Client":
        """Verifies a client against the segment's types, and decodes it: the same as `Client(segment, client)`."""
        return Client(self, client)

    def save(self) -> bytearray:
        """A copy of the segment's image. Raises Busy."""
        image = bytearray(self.size)
        self.save_into(image)
        return image

    def save_into(self, buffer: WritableBuffer) -> int:
        """Copies the segment's image to the start of a buffer, such as a mapped file. Returns the image's length in bytes.

        Raises TooSmall if the buffer is shorter than the image, TypeError if it is read-only, and Busy. Then nothing is written.
        If a crash interrupts the copy to a file, the file is half written."""
        needed = c_size_t()
        with handle_of(self, Segment) as handle, View(buffer, "buffer", writable=True) as room:
            status = library().lezgauri_save(handle, room.address, room.size, byref(needed))
        if status == Status.TOO_SMALL:
            raise TooSmall(needed.value)
        refuse(status)
        return needed.value


class Client(Closeable):
    """A prepared client: verified against the types of an open segment, and decoded, once for many runs. It has a copy of the
    client's bytes. It runs on each open segment whose types agree with its own, and may outlive the segment that it was prepared
    for. `close()` or the end of a `with` block frees it.

    Raises Fault if the client is refused, OutOfMemory, and Busy."""

    def __init__(self, segment: Segment, client: Buffer) -> None:
        calls = library()
        address, fault = c_void_p(), CFault()
        with handle_of(segment, Segment) as handle, View(client, "client") as of:
            refuse(calls.lezgauri_prepare(handle, of.address, of.size, byref(address), byref(fault)), fault)
        self._handle = Handle("client", address.value or 0, calls.lezgauri_client_close)

    def __enter__(self) -> "Client":
        super().__enter__()
        return self

    def __call__(
        self, segment: Segment, input: Buffer = b"", *, output: Optional[WritableBuffer] = None, capacity: int = CAPACITY
    ) -> Result:
        """Runs the client on an open segment, in place. It takes no memory of the library, unless it is the first call on values or
        clients of this segment.

        input     the bytes that the client reads
        output    a writable buffer for what it prints
        capacity  the bytes of room for the output, if no buffer is given

        If the output has no room, the result's `ended` is Ended.OUTPUT_FULL. The client stopped there, and the segment has its
        changes up to there.

        Raises Fault with TYPE_MISMATCH if the segment's types and the client's differ, for example after another client added
        types; BadArgument if the output overlaps the input; and Busy. Then nothing ran."""
        with handle_of(segment, Segment) as handle, handle_of(self, Client) as prepared:
            status, length, report, room = _run(library().lezgauri_run_client, (handle, prepared), input, output, capacity)
        return _result(length, report, room)


def _run(
    call: Callable[..., int], first: Tuple[int, ...], input: Buffer, output: Optional[WritableBuffer], capacity: int
) -> Tuple[int, int, CReport, _Room]:
    """Makes a call that runs one client. Returns its status, the output's length, the report and the room."""
    length, report, fault = c_size_t(), CReport(), CFault()
    with View(input, "input") as given, _Room(output, capacity) as room:
        status = call(*first, given.address, given.size, room.address, room.size, byref(length), byref(report), byref(fault))
    refuse(status, fault)
    return status, length.value, report, room


def _result(length: int, report: CReport, room: _Room) -> Result:
    return Result(room.printed(length), report.steps, Ended(report.ended), report.read)


def read(image: Buffer) -> Segment:
    """Opens an image only for reading, where it is: in bytes, in a file that is mapped read-only, or in any other buffer. It is checked
    there, and nothing is copied. Any number of programs and threads may read the same image at the same time, if nobody writes it until
    all have closed it. In one program, each thread uses a segment of its own: `segment.reader()` makes another without a check.

    Calls that change the segment, and runs, raise ReadOnly. Until the segment is closed, the buffer can't be closed or resized.

    Raises Fault if the image isn't sound, and OutOfMemory."""
    return Segment._read(image)


def check(image: Buffer) -> None:
    """Checks an image. Returns if it is sound, and raises its first fault as Fault if not; OutOfMemory if there is no memory. An
    image has 736 to 2^30 bytes, a multiple of 16."""
    fault = CFault()
    with View(image, "image") as of:
        refuse(library().lezgauri_check(of.address, of.size, byref(fault)), fault)


def verify(image: Buffer, client: Buffer) -> int:
    """Checks an image, and verifies a client against its types. Returns the bound: the most steps that a run of the client takes.

    Raises Fault if the image or the client is refused: its `client` is None for a fault of the image and 0 for one of the client."""
    bound, fault = c_uint64(), CFault()
    with View(image, "image") as of, View(client, "client") as code:
        refuse(library().lezgauri_verify(of.address, of.size, code.address, code.size, byref(bound), byref(fault)), fault)
    return bound.value


def run(
    image: Buffer,
    clients: Iterable[Buffer],
    input: Buffer = b"",
    *,
    output: Optional[WritableBuffer] = None,
    capacity: int = CAPACITY,
    saved: Optional[WritableBuffer] = None,
) -> Runs:
    """Checks an image, verifies clients, and runs them in order on a copy of the image. Each client is verified against the types
    that include those of the clients before it, and continues reading the input where the one before stopped.

    image     the image, which stays unchanged
    clients   the clients' bytes
    input     the bytes that the clients read
    output    a writable buffer for what they print
    capacity  the bytes of room for the output, if no buffer is given
    saved     a writable buffer for the saved image, with at least as many bytes as the image

    If the output has no room, the last report's `ended` is Ended.OUTPUT_FULL: no further client ran, and the saved image is the one
    after the client that stopped.

    Raises Fault if the image or a client is refused, TooSmall if `saved` is shorter than the image, and BadArgument if `output` or
    `saved` overlaps other memory of the call. Then nothing ran."""
    with contextlib.ExitStack() as held:
        of = held.enter_context(View(image, "image"))
        codes = [held.enter_context(View(client, f"client {i}")) for i, client in enumerate(clients)]
        given = held.enter_context(View(input, "input"))
        room = held.enter_context(_Room(output, capacity))
        target = bytearray(of.size) if saved is None else saved
        kept = held.enter_context(View(target, "saved", writable=True))
        # the library can't test this length
        if kept.size < of.size:
            raise TooSmall(of.size)
        listed = (CBytes * len(codes))(*(CBytes(code.address, code.size) for code in codes))
        reports = (CReport * len(codes))()
        length, fault = c_size_t(), CFault()
        status = library().lezgauri_run(
            of.address, of.size, listed, len(codes), given.address, given.size, room.address, room.size, byref(length),
            kept.address, reports, byref(fault)
        )
        refuse(status, fault)
        size = of.size
    ran = []
    for report in reports:
        ran.append(Report(report.steps, Ended(report.ended), report.read))
        if report.ended != Ended.DONE:
            break
    after = target if saved is None else memoryview(saved).cast("B")[:size]
    return Runs(room.printed(length.value), after, tuple(ran))


def run_on(
    segment: Segment, client: Buffer, input: Buffer = b"", *, output: Optional[WritableBuffer] = None, capacity: int = CAPACITY
) -> Result:
    """Verifies a client and runs it on an open segment, in place. Like `segment.prepare(client)(segment, input)`: the arguments and
    the result are those of a prepared client.

    Raises Fault if the client is refused, OutOfMemory, BadArgument if the output overlaps other memory of the call, and Busy. Then
    nothing ran. If a crash interrupts the run, the segment is half changed: save it before, or use `run_whole`."""
    with handle_of(segment, Segment) as handle, View(client, "client") as code:
        status, length, report, room = _run(library().lezgauri_run_on, (handle, code.address, code.size), input, output, capacity)
    return _result(length, report, room)


def run_whole(
    segment: Segment, client: Buffer, input: Buffer = b"", *, output: Optional[WritableBuffer] = None, capacity: int = CAPACITY
) -> Result:
    """Like run_on, but all or nothing: the client runs to its end on a copy of the image, and the segment becomes the saved image
    only if the output has room for all that the client prints. The arguments are those of run_on.

    Raises OutputFull if the output has no room: then the segment is unchanged, and the call with `capacity=error.needed` succeeds,
    unless the segment was changed meanwhile or there is no memory. A buffer that was given as `output` then has unspecified bytes.
    Raises the exceptions of run_on too."""
    with handle_of(segment, Segment) as handle, View(client, "client") as code:
        status, length, report, room = _run(library().lezgauri_run_whole, (handle, code.address, code.size), input, output, capacity)
    if status == Status.OUTPUT_FULL:
        raise OutputFull(length)
    return _result(length, report, room)


def assemble(text: Union[str, Buffer]) -> bytes:
    """Assembles the text of a client (docs/FORMATS.md, "Assembler text"), and returns the client's bytes.

    Raises Fault with BAD_LINE if the text isn't a client's: its `position` is the line, from 1. Raises OutOfMemory."""
    return _converted(library().lezgauri_assemble, text.encode() if isinstance(text, str) else text, "text")


def canonical_text(client: Buffer) -> str:
    """The text of a client, without comments and with one space between words. `assemble` returns the same client for it.

    Raises Fault with BAD_CODE if the bytes aren't a client's, and OutOfMemory."""
    return _converted(library().lezgauri_print, client, "client").decode("ascii")


def _converted(call: Callable[..., int], data: Buffer, name: str) -> bytes:
    """What a call makes of a client's text or bytes. It is called again if there was too little room."""
    needed, fault = c_size_t(), CFault()
    with View(data, name) as of:
        made = bytearray(of.size)
        while True:
            with View(made, "room", writable=True) as room:
                status = call(of.address, of.size, room.address, room.size, byref(needed), byref(fault))
            if status != Status.TOO_SMALL:
                break
            made = bytearray(needed.value)
    refuse(status, fault)
    return bytes(made[: needed.value])


def version() -> str:
    """The version of the C library."""
    text: bytes = library().lezgauri_version()
    return text.decode("ascii")
