"""The library's memory for segments and clients, and who uses it."""
import contextlib
import ctypes
import threading
import warnings
from types import TracebackType
from typing import Any, Callable, Iterator, List, Optional, Set, Type

from ._errors import Busy, Closed


class _Export:
    """Tells a handle that a memoryview of its bytes exists, until the memoryview is released."""

    __slots__ = ("_handle",)

    def __init__(self, handle: "Handle") -> None:
        self._handle = handle
        handle.exports.add(id(self))

    def __del__(self) -> None:
        self._handle.exports.discard(id(self))
        self._handle.free_if_unused()


class Handle:
    """Memory of the library for a segment or a client. It is freed once: after it was closed, when no call uses it and no memoryview of
    its bytes exists. A `with` block is one use."""

    def __init__(self, what: str, address: int, free: Callable[[int], None]) -> None:
        self._what = what
        self._address = address
        self._free = free
        self._to_free: List[int] = [address]
        self._uses = 0
        self._readers = 0
        self._is_moving = False
        self.exports: Set[int] = set()
        self.closed = False
        self._lock = threading.Lock()

    def _begin(self) -> int:
        if self.closed:
            raise Closed(f"the {self._what} is closed")
        self._uses += 1
        return self._address

    def __enter__(self) -> int:
        with self._lock:
            return self._begin()

    def __exit__(self, *error: object) -> None:
        with self._lock:
            self._uses -= 1
        self.free_if_unused()

    @contextlib.contextmanager
    def reading(self) -> Iterator[int]:
        """A use that reads bytes of the segment by their address, so that they may not move."""
        with self._lock:
            if self._is_moving:
                raise Busy(f"another call moves the {self._what}")
            address = self._begin()
            self._readers += 1
        try:
            yield address
        finally:
            with self._lock:
                self._readers -= 1
            self.__exit__()

    @contextlib.contextmanager
    def moving(self) -> Iterator[int]:
        """A use that may move the bytes of the segment."""
        with self._lock:
            if self.exports and not self.closed:
                raise BufferError(f"a memoryview of the {self._what}'s bytes exists")
            if self._readers or self._is_moving:
                raise Busy(f"another call reads the {self._what}")
            address = self._begin()
            self._is_moving = True
        try:
            yield address
        finally:
            with self._lock:
                self._is_moving = False
            self.__exit__()

    def exported(self, address: int, size: int) -> memoryview:
        """A read-only view of bytes of the segment, inside a `with` block of `reading`. The memory is kept until the view is released."""
        held = (ctypes.c_char * size).from_address(address)
        held.export = _Export(self)  # type: ignore[attr-defined]
        return memoryview(held).cast("B").toreadonly()

    def close(self) -> None:
        with self._lock:
            self.closed = True
        self.free_if_unused()

    def free_if_unused(self) -> None:
        # A memoryview may end anywhere, also where this thread has the lock. So this takes no lock, and `pop` lets one call free.
        if self.closed and not self._uses and not self.exports:
            with contextlib.suppress(IndexError):
                self._free(self._to_free.pop())


class Closeable:
    """What a segment and a client have in common: they are closed, also by the end of a `with` block."""

    _handle: Optional[Handle] = None

    def close(self) -> None:
        """Frees the memory. Closing twice is safe. If a call of another thread uses the object, or a memoryview of its bytes exists, the
        memory is freed after that."""
        if self._handle is not None:
            self._handle.close()

    @property
    def closed(self) -> bool:
        """Whether it was closed. Then each call with it raises Closed."""
        return self._handle is None or self._handle.closed

    def __enter__(self) -> Any:
        if self.closed:
            raise Closed(f"the {type(self).__name__.lower()} is closed")
        return self

    def __exit__(self, kind: Optional[Type[BaseException]], error: Optional[BaseException], trace: Optional[TracebackType]) -> None:
        self.close()

    def __del__(self) -> None:
        if not self.closed:
            warnings.warn(f"unclosed {self!r}", ResourceWarning, source=self)
            self.close()


def handle_of(of: Closeable, kind: Type[Closeable]) -> Handle:
    """The memory of a segment or a client, for a `with` block. The library can't tell them apart."""
    if not isinstance(of, kind):
        raise TypeError(f"a {kind.__name__} is required, not {type(of).__name__!r}")
    if of._handle is None:
        raise Closed(f"the {kind.__name__.lower()} wasn't made")
    return of._handle
