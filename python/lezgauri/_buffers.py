"""The memory of an object with a buffer, while a call uses it."""
import ctypes
import mmap
from ctypes import POINTER, c_char_p, c_int, c_ssize_t, c_void_p, py_object
from types import TracebackType
from typing import Optional, Type, Union

Buffer = Union[bytes, bytearray, memoryview, mmap.mmap]
WritableBuffer = Union[bytearray, memoryview, mmap.mmap]


class _PyBuffer(ctypes.Structure):
    """Py_buffer of Python's C API"""

    _fields_ = [
        ("buf", c_void_p),
        ("obj", c_void_p),
        ("len", c_ssize_t),
        ("itemsize", c_ssize_t),
        ("readonly", c_int),
        ("ndim", c_int),
        ("format", c_char_p),
        ("shape", POINTER(c_ssize_t)),
        ("strides", POINTER(c_ssize_t)),
        ("suboffsets", POINTER(c_ssize_t)),
        ("internal", c_void_p),
    ]


# ctypes can take the address of a writable buffer, but not of a read-only one without a copy. Python's C API can.
_get_buffer = ctypes.PYFUNCTYPE(c_int, py_object, POINTER(_PyBuffer), c_int)(("PyObject_GetBuffer", ctypes.pythonapi))
_release_buffer = ctypes.PYFUNCTYPE(None, POINTER(_PyBuffer))(("PyBuffer_Release", ctypes.pythonapi))
_SIMPLE = 0
_WRITABLE = 1

_nothing = ctypes.create_string_buffer(1)


class View:
    """A buffer's address and its size in bytes, inside a `with` block. Until its end the buffer can't be resized or unmapped.

    Raises TypeError if the object has no buffer, or if `writable` is given and the buffer is read-only, and BufferError if its
    bytes aren't contiguous."""

    __slots__ = ("_held", "address", "size")

    def __init__(self, data: object, name: str, writable: bool = False) -> None:
        held = _PyBuffer()
        try:
            _get_buffer(data, held, _WRITABLE if writable else _SIMPLE)
        except BufferError:
            if writable and memoryview(data).readonly:  # type: ignore[arg-type]
                raise TypeError(f"{name}: the call writes this buffer, but it is read-only") from None
            raise
        except TypeError as problem:
            raise TypeError(f"{name}: {problem}") from None
        self._held = held
        # the library accepts no null pointer in a list of clients
        self.address: int = held.buf or ctypes.addressof(_nothing)
        self.size: int = held.len

    def __enter__(self) -> "View":
        return self

    def __exit__(self, kind: Optional[Type[BaseException]], error: Optional[BaseException], trace: Optional[TracebackType]) -> None:
        _release_buffer(self._held)
