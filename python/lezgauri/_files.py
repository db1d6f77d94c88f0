"""Files that are mapped into memory."""
import mmap
import os
from types import TracebackType
from typing import BinaryIO, Optional, Type, Union


class MappedFile(mmap.mmap):
    """A file that is mapped into memory: a buffer of all its bytes, which other programs that map the file share. It is made by
    open_file, and is an `mmap`: it has `flush()`, `close()`, `len()` and slices, and `memoryview(file)` is a view of its bytes.
    It is a context manager. Closing it twice is safe; use after that raises ValueError. While a memoryview of it exists, `close()`
    raises BufferError and the file stays open."""

    _file: BinaryIO

    def close(self) -> None:
        """Unmaps the file, and releases its lock if it has one. The system writes changed bytes to the file some time later,
        unless `flush()` did it before."""
        super().close()
        self._file.close()

    def __exit__(self, kind: Optional[Type[BaseException]], error: Optional[BaseException], trace: Optional[TracebackType]) -> None:
        self.close()


def open_file(path: "Union[str, os.PathLike[str]]", *, writable: bool = True, lock: bool = False, wait: bool = True) -> MappedFile:
    """Maps a file into memory. It must exist and have at least 1 byte.

    writable  whether its bytes may be changed. A change goes to the file. If not, calls that write refuse the buffer.
    lock      locks the file by `flock` until it is closed: for this program alone if it is writable, else for all readers. Only
              programs that lock the file too are kept out; segtool isn't.
    wait      whether to wait while another program has locked the file

    Raises OSError if the file can't be opened or mapped, BlockingIOError if it is locked and `wait` is false, and ValueError if it
    is empty.

    If a program shortens the file while it is mapped, access to the missing bytes ends this process with the signal SIGBUS. Map only
    files that no such program can write, or open those with `Segment(path.read_bytes())`.
    If a program replaces the file by renaming another one, as segtool does, the old file stays mapped.
    """
    file = open(path, "r+b" if writable else "rb", buffering=0)
    try:
        if lock:
            import fcntl

            how = fcntl.LOCK_EX if writable else fcntl.LOCK_SH
            fcntl.flock(file, how if wait else how | fcntl.LOCK_NB)
        mapped = MappedFile(file.fileno(), 0, access=mmap.ACCESS_WRITE if writable else mmap.ACCESS_READ)
    except BaseException:
        file.close()
        raise
    mapped._file = file
    return mapped
