"""The C library: where it is, its structs and its calls."""
import ctypes
import ctypes.util
import functools
import os
from ctypes import POINTER, c_char, c_char_p, c_int64, c_size_t, c_uint8, c_uint32, c_uint64, c_void_p
from typing import Optional

from ._errors import (Absent, AlreadyExists, BadAlloc, BadArgument, BadSize, Busy, Fault, LibraryError, NoHostRoom, NoValue,
                      NumbersUsedUp, OtherType, OutOfMemory, OutOfRange, ReadOnly, Status)

FILE = "liblezgauri.so"
VARIABLE = "LEZGAURI_LIBRARY"
NO_CLIENT = 2**64 - 1
MOST_TYPES = 32


class CFault(ctypes.Structure):
    """lezgauri_fault"""

    _fields_ = [("client", c_uint64), ("number", c_uint32), ("position", c_uint32), ("reason", c_uint32)]


class CBytes(ctypes.Structure):
    """lezgauri_bytes"""

    _fields_ = [("bytes", c_void_p), ("len", c_size_t)]


class CReport(ctypes.Structure):
    """lezgauri_report"""

    _fields_ = [("steps", c_uint64), ("read", c_uint64), ("ended", c_uint32)]


class CType(ctypes.Structure):
    """lezgauri_type"""

    _fields_ = [("kind", c_uint8), ("count", c_uint8), ("components", c_uint8 * 8), ("zeros", c_uint8 * 6)]


class CPlace(ctypes.Structure):
    """lezgauri_place"""

    _fields_ = [("at", c_uint32), ("type", c_uint32)]


class CEntry(ctypes.Structure):
    """lezgauri_entry"""

    _fields_ = [("key", c_int64), ("value", CPlace)]


class CPair(ctypes.Structure):
    """lezgauri_pair"""

    _fields_ = [("key", c_int64), ("number", c_int64)]


class CNamed(ctypes.Structure):
    """lezgauri_named"""

    _fields_ = [("name", c_char * 64), ("type", c_uint32), ("count", c_uint32)]


_BYTES = (c_void_p, c_size_t)
_CONVERSION = (c_uint32, (*_BYTES, *_BYTES, POINTER(c_size_t), POINTER(CFault)))
_TOLD = (POINTER(c_size_t), POINTER(CReport), POINTER(CFault))
_NAME = (c_void_p, c_char_p)
_UNIQUE = (c_uint32, (c_void_p, c_uint32, POINTER(CPlace)))
_AT = (c_void_p, CPlace)
_ON_PLACE = (c_uint32, _AT)
_TO_PLACE = (c_uint32, (*_AT, POINTER(CPlace)))
_TO_BYTES = (c_uint32, (*_AT, POINTER(CBytes)))
_OF_BYTES = (c_uint32, (*_AT, *_BYTES))
_TWO_PLACES = (c_uint32, (*_AT, CPlace))
_STEP = (c_uint32, (*_AT, CPlace, POINTER(CPlace)))
_INDEXED = (c_uint32, (*_AT, c_uint32, POINTER(CPlace)))
_KEYED = (c_uint32, (*_AT, c_int64, POINTER(CPlace)))
_NEXT_KEY = (c_uint32, (*_AT, POINTER(c_int64), POINTER(c_int64)))
_NEXT_ENTRY = (c_uint32, (*_AT, POINTER(c_int64), POINTER(c_int64), POINTER(CPlace)))

# The result and the arguments of each call of lezgauri.h.
CALLS = {
    "lezgauri_check": (c_uint32, (*_BYTES, POINTER(CFault))),
    "lezgauri_verify": (c_uint32, (*_BYTES, *_BYTES, POINTER(c_uint64), POINTER(CFault))),
    "lezgauri_run": (
        c_uint32,
        (*_BYTES, POINTER(CBytes), c_size_t, *_BYTES, *_BYTES, POINTER(c_size_t), c_void_p, POINTER(CReport), POINTER(CFault)),
    ),
    "lezgauri_open": (c_uint32, (*_BYTES, POINTER(c_void_p), POINTER(CFault))),
    "lezgauri_open_in": (c_uint32, (*_BYTES, c_size_t, POINTER(c_void_p), POINTER(CFault))),
    "lezgauri_create": (c_uint32, (c_size_t, c_uint32, c_uint32, POINTER(c_void_p))),
    "lezgauri_create_in": (c_uint32, (*_BYTES, c_size_t, c_uint32, c_uint32, POINTER(c_void_p))),
    "lezgauri_grow": (c_uint32, (c_void_p, c_size_t, POINTER(c_size_t))),
    "lezgauri_shrink": (c_uint32, (c_void_p, POINTER(c_size_t))),
    "lezgauri_size": (c_uint32, (c_void_p, POINTER(c_size_t))),
    "lezgauri_free_memory": (c_uint32, (c_void_p, POINTER(c_size_t), POINTER(c_size_t))),
    "lezgauri_image": (c_uint32, (c_void_p, POINTER(CBytes))),
    "lezgauri_run_on": (c_uint32, (c_void_p, *_BYTES, *_BYTES, *_BYTES, *_TOLD)),
    "lezgauri_run_whole": (c_uint32, (c_void_p, *_BYTES, *_BYTES, *_BYTES, *_TOLD)),
    "lezgauri_prepare": (c_uint32, (c_void_p, *_BYTES, POINTER(c_void_p), POINTER(CFault))),
    "lezgauri_run_client": (c_uint32, (c_void_p, c_void_p, *_BYTES, *_BYTES, *_TOLD)),
    "lezgauri_client_close": (None, (c_void_p,)),
    "lezgauri_save": (c_uint32, (c_void_p, *_BYTES, POINTER(c_size_t))),
    "lezgauri_close": (None, (c_void_p,)),
    "lezgauri_types": (c_uint32, (c_void_p, POINTER(CType), c_size_t, POINTER(c_size_t))),
    "lezgauri_read": (c_uint32, (*_BYTES, POINTER(c_void_p), POINTER(CFault))),
    "lezgauri_reader": (c_uint32, (c_void_p, POINTER(c_void_p))),
    "lezgauri_add_types": (c_uint32, (c_void_p, POINTER(CType), c_size_t, POINTER(CFault))),
    "lezgauri_upgrade": (c_uint32, (c_void_p,)),
    "lezgauri_find": (c_uint32, (*_NAME, c_uint32, POINTER(CPlace))),
    "lezgauri_find_item": (c_uint32, (*_NAME, c_uint32, c_uint32, POINTER(CPlace))),
    "lezgauri_named_object": (c_uint32, (*_NAME, POINTER(CNamed))),
    "lezgauri_next_name": (c_uint32, (*_NAME, POINTER(CNamed))),
    "lezgauri_find_unique": _UNIQUE,
    "lezgauri_load": (c_uint32, (*_AT, POINTER(c_int64))),
    "lezgauri_field": _INDEXED,
    "lezgauri_len": (c_uint32, (*_AT, POINTER(c_uint32))),
    "lezgauri_text": _TO_BYTES,
    "lezgauri_numbers": _TO_BYTES,
    "lezgauri_pairs": _TO_BYTES,
    "lezgauri_item": _INDEXED,
    "lezgauri_next_item": _STEP,
    "lezgauri_previous_item": _STEP,
    "lezgauri_get": _KEYED,
    "lezgauri_next_key": _NEXT_KEY,
    "lezgauri_previous_key": _NEXT_KEY,
    "lezgauri_next_entry": _NEXT_ENTRY,
    "lezgauri_previous_entry": _NEXT_ENTRY,
    "lezgauri_next_entries": (c_uint32, (*_AT, POINTER(c_int64), POINTER(CEntry), c_size_t, POINTER(c_size_t))),
    "lezgauri_content": _TO_PLACE,
    "lezgauri_construct": (c_uint32, (*_NAME, c_uint32, c_uint32, POINTER(CPlace))),
    "lezgauri_find_or_construct": (c_uint32, (*_NAME, c_uint32, POINTER(CPlace))),
    "lezgauri_destroy": (c_uint32, (*_NAME, c_uint32)),
    "lezgauri_construct_unique": _UNIQUE,
    "lezgauri_find_or_construct_unique": _UNIQUE,
    "lezgauri_destroy_unique": (c_uint32, (c_void_p, c_uint32)),
    "lezgauri_construct_anonymous": _UNIQUE,
    "lezgauri_destroy_anonymous": _ON_PLACE,
    "lezgauri_store": (c_uint32, (*_AT, c_int64)),
    "lezgauri_assign": _OF_BYTES,
    "lezgauri_append": _OF_BYTES,
    "lezgauri_push_back": _TO_PLACE,
    "lezgauri_push_numbers": (c_uint32, (*_AT, POINTER(c_int64), c_size_t, POINTER(c_size_t))),
    "lezgauri_put_numbers": (c_uint32, (*_AT, POINTER(CPair), c_size_t, POINTER(c_size_t))),
    "lezgauri_push_front": _TO_PLACE,
    "lezgauri_pop_back": _ON_PLACE,
    "lezgauri_pop_front": _ON_PLACE,
    "lezgauri_put": _KEYED,
    "lezgauri_remove": (c_uint32, (*_AT, c_int64)),
    "lezgauri_put_content": _TO_PLACE,
    "lezgauri_clear": _ON_PLACE,
    "lezgauri_shrink_to_fit": _ON_PLACE,
    "lezgauri_freeze": _TWO_PLACES,
    "lezgauri_share": _TWO_PLACES,
    "lezgauri_assemble": _CONVERSION,
    "lezgauri_print": _CONVERSION,
    "lezgauri_status_text": (c_char_p, (c_uint32,)),
    "lezgauri_reason_text": (c_char_p, (c_uint32,)),
    "lezgauri_version": (c_char_p, ()),
}


_KINDS = {Status.MEMORY: OutOfMemory, Status.BAD_SIZE: BadSize, Status.NO_HOST_ROOM: NoHostRoom}
_REFUSED = {
    kind.number: kind
    for kind in (ReadOnly, AlreadyExists, BadAlloc, Absent, OtherType, OutOfRange, NoValue, NumbersUsedUp)
}


def find() -> str:
    """The library's path: from the environment variable LEZGAURI_LIBRARY, else in this package's folder, else where the system's
    loader finds it. Raises LibraryError if there is none."""
    given = os.environ.get(VARIABLE)
    if given:
        return os.path.abspath(given)
    folder = os.path.dirname(os.path.abspath(__file__))
    beside = os.path.join(folder, FILE)
    if os.path.exists(beside):
        return beside
    found = ctypes.util.find_library("lezgauri")
    if found is None:
        raise LibraryError(
            f"the library {FILE} wasn't found: set the environment variable {VARIABLE} to its path, or put it into {folder} or "
            "into a folder of the system's loader"
        )
    return found


@functools.lru_cache(maxsize=None)
def library() -> ctypes.CDLL:
    """The loaded library. Raises LibraryError if it isn't found, can't be loaded, or lacks a call."""
    path = find()
    try:
        loaded = ctypes.CDLL(path)
        for name, (result, arguments) in CALLS.items():
            call = getattr(loaded, name)
            call.restype = result
            call.argtypes = arguments
    except (OSError, AttributeError) as problem:
        raise LibraryError(f"the library {path} can't be used: {problem}") from problem
    return loaded


def status_text(status: int) -> str:
    """A status in words."""
    text: bytes = library().lezgauri_status_text(status)
    return text.decode("ascii")


def reason_text(reason: int) -> str:
    """The reason of REJECTED in words."""
    text: bytes = library().lezgauri_reason_text(reason)
    return text.decode("ascii")


def refuse(status: int, fault: Optional[CFault] = None, about: object = None) -> None:
    """Raises the exception for a status. Does nothing for OK and OUTPUT_FULL, which the calls treat themselves. `about` is the name, the
    index, the key or the type that the call was given."""
    if status in (Status.OK, Status.OUTPUT_FULL):
        return
    if status == Status.BUSY:
        raise Busy("another call uses the segment or the client")
    if status == Status.BAD_ARGUMENT:
        raise BadArgument("memory that the call writes overlaps other memory of the call")
    refused = _REFUSED.get(status)
    if refused is not None:
        raise refused(about)
    kind = _KINDS.get(status, Fault)
    if fault is None:
        raise kind(status)
    client = None if fault.client == NO_CLIENT else fault.client
    raise kind(status, client, fault.position, fault.reason)
