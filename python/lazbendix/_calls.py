"""The exports of the library as ctypes calls them: lazbendix.h in Python, and nothing else."""
import ctypes
import os
import struct
from ctypes import (
    POINTER,
    byref,
    c_char,
    c_char_p,
    c_int32,
    c_size_t,
    c_uint8,
    c_uint32,
    c_uint64,
    c_void_p,
)
from typing import Any

HERE = os.path.dirname(os.path.abspath(__file__))
PLACES = [
    os.path.join(HERE, "liblazbendix.so"),
    os.path.join(HERE, "..", "..", "library", "out", "liblazbendix.so"),
    os.path.join(HERE, "..", "..", "lib", "liblazbendix.so"),  # of an unpacked archive
]


class Handle(ctypes.Structure):
    _fields_ = [("mark", c_uint64), ("at", c_void_p)]


class ToldFault(ctypes.Structure):
    _fields_ = [("count", c_uint64), ("limit", c_uint64)] + [
        (name, c_uint32) for name in ("kind", "counted", "part", "outer", "inner", "zero")
    ]


class ToldEntry(ctypes.Structure):
    _fields_ = [("moment", c_uint64), ("deadline", c_uint64)] + [
        (name, c_uint32)
        for name in (
            "kind",
            "run",
            "command",
            "device",
            "place",
            "answer",
            "value",
            "drove",
            "cause",
            "lender",
        )
    ]


class ToldMade(ctypes.Structure):
    _fields_ = [("entries", ToldEntry * 3), ("count", c_uint64)]


class ToldTurn(ctypes.Structure):
    _fields_ = [("ticket", c_uint64), ("made", ToldMade), ("end", ToldEntry)] + [
        (name, c_uint32)
        for name in ("kind", "why", "device", "run", "task", "value", "stood", "zero")
    ]


class ToldLeft(ctypes.Structure):
    _fields_ = [("kind", c_uint32), ("number", c_uint32)]


class ToldItem(ctypes.Structure):
    _fields_ = [("kind", c_uint32), ("run", c_uint32), ("device", c_uint32), ("number", c_uint32)]


class ToldStand(ctypes.Structure):
    _fields_ = [("value", c_uint32), ("up", c_uint32)]


class ToldCounts(ctypes.Structure):
    _fields_ = [("devices", c_uint64), ("routines", c_uint64), ("windows", c_uint64)]


class ToldCall(ctypes.Structure):
    _fields_ = [("first", c_uint64), ("second", c_uint64)] + [
        (name, c_uint32) for name in ("kind", "sort", "device", "value")
    ]


BYTES = [c_char_p, c_size_t]
ROOM = [POINTER(c_uint8), c_size_t]

# The arguments after the handle, and the calls that have none.
HANDLELESS = ("log", "version")
EXPORTS: dict[str, list[Any]] = {
    "open": [*BYTES, c_uint32, c_uint32, POINTER(ToldFault)],
    "reopen": [*BYTES, *BYTES, c_uint32, c_uint32, POINTER(ToldFault), POINTER(c_uint64)],
    "log": [POINTER(ToldCall), *ROOM],
    "end": [],
    "window": [c_uint32],
    "take": [c_uint32, c_uint64, POINTER(ToldTurn)],
    "give": [c_uint32, c_uint64, c_uint32, c_uint32, c_uint64, POINTER(ToldMade)],
    "probe": [c_uint32, POINTER(ToldTurn)],
    "blocked": [c_uint32, POINTER(c_uint32)],
    "blocked_runs": [POINTER(c_uint64)],
    "out": [c_uint32, POINTER(ToldTurn)],
    "sealed": [POINTER(c_uint32)],
    "final_item": [c_uint32, POINTER(ToldItem)],
    "quiet": [POINTER(ToldLeft)],
    "close_window": [],
    "record": [c_uint32, POINTER(c_size_t)],
    "head": [POINTER(c_size_t)],
    "entry_text": [c_uint64, POINTER(c_size_t)],
    "read": [c_size_t, *ROOM, POINTER(c_size_t)],
    "entry_count": [POINTER(c_uint64)],
    "entry_at": [c_uint64, POINTER(ToldEntry), POINTER(c_uint32)],
    "begin_window": [*BYTES, c_uint32, POINTER(c_uint32)],
    "add_run": [c_uint32, c_uint32, POINTER(c_uint32)],
    "restand": [c_uint32, c_uint32],
    "lose": [c_uint32],
    "stand": [c_uint32, POINTER(ToldStand)],
    "counts": [POINTER(ToldCounts)],
    "run_count": [c_uint32, POINTER(c_uint64)],
    "device_name": [c_uint32, *ROOM, POINTER(c_size_t)],
    "routine_name": [c_uint32, *ROOM, POINTER(c_size_t)],
    "value_name": [c_uint32, c_uint32, *ROOM, POINTER(c_size_t)],
    "version": [],
}


def load() -> ctypes.CDLL:
    """The shared object that library/build.sh makes: that of LAZBENDIX_LIBRARY, or beside this
    file, or in library/out.
    """
    named = os.environ.get("LAZBENDIX_LIBRARY")
    found = next((place for place in ([named] if named else PLACES) if os.path.exists(place)), None)
    if found is None:
        raise ImportError(
            "liblazbendix.so is not there: library/build.sh makes it, and LAZBENDIX_LIBRARY may "
            "name it"
        )
    library = ctypes.CDLL(found)
    for name, arguments in EXPORTS.items():
        export = getattr(library, f"lazbendix_{name}", None)
        if export is None:
            raise ImportError(f"{found} has no lazbendix_{name}: it is older than this package")
        handle: list[Any] = [] if name in HANDLELESS else [POINTER(Handle)]
        export.argtypes, export.restype = [*handle, *arguments], c_int32
    return library


LIBRARY = load()

# A log calls this one for each of its calls: once more, without the checks of its arguments.
LOG = LIBRARY["lazbendix_log"]
LOG.restype = c_int32
CALL_NUMBERS = struct.Struct("=QQIIII")  # of a ToldCall
CallBytes = c_char * 24
CALL_SIZE = c_size_t(24)


def call_bytes(
    kind: int, sort: int, device: int, value: int, first: int, second: int
) -> bytes | None:
    """The bytes of the call with these numbers, None where no call has them. Raises `struct.error`
    where one does not fit into its bits."""
    numbers, room = CALL_NUMBERS.pack(first, second, kind, sort, device, value), CallBytes()
    status = LOG(byref(ToldCall.from_buffer_copy(numbers)), byref(room), CALL_SIZE)
    return None if status else room.raw
