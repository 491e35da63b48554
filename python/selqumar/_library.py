"""The shared library: its structs, its functions, and a call of one."""
from __future__ import annotations

import ctypes
import os
import re
from typing import Any, Optional

# The shared library whose functions these are, by the number that its header counts.
LIBRARY = "libselqumar.so.2"
_VERSION = 2
GIVEN, FAULT, SHORT, NO_MEMORY, NOT_OPEN = range(5)
# A buffer of a call has so many bytes, or as many as the last call needed.
ROOM = 4096


class Fault(ValueError):
    """Why there is no answer. Its text is the line that the program would report, in which a file that was handed in as bytes is named by its number, from 0.

    `code` is the fault's number, such as `J3`; `path` its place in the JSON of the file or the query, such as `/batches/0/count`; `file` the file's number and
    `filename` its path, where one was handed in; `batch` the number of its batch, or of the batch of a stream; `column` and `row` the place in a batch, from 0. Each is
    None where nothing is told of it."""

    _LINE = re.compile(r"arrowtab: (?:(?:(?P<file>\d+)|\w+): )?(?:batch (?P<batch>\d+): )?(?P<code>[A-Z]\d+)(?: (?P<what>.*))?", re.S)
    _PLACE = re.compile(r" (column|row)=(\d+)")

    def __init__(self, line: str, batch: Optional[int] = None) -> None:
        super().__init__(line)
        told = self._LINE.fullmatch(line)
        parts = told.groupdict() if told else {}
        # Behind a path, and in what a producer says of its stream, any text may stand.
        front, at, path = (parts.get("what") or "").partition(" at /")
        front, code, _ = front.partition(" code=")
        places = dict(self._PLACE.findall(front))
        self.code: Optional[str] = parts.get("code")
        self.path: Optional[str] = f"/{path}" if at and not code else None
        self.file: Optional[int] = _number(parts.get("file"))
        self.filename: Optional[str] = None
        self.batch: Optional[int] = _number(parts.get("batch")) if batch is None else batch
        self.column: Optional[int] = _number(places.get("column"))
        self.row: Optional[int] = _number(places.get("row"))

    def _name(self, filename: str) -> None:
        """Names the file by its path, in one line."""
        self.filename = filename
        shown = re.sub(r"[\x00-\x1f\\\x7f]", lambda it: f"\\u{ord(it[0]):04x}", filename)
        self.args = (str(self).replace(f"arrowtab: {self.file}: ", f"arrowtab: {shown}: ", 1),)


# Where users find it.
Fault.__module__ = "selqumar"


def _number(digits: Optional[str]) -> Optional[int]:
    return None if digits is None else int(digits)


class Bytes(ctypes.Structure):
    _fields_ = [("data", ctypes.c_void_p), ("length", ctypes.c_size_t)]


class Handle(ctypes.Structure):
    _fields_ = [("is_open", ctypes.c_bool), ("table", ctypes.c_void_p)]


class Node(ctypes.Structure):
    _fields_ = [("format", Bytes), ("name", Bytes), ("nullable", ctypes.c_uint32), ("dictionary", ctypes.c_uint32), ("children", ctypes.c_uint64),
                ("length", ctypes.c_uint64), ("null_count", ctypes.c_uint64), ("validity", Bytes), ("first", Bytes), ("second", Bytes)]


_LIST = [ctypes.c_void_p, ctypes.c_size_t]
_TEXT = [ctypes.c_void_p, ctypes.c_size_t]
_OUT = [ctypes.c_void_p, ctypes.c_size_t, ctypes.c_void_p]
_HANDLE = [ctypes.c_void_p]
_FUNCTIONS: dict[str, list[Any]] = {
    "selqumar_version": [],
    "selqumar_stats": _LIST + _OUT,
    "selqumar_export": _LIST + _OUT,
    "selqumar_query": _LIST + _TEXT + _OUT,
    "selqumar_validate": _LIST + _OUT,
    "selqumar_open": _LIST + _HANDLE + _OUT,
    "selqumar_new": _LIST + _HANDLE + _OUT,
    "selqumar_append": _HANDLE + [ctypes.c_uint32, ctypes.c_uint32] + _LIST + _OUT,
    "selqumar_add_column": _HANDLE + _LIST + _OUT,
    "selqumar_compact": _HANDLE + [ctypes.c_uint32] + _OUT,
    "selqumar_open_stats": _HANDLE + [ctypes.c_uint32] + _OUT,
    "selqumar_open_export": _HANDLE + _OUT,
    "selqumar_open_query": _HANDLE + _TEXT + _OUT,
    "selqumar_close": _HANDLE,
    "selqumar_arrow_new": [ctypes.c_void_p] + _HANDLE + _OUT,
    "selqumar_arrow_append": _HANDLE + [ctypes.c_uint32, ctypes.c_void_p, ctypes.c_void_p] + _OUT,
    "selqumar_arrow_take": [ctypes.c_void_p, ctypes.c_void_p],
    "selqumar_snapshot_open": _HANDLE + _HANDLE,
    "selqumar_snapshot_stats": _HANDLE + [ctypes.c_uint32] + _OUT,
    "selqumar_snapshot_export": _HANDLE + _OUT,
    "selqumar_snapshot_query": _HANDLE + _TEXT + _OUT,
    "selqumar_snapshot_close": _HANDLE,
    "selqumar_answer": _HANDLE + _TEXT + _HANDLE + _OUT,
    "selqumar_arrow_stream": _HANDLE + [ctypes.c_void_p],
    "selqumar_arrow_snapshot_stream": _HANDLE + [ctypes.c_void_p],
    "selqumar_arrow_room": [],
    "selqumar_arrow_end_capsule": [ctypes.c_void_p],
}
# What gives something else than a status.
_GIVES = {"selqumar_close": None, "selqumar_snapshot_close": None, "selqumar_arrow_end_capsule": None, "selqumar_arrow_room": ctypes.c_void_p,
          "selqumar_arrow_take": ctypes.c_bool}


def _loaded() -> ctypes.CDLL:
    """The library, with what each function takes."""
    here = os.path.dirname(os.path.realpath(__file__))
    above, last = os.path.split(os.path.dirname(here))
    places = [os.path.join(here, LIBRARY), os.path.join(above, "build", LIBRARY)]
    if last == "selqumar" and os.path.basename(above) == "share":  # As tools/install puts it.
        places.append(os.path.join(os.path.dirname(above), "lib", LIBRARY))
    named = os.environ.get("SELQUMAR_LIBRARY")
    place = named or next((it for it in places if os.path.exists(it)), None)
    if place is None:
        tried = " or ".join(os.path.dirname(it) for it in places)
        raise ImportError(f"selqumar: there is no {LIBRARY} in {tried}: `tools/library build` builds it, or the variable SELQUMAR_LIBRARY names one")
    try:
        library = ctypes.CDLL(place)
        for function, takes in _FUNCTIONS.items():
            getattr(library, function).argtypes = takes
            getattr(library, function).restype = _GIVES.get(function, ctypes.c_uint32)
        if library.selqumar_version() != _VERSION:
            raise OSError(f"its version is {library.selqumar_version()} and not {_VERSION}")
    except (OSError, AttributeError) as fault:
        raise ImportError(f"selqumar: {place} is no library of this version ({fault}): `tools/library build` builds one") from fault
    return library


_LIBRARY = _loaded()


# What lets go of a capsule's stream, and the name of such a capsule, as addresses. A capsule keeps the second, so that it lies in the library.
END_OF_CAPSULE = ctypes.cast(_LIBRARY.selqumar_arrow_end_capsule, ctypes.c_void_p)
NAME_OF_CAPSULE = ctypes.addressof(ctypes.c_char.in_dll(_LIBRARY, "selqumar_arrow_stream_name"))


def close(name: str, handle: Handle) -> None:
    getattr(_LIBRARY, name)(ctypes.byref(handle))


def new_stream() -> int:
    """Room for a stream, which lets go of nothing yet."""
    place = _LIBRARY.selqumar_arrow_room()
    if not place:
        raise _no_memory()
    return int(place)


def is_taken(stream: int, taken: Any) -> bool:
    """Moves a stream, of which only one of several threads gets hold. Whether it was there."""
    return bool(_LIBRARY.selqumar_arrow_take(stream, taken))


def _no_memory() -> MemoryError:
    return MemoryError("selqumar: a request for memory was refused")


class Rooms:
    """How long a buffer each function is given at first, and why nothing may be open."""

    def __init__(self) -> None:
        self.needed: dict[str, int] = {}
        self.closed = "selqumar: the table is closed"

    def text(self, name: str, *front: Any, least: int = ROOM) -> str:
        """The text that a function of the library gives. It is called again where the buffer was too short, which none is that changes a table."""
        room = max(least, self.needed.get(name, 0))
        needed = ctypes.c_size_t()
        while True:
            out = ctypes.create_string_buffer(room)
            status = getattr(_LIBRARY, name)(*front, out, room, ctypes.byref(needed))
            self._check(status)
            if status != SHORT:
                break
            room = needed.value
        self.needed[name] = needed.value
        # `ctypes.string_at` takes no more than 2^31 bytes.
        text = str(memoryview(out)[:needed.value], "utf-8")
        if status == FAULT:
            raise Fault(text.rstrip("\n"))
        return text

    def done(self, name: str, *words: Any) -> None:
        """Calls a function that gives no text."""
        self._check(getattr(_LIBRARY, name)(*words))

    def _check(self, status: int) -> None:
        if status == NO_MEMORY:
            raise _no_memory()
        if status == NOT_OPEN:
            raise ValueError(self.closed)
