"""Streams, arrays and schemas of other libraries, by Arrow's C data and stream interfaces."""
from __future__ import annotations

import ctypes
import errno
from collections.abc import Iterator
from typing import Any, Optional

from ._library import Fault, is_taken

_RELEASE = ctypes.CFUNCTYPE(None, ctypes.c_void_p)
_GET = ctypes.CFUNCTYPE(ctypes.c_int, ctypes.c_void_p, ctypes.c_void_p)
_TEXT = ctypes.CFUNCTYPE(ctypes.c_char_p, ctypes.c_void_p)
_pointer_of_capsule = ctypes.PYFUNCTYPE(ctypes.c_void_p, ctypes.py_object, ctypes.c_char_p)(("PyCapsule_GetPointer", ctypes.pythonapi))


class _Part(ctypes.Structure):
    """What has a `release`: it is called once, at the latest when nobody has the part any more."""
    release: Optional[int]

    def let_go(self) -> None:
        release = self.release
        if release:
            _RELEASE(release)(ctypes.addressof(self))
            self.release = None

    def __del__(self) -> None:
        self.let_go()


class _Schema(_Part):
    _fields_ = [("format", ctypes.c_void_p), ("name", ctypes.c_void_p), ("metadata", ctypes.c_void_p), ("flags", ctypes.c_int64), ("n_children", ctypes.c_int64),
                ("children", ctypes.c_void_p), ("dictionary", ctypes.c_void_p), ("release", ctypes.c_void_p), ("private_data", ctypes.c_void_p)]


class _Array(_Part):
    _fields_ = [("length", ctypes.c_int64), ("null_count", ctypes.c_int64), ("offset", ctypes.c_int64), ("n_buffers", ctypes.c_int64), ("n_children", ctypes.c_int64),
                ("buffers", ctypes.c_void_p), ("children", ctypes.c_void_p), ("dictionary", ctypes.c_void_p), ("release", ctypes.c_void_p),
                ("private_data", ctypes.c_void_p)]


class _Stream(_Part):
    _fields_ = [("get_schema", ctypes.c_void_p), ("get_next", ctypes.c_void_p), ("get_last_error", ctypes.c_void_p), ("release", ctypes.c_void_p),
                ("private_data", ctypes.c_void_p)]


def pointer_of(capsule: Any, name: bytes) -> int:
    """What a capsule of this name holds."""
    try:
        place = _pointer_of_capsule(capsule, name)
    except ValueError:
        raise TypeError(f"selqumar: that is no capsule of the name {name.decode()}, but a {type(capsule).__name__}") from None
    return int(place)


class Batches:
    """A stream that was taken: its schema, and its batches as they come. What it gives is let go of at the end of a `with`, whatever comes of it."""

    def __init__(self, data: Any) -> None:
        self.read = 0
        self._stream, self.schema = _Stream(), _Schema()
        # The capsule has to live until the stream is taken out of it.
        capsule = data.__arrow_c_stream__()
        if not is_taken(pointer_of(capsule, b"arrow_array_stream"), ctypes.byref(self._stream)):
            raise Fault("arrowtab: E7 Released")
        self._get(self._stream.get_schema, self.schema)

    def __enter__(self) -> Batches:
        return self

    def __exit__(self, *_: object) -> None:
        self.schema.let_go()
        self._stream.let_go()

    def __iter__(self) -> Iterator[_Array]:
        while True:
            batch = _Array()
            self._get(self._stream.get_next, batch)
            if not batch.release:
                return
            yield batch
            batch.let_go()
            self.read += 1

    def _get(self, function: int, part: _Part) -> None:
        """Has the stream put a part there."""
        place = ctypes.addressof(self._stream)
        code = _GET(function)(place, ctypes.addressof(part))
        if code == 0:
            return
        said = _TEXT(self._stream.get_last_error)(place) if self._stream.get_last_error else None
        text = " ".join((said or b"").decode(errors="replace").split())
        if code == errno.ENOMEM:
            raise MemoryError(f"selqumar: batch {self.read} of the stream: {text or 'a request for memory was refused'}")
        raise Fault(f"arrowtab: E6 Stream code={code}" + (f": {text}" if text else ""), self.read)
