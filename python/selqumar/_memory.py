"""Bytes of objects, where they lie."""
from __future__ import annotations

import ctypes
from collections.abc import Iterator
from contextlib import contextmanager
from typing import Any

from ._library import Bytes


class _Buffer(ctypes.Structure):
    """A `Py_buffer`."""
    _fields_ = [("buf", ctypes.c_void_p), ("obj", ctypes.py_object), ("len", ctypes.c_ssize_t), ("itemsize", ctypes.c_ssize_t), ("readonly", ctypes.c_int),
                ("ndim", ctypes.c_int), ("format", ctypes.c_char_p), ("shape", ctypes.c_void_p), ("strides", ctypes.c_void_p),
                ("suboffsets", ctypes.c_void_p), ("internal", ctypes.c_void_p)]


# Prototypes of the module's own: whatever others set on `ctypes.pythonapi` holds for the whole process.
_get_buffer = ctypes.PYFUNCTYPE(ctypes.c_int, ctypes.py_object, ctypes.c_void_p, ctypes.c_int)(("PyObject_GetBuffer", ctypes.pythonapi))
_release_buffer = ctypes.PYFUNCTYPE(None, ctypes.c_void_p)(("PyBuffer_Release", ctypes.pythonapi))


@contextmanager
def held(data: Any) -> Iterator[Bytes]:
    """The bytes of an object where they lie. Until the end of the `with` nobody resizes or closes it."""
    buffer = _Buffer()
    _get_buffer(data, ctypes.byref(buffer), 0)
    try:
        yield Bytes(buffer.buf or ctypes.addressof(buffer), buffer.len)
    finally:
        _release_buffer(ctypes.byref(buffer))
