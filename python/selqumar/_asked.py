"""What a table is asked, and a snapshot of it."""
from __future__ import annotations

import ctypes
import html
import os
import threading
import weakref
from typing import Any, Optional, TypeVar

from . import _files, _library, _values
from ._files import Query
from ._values import Stats, Value

# Prototypes of the module's own: whatever others set on `ctypes.pythonapi` holds for the whole process.
_new_capsule = ctypes.PYFUNCTYPE(ctypes.py_object, ctypes.c_void_p, ctypes.c_void_p, ctypes.c_void_p)(("PyCapsule_New", ctypes.pythonapi))

Self = TypeVar("Self", bound="Asked")


class Asked:
    """Rows that are asked until `close`, the end of a `with`, or the end of the last reference. Threads may share one: its calls take turns."""

    # What the library calls its functions.
    _STATS, _EXPORT, _QUERY, _STREAM, _CLOSE = "", "", "", "", ""

    def _begin(self) -> None:
        self._lock = threading.RLock()
        self._handle = _library.Handle()
        self._rooms = _library.Rooms()
        self._length = 0
        self._workers = 1
        # It is there before anything is open, so that whatever comes in between, what was opened is closed.
        self._finalizer = weakref.finalize(self, _library.close, self._CLOSE, self._handle)
        self._finalizer.atexit = False
        _all.add(self)

    def _closed_where_raised(self) -> _Closing:
        return _Closing(self._finalizer)

    def _leave_to_parent(self) -> None:
        """In a forked child: a thread that isn't here may have left it half changed, so that nothing but its parent has it."""
        if self._lock.acquire(blocking=False):
            self._lock.release()
            return
        self._lock = threading.RLock()
        self._finalizer.detach()
        self._handle = _library.Handle()
        self._rooms.closed = "selqumar: the table is closed in this process, which was forked while another thread was in a call of it"

    def __enter__(self: Self) -> Self:
        return self

    def __exit__(self, *_: object) -> None:
        self.close()

    def __repr__(self) -> str:
        kind = f"selqumar.{type(self).__name__}"
        with self._lock:
            if self.closed:
                return f"<{kind}, closed>"
            stats = self.stats()
        return f"<{kind} of {stats.rows} row{'' if stats.rows == 1 else 's'}: {', '.join(_shown(column.name) for column in stats.columns)}>"

    def _repr_html_(self) -> str:
        """The statistics of its columns, for a notebook."""
        with self._lock:
            return html.escape(repr(self)) if self.closed else self.stats()._repr_html_()

    @property
    def closed(self) -> bool:
        """Whether it is closed."""
        return not self._finalizer.alive

    def close(self) -> None:
        """Gives its memory back. What is called on it from then on is a `ValueError`."""
        with self._lock:
            self._finalizer()

    def stats_text(self) -> str:
        """What `arrowtab stats` prints of it, with as many workers as appended."""
        with self._lock:
            return self._text(self._STATS, self._workers)

    def export(self) -> str:
        """What `arrowtab export` prints of it: one file with all batches."""
        return self._text(self._EXPORT)

    def query_text(self, query: Query) -> str:
        """What `arrowtab query` prints of it, for a query as JSON text or as the value of one."""
        text = _files.query_bytes(query)
        return self._text(self._QUERY, text, len(text))

    def stats(self) -> Stats:
        """The same as `stats_text`, as values."""
        return _values.stats_of(self.stats_text())

    def query(self, query: Query) -> list[list[Value]]:
        """The same as `query_text`, as values: a list for each group, its keys before its aggregates."""
        return _values.groups_of(self.query_text(query))

    def __arrow_c_stream__(self, requested_schema: Optional[Any] = None) -> Any:
        """Its batches, as it stands, for `pyarrow.table(table)` and whatever else takes an Arrow stream. No row is copied; texts are dictionary-encoded. Another
        schema than its own it has not."""
        stream = _library.new_stream()
        capsule = _new_capsule(stream, _library.NAME_OF_CAPSULE, _library.END_OF_CAPSULE)
        with self._lock:
            self._rooms.done(self._STREAM, ctypes.byref(self._handle), stream)
        return capsule

    def _text(self, name: str, *middle: Any) -> str:
        with self._lock:
            return self._rooms.text(name, ctypes.byref(self._handle), *middle, least=_files.least(name, self._length))


def _shown(name: str) -> str:
    """A name in one line."""
    return "".join(it if it.isprintable() else ascii(it)[1:-1] for it in name)


class _Closing:
    """In a `with`, something in the making: where something is raised, it is closed."""

    def __init__(self, finalizer: weakref.finalize) -> None:
        self._finalizer = finalizer

    def __enter__(self) -> None:
        pass

    def __exit__(self, kind: Optional[type], *_: object) -> None:
        if kind is not None:
            self._finalizer()


# Tables and snapshots that somebody has.
_all: weakref.WeakSet[Asked] = weakref.WeakSet()


def _after_fork() -> None:
    for asked in list(_all):
        asked._leave_to_parent()


os.register_at_fork(after_in_child=_after_fork)
