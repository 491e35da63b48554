"""A table that stays open between calls, and a snapshot of one."""
from __future__ import annotations

import ctypes
from collections.abc import Callable, Mapping
from operator import index
from typing import Any, Optional, Union

from . import _arrow, _columns, _files, _library
from ._asked import Asked
from ._columns import Field, Schema
from ._files import Files, Query

_MOST_WORKERS = 64
# As many rows as a batch may have.
_MOST_ROWS = 2 ** 31 - 1

Progress = Callable[[int], object]


class Table(Asked):
    """A table that batches are appended to while it is asked, until `close`, the end of a `with`, or the end of the last reference. Threads may share one: its
    calls take turns, and a `snapshot` is for a thread of its own. A call that raises leaves it as it was. In a forked child it is closed where another thread was in
    a call of it; its parent goes on.

    `Table(schema)` is an empty one, of names with types (see `Field`), or of the schema of whatever has `__arrow_c_schema__`. `Table.of_files(files)` has the
    batches of files, and `Table.of(data)` those of an Arrow stream."""

    _STATS, _EXPORT, _QUERY = "selqumar_open_stats", "selqumar_open_export", "selqumar_open_query"
    _STREAM, _CLOSE = "selqumar_arrow_stream", "selqumar_close"

    def __init__(self, schema: Union[Schema, Any]) -> None:
        self._begin()
        with self._closed_where_raised():
            if hasattr(schema, "__arrow_c_schema__"):
                capsule = schema.__arrow_c_schema__()
                self._call("selqumar_arrow_new", _arrow.pointer_of(capsule, b"arrow_schema"), ctypes.byref(self._handle))
            elif isinstance(schema, Mapping):
                parts = _columns.parts_of_fields(_columns.fields_of(schema))
                with _columns.nodes(parts) as nodes:
                    self._call("selqumar_new", nodes, len(parts), ctypes.byref(self._handle))
            else:
                raise TypeError(f"selqumar: a schema is a dict of names and types, or has __arrow_c_schema__, and isn't {type(schema).__name__}")

    @classmethod
    def of_files(cls, files: Files) -> Table:
        """A table of Arrow integration files (JSON): it has the first one's schema, and the batches of all, of worker 0."""
        listed = _files.listed(files)
        table = cls.__new__(cls)
        table._begin()
        with table._closed_where_raised(), _files.entries(listed) as (entries, table._length):
            table._call("selqumar_open", entries, len(listed), ctypes.byref(table._handle))
        return table

    @classmethod
    def of(cls, data: Any, worker: int = 0, progress: Optional[Progress] = None) -> Table:
        """A table of the schema and the batches of whatever has `__arrow_c_stream__`. `worker` and `progress` are as in `append`."""
        if not hasattr(data, "__arrow_c_stream__"):
            raise TypeError(f"selqumar: a table is made of what has __arrow_c_stream__, and {type(data).__name__} hasn't: Table(schema), and append")
        table = cls.__new__(cls)
        table._begin()
        with table._closed_where_raised(), _arrow.Batches(data) as batches:
            table._call("selqumar_arrow_new", ctypes.byref(batches.schema), ctypes.byref(table._handle))
            table._append_batches(batches, worker, progress)
        return table

    def _begin(self) -> None:
        super()._begin()
        self._fields: Optional[list[tuple[str, str]]] = None

    # ---- what changes it

    def append(self, data: Any, worker: int = 0, progress: Optional[Progress] = None) -> int:
        """Adds rows, of a worker from 0 to 63, and gives how many.

        Data are a dict with a list or an array for each column (of numpy, masked ones too, or of pandas; None is a null), a frame of pandas, or whatever has
        `__arrow_c_stream__` or `__arrow_c_array__`. Of a batch all comes in or nothing. The batches of a stream come in one by one, and others ask meanwhile: those
        before the one that a `Fault` names stay, as they do where Ctrl-C ends it. `progress` is called behind each with the number of rows so far."""
        worker = _worker(worker)
        if isinstance(data, Mapping) or _is_frame(data):
            rows = self._append_columns(data, worker)
        elif hasattr(data, "__arrow_c_stream__"):
            with _arrow.Batches(data) as batches:
                return self._append_batches(batches, worker, progress)
        elif hasattr(data, "__arrow_c_array__"):
            rows = self._append_array(data, worker)
        else:
            raise TypeError(f"selqumar: rows are a dict of columns, a frame, or have __arrow_c_stream__ or __arrow_c_array__, and aren't {type(data).__name__}")
        if progress is not None:
            progress(rows)
        return rows

    def _append_columns(self, data: Any, worker: int) -> int:
        with self._lock:
            names = list(data) if isinstance(data, Mapping) else list(data.columns)
            fields = self._named_fields()
            if sorted(map(str, names)) != sorted(name for name, _ in fields):
                raise ValueError(f"selqumar: the table has the columns {', '.join(name for name, _ in fields)}, and the rows {', '.join(map(str, names))}")
            parts = _columns.parts_of_columns((name, kind, data[name]) for name, kind in fields)
            rows = parts[0].length if parts else 0
            if rows > _MOST_ROWS:
                raise ValueError(f"selqumar: a batch has at most {_MOST_ROWS} rows, and not {rows}")
            with _columns.nodes(parts) as nodes:
                self._append(worker, "selqumar_append", rows, nodes, len(parts))
        return rows

    def _append_array(self, data: Any, worker: int) -> int:
        schema, batch = data.__arrow_c_array__()
        place = _arrow.pointer_of(batch, b"arrow_array")
        # Its first member is its length.
        rows = ctypes.c_int64.from_address(place).value
        self._append(worker, "selqumar_arrow_append", _arrow.pointer_of(schema, b"arrow_schema"), place)
        return rows

    def _append_batches(self, batches: _arrow.Batches, worker: int, progress: Optional[Progress]) -> int:
        worker, rows = _worker(worker), 0
        for batch in batches:
            length = batch.length
            try:
                self._append(worker, "selqumar_arrow_append", ctypes.byref(batches.schema), ctypes.byref(batch))
            except _library.Fault as fault:
                raise _library.Fault(str(fault), batches.read) from None
            except MemoryError:
                raise MemoryError(f"selqumar: batch {batches.read} of the stream: a request for memory was refused") from None
            rows += length
            if progress is not None:
                progress(rows)
        return rows

    def _append(self, worker: int, name: str, *words: Any) -> None:
        """Adds a batch. Of the worker nothing is noted where it is refused."""
        with self._lock:
            self._call(name, ctypes.byref(self._handle), worker, *words)
            self._workers = max(self._workers, worker + 1)

    def add_column(self, name: str, field: Union[str, Field]) -> None:
        """Puts a column of nulls behind the others."""
        parts = _columns.parts_of_fields(_columns.fields_of({name: field}))
        with self._lock, _columns.nodes(parts) as nodes:
            self._call("selqumar_add_column", ctypes.byref(self._handle), nodes, len(parts))
            self._fields = None

    def compact(self, max_rows: int = _MOST_ROWS) -> None:
        """Joins neighbouring batches into ones of at most so many rows. No answer changes by it."""
        if not 0 <= index(max_rows) < 2 ** 32:
            raise ValueError(f"selqumar: a number of rows is from 0 to {2 ** 32 - 1}, and not {max_rows}")
        with self._lock:
            self._call("selqumar_compact", ctypes.byref(self._handle), index(max_rows))

    # ---- what it is asked beside what a snapshot is

    def snapshot(self) -> Snapshot:
        """The table as it stands, for other threads: each reads one of its own."""
        snapshot = Snapshot.__new__(Snapshot)
        snapshot._begin()
        with snapshot._closed_where_raised(), self._lock:
            snapshot._length, snapshot._workers = self._length, self._workers
            self._rooms.done("selqumar_snapshot_open", ctypes.byref(self._handle), ctypes.byref(snapshot._handle))
        return snapshot

    def answer(self, query: Query) -> Table:
        """What `query` gives, as a table of its own, for whatever takes an Arrow stream, or to be asked again: a row for each group, a column for each item of its
        key and each aggregate, such as `sum(people)`. Integers keep their column's type; counts and sums are int64, and a column with a sum past that is one of
        texts."""
        with self.snapshot() as snapshot:
            return snapshot.answer(query)

    def _named_fields(self) -> list[tuple[str, str]]:
        """The names and types of its columns."""
        if self._fields is None:
            self._fields = [(column.name, column.type) for column in self.stats().columns]
        return self._fields

    def _call(self, name: str, *words: Any) -> None:
        self._rooms.text(name, *words)


def _worker(worker: int) -> int:
    if not 0 <= index(worker) < _MOST_WORKERS:
        raise ValueError(f"selqumar: a worker is a number from 0 to {_MOST_WORKERS - 1}, and not {worker}")
    return index(worker)


def _is_frame(data: Any) -> bool:
    """Whether these are a frame of pandas, whose own stream has its index as a column and wants pyarrow. What polars has is handed on by its stream."""
    return hasattr(data, "columns") and hasattr(data, "to_numpy") and not type(data).__module__.startswith("polars")


class Snapshot(Asked):
    """A table at a moment, from `Table.snapshot`. What is appended later isn't in it, so that a thread can read one while another appends; no row was copied for
    it."""

    _STATS, _EXPORT, _QUERY = "selqumar_snapshot_stats", "selqumar_snapshot_export", "selqumar_snapshot_query"
    _STREAM, _CLOSE = "selqumar_arrow_snapshot_stream", "selqumar_snapshot_close"

    def __init__(self) -> None:
        raise TypeError("selqumar: a snapshot is made by Table.snapshot")

    def answer(self, query: Query) -> Table:
        """As `Table.answer`."""
        text = _files.query_bytes(query)
        table = Table.__new__(Table)
        table._begin()
        with table._closed_where_raised(), self._lock:
            self._rooms.text("selqumar_answer", ctypes.byref(self._handle), text, len(text), ctypes.byref(table._handle))
        return table
