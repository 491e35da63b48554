"""A table of Arrow record batches that is asked while it grows, and what `arrowtab` prints of Arrow integration files (JSON), in this process.

    import selqumar
    with selqumar.Table({"city": "utf8", "people": "int64"}) as table:
        table.append({"city": ["Lisbon", None], "people": [545923, 1]})  # or numpy arrays, a frame, an Arrow stream
        table.query({"by": ["city"], "aggs": [{"agg": "sum", "column": "people"}]})
    selqumar.stats("examples/mixed.json").column("people")

Files are one or several of: `bytes`, or a `memoryview` of these, which are read where they lie; a `bytearray`, another `memoryview` or an `mmap`, which are copied first,
since what they hold may change; or a path, whose file is read. Where a file that is mapped is cut meanwhile, the system ends the process (SIGBUS), as for whoever reads it.
Whatever stands against a call is raised as a `Fault`, with the line that the program would report, as a `MemoryError`, or, of what is no file, no rows and no query, as a
`TypeError`, a `ValueError` or an `OverflowError`.

The library is the file that the variable SELQUMAR_LIBRARY names, or else `libselqumar.so.2` in this folder or in `build` of the repository, where
`tools/library build` puts it."""
from __future__ import annotations

from typing import Any

from . import _files, _library, _values
from ._columns import Field
from ._files import Files, Query
from ._library import LIBRARY, Fault
from ._table import Snapshot, Table
from ._values import Column, Stats, Value, Worker

__version__ = "0.1.0"
__all__ = ["Column", "Fault", "Field", "Snapshot", "Stats", "Table", "Worker", "export", "query", "query_text", "stats", "stats_text", "validate"]

_rooms = _library.Rooms()


def _called(name: str, files: Files, *middle: Any) -> str:
    """The text that a function gives of files."""
    listed = _files.listed(files)
    with _files.entries(listed) as (entries, length):
        return _rooms.text(name, entries, len(listed), *middle, least=_files.least(name, length))


def stats_text(files: Files) -> str:
    """What `arrowtab stats` prints of the files."""
    return _called("selqumar_stats", files)


def export(files: Files) -> str:
    """What `arrowtab export` prints of them: one file with the batches of all."""
    return _called("selqumar_export", files)


def query_text(files: Files, query: Query) -> str:
    """What `arrowtab query` prints of them, for a query as JSON text or as the value of one."""
    text = _files.query_bytes(query)
    return _called("selqumar_query", files, text, len(text))


def validate(files: Files) -> None:
    """Whether all files can be loaded into one table: where they can't, a `Fault` is raised."""
    _called("selqumar_validate", files)


def stats(files: Files) -> Stats:
    """The same as `stats_text`, as values."""
    return _values.stats_of(stats_text(files))


def query(files: Files, query: Query) -> list[list[Value]]:
    """The same as `query_text`, as values: a list for each group, its keys before its aggregates."""
    return _values.groups_of(query_text(files, query))
