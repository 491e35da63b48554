"""Files and queries, as a call takes them."""
from __future__ import annotations

import json
import mmap
import os
from collections.abc import Iterable, Iterator, Mapping
from contextlib import ExitStack, contextmanager
from typing import Any, Union

from ._library import ROOM, Bytes, Fault
from ._memory import held

File = Union[bytes, bytearray, memoryview, mmap.mmap, str, os.PathLike[str]]
Files = Union[File, Iterable[File]]
Query = Union[str, bytes, Mapping[str, Any]]


_FILES = (bytes, bytearray, memoryview, mmap.mmap, str, os.PathLike)


def listed(files: Files) -> list[File]:
    """One file or several, as a list."""
    if isinstance(files, _FILES):
        return [files]
    # What is open gives lines, and a mapping its keys.
    if not isinstance(files, Iterable) or isinstance(files, Mapping) or hasattr(files, "read"):
        raise _no_file(files)
    found: list[File] = []
    for file in files:
        if not isinstance(file, _FILES):
            raise _no_file(file)
        found.append(file)
    return found


def _no_file(value: object) -> TypeError:
    return TypeError(f"selqumar: a file is bytes, a bytearray, a memoryview, an mmap or a path, and not {type(value).__name__}")


def _data(file: File) -> Union[bytes, memoryview]:
    """The bytes of a file, as they are now: what could change while it is read is copied."""
    if isinstance(file, (str, os.PathLike)):
        with open(file, "rb") as source:
            return source.read()
    if isinstance(file, bytes):
        return file
    if not isinstance(file, memoryview):
        return bytes(file)
    if not (file.itemsize == 1 and file.c_contiguous):
        raise TypeError("selqumar: a memoryview has to be of bytes that lie one behind the other")
    # A view that is read only may be of what others write to.
    return file if type(file.obj) is bytes else file.tobytes()


@contextmanager
def entries(files: list[File]) -> Iterator[tuple[Any, int]]:
    """The entries of files for a call, and how many bytes all have. A fault of the call names a file by its path, where it has one."""
    with ExitStack() as stack:
        found = [stack.enter_context(held(_data(file))) for file in files]
        # An array has an address, also where there is no file.
        try:
            yield (Bytes * max(len(found), 1))(*found), sum(entry.length for entry in found)
        except Fault as fault:
            file = files[fault.file] if fault.file is not None else None
            if isinstance(file, (str, os.PathLike)):
                fault._name(os.fsdecode(file))
            raise


def least(name: str, length: int) -> int:
    """How long a buffer is at first: an export is about as long as the files."""
    return max(ROOM, length) if name.endswith("export") else ROOM


_MEMBERS = ("filter", "by", "aggs")
_MEMBERS_OF_AGG = ("agg", "column")
_MEMBERS_OF_EXPR = ("column", "int", "text", "op", "args")


def _check_members(value: object, known: tuple[str, ...], what: str) -> None:
    """Refuses members that nobody reads, by their name."""
    for name in value if isinstance(value, Mapping) else ():
        if name not in known:
            raise ValueError(f"selqumar: {what} has no member {name!r}; there are {', '.join(known)}")


def _check_expression(value: object) -> None:
    _check_members(value, _MEMBERS_OF_EXPR, "an expression")
    args = value.get("args") if isinstance(value, Mapping) else None
    for arg in args if isinstance(args, (list, tuple)) else ():
        _check_expression(arg)


def query_bytes(query: Query) -> bytes:
    """A query as JSON text."""
    if isinstance(query, Mapping):
        _check_members(query, _MEMBERS, "a query")
        _check_expression(query.get("filter"))
        aggs = query.get("aggs")
        for agg in aggs if isinstance(aggs, (list, tuple)) else ():
            _check_members(agg, _MEMBERS_OF_AGG, "an aggregate")
        query = json.dumps(dict(query), allow_nan=False)
    if isinstance(query, str):
        query = query.encode()
    if not isinstance(query, bytes):
        raise TypeError(f"selqumar: a query is a dict or a text, and not {type(query).__name__}")
    return query
