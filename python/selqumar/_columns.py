"""Columns of lists and numpy arrays, as nodes of a call."""
from __future__ import annotations

import ctypes
import math
import re
from array import array
from collections.abc import Iterable, Iterator, Mapping, Sequence
from contextlib import ExitStack, contextmanager
from dataclasses import dataclass
from itertools import accumulate, chain
from typing import Any, Optional, Union

from ._library import Bytes, Node
from ._memory import held

# Of each type of numbers its format, and how `array` calls it.
_NUMBERS = {"int8": ("c", "b"), "uint8": ("C", "B"), "int16": ("s", "h"), "uint16": ("S", "H"), "int32": ("i", "i"), "uint32": ("I", "I"),
            "int64": ("l", "q"), "uint64": ("L", "Q")}
_TEXTS = {"utf8": ("u", "i"), "dictionary": ("u", "i"), "largeutf8": ("U", "q")}
_LISTS = {"list": ("+l", "i"), "largelist": ("+L", "q")}
# The number of nulls that isn't known, and more levels than there may be.
_UNKNOWN = 2 ** 64 - 1
_LIST = re.compile(r"(list|largelist)<(.*)>")


@dataclass(frozen=True)
class Field:
    """The type of a column, and whether it may hold nulls.

    Types are named as `arrowtab schema` does: `int8` to `int64`, `uint8` to `uint64`, `bool`, `utf8` (which is stored by a dictionary), `largeutf8`, `list<T>` and
    `largelist<T>`, where T may be a list again."""
    type: str
    nullable: bool = True


Schema = Mapping[str, Union[str, Field]]


@dataclass
class _Part:
    """A node in the making: its buffers are objects that have bytes."""
    format: str
    name: str
    nullable: bool
    children: int
    length: int
    null_count: int
    validity: Any = b""
    first: Any = b""
    second: Any = b""


def fields_of(schema: Schema) -> list[tuple[str, Field]]:
    """The names and the fields of a schema."""
    return [(_name(name), field if isinstance(field, Field) else Field(field)) for name, field in schema.items()]


def _name(name: object) -> str:
    if not isinstance(name, str):
        raise TypeError(f"selqumar: the name of a column is a text, and not {name!r}")
    return name


def parts_of_fields(fields: Iterable[tuple[str, Field]]) -> list[_Part]:
    """The parts of columns of these fields, without a slot."""
    return [part for name, field in fields for part in _column(name, field.type, field.nullable, [])]


def parts_of_columns(columns: Iterable[tuple[str, str, Any]]) -> list[_Part]:
    """The parts of columns with a name, a type and their values."""
    return [part for name, kind, values in columns for part in _column(name, kind, True, values)]


def _column(name: str, kind: str, nullable: bool, values: Any) -> list[_Part]:
    try:
        values, mask = _without_mask(values)
        if kind in _NUMBERS:
            return [_numbers(name, kind, nullable, values, mask)]
        items = [None if mask is not None and mask[i] else value for i, value in enumerate(_items(values))]
        if kind == "bool":
            return [_bools(name, nullable, items)]
        if kind in _TEXTS:
            return [_texts(name, kind, nullable, items)]
        return _lists(name, kind, nullable, items)
    except UnicodeEncodeError as fault:
        fault.reason = _told(name, kind, fault)
        raise
    except OverflowError as fault:
        raise OverflowError(_told(name, kind, fault)) from fault
    except TypeError as fault:
        raise TypeError(_told(name, kind, fault)) from fault


def _told(name: str, kind: str, fault: Exception) -> str:
    return f"selqumar: column {name!r} of {kind}: {(fault.args or ('no such values',))[-1]}"


def _without_mask(values: Any) -> tuple[Any, Any]:
    """Values, and which of them are null, where they say so beside the values: numpy's masked arrays, and pandas' columns, arrays and indices."""
    if getattr(getattr(values, "dtype", None), "kind", "") in ("M", "m"):
        raise TypeError("it has no dates and no times: hand them in as integers, as by astype('int64'), in a unit of your own")
    if hasattr(values, "filled") and hasattr(values, "mask"):
        import numpy
        if values.ndim != 1:
            return values.tolist(), None
        return values.filled(0) if values.dtype.kind in "iub" else values.filled(None), numpy.broadcast_to(values.mask, values.shape)
    if hasattr(values, "isna") and hasattr(values, "to_numpy"):
        import numpy
        mask = numpy.asarray(values.isna())
        if not mask.any():
            return values.to_numpy(), None
        return [None if is_null else value for is_null, value in zip(mask, list(values))], None
    return values, None


def _items(values: Any) -> list[Any]:
    """The values as a list of Python's own."""
    if isinstance(values, (str, bytes, bytearray, Mapping)) or not isinstance(values, Iterable):
        raise TypeError(f"its values are a list or an array, and not {type(values).__name__}")
    return list(values.tolist() if hasattr(values, "tolist") else values)


def _validity(items: Sequence[Any]) -> tuple[bytes, int]:
    """The bitmap of what isn't None, none where nothing is, and how many are None."""
    nulls = sum(item is None for item in items)
    return (_bits([item is not None for item in items]) if nulls else b""), nulls


def _bits(flags: Sequence[Any]) -> bytes:
    """Flags as bits, the first of them the lowest of its byte."""
    digits = "".join("1" if flag else "0" for flag in reversed(flags))
    return int(digits or "0", 2).to_bytes((len(flags) + 7) // 8, "little")


def _numbers(name: str, kind: str, nullable: bool, values: Any, mask: Any) -> _Part:
    letter, code = _NUMBERS[kind]
    if hasattr(values, "dtype") and values.dtype.kind in "iu":
        return _of_numpy(_Part(letter, name, nullable, 0, len(values), 0), kind, values, mask)
    items = [None if mask is not None and mask[i] else _whole(value) for i, value in enumerate(_items(values))]
    validity, nulls = _validity(items)
    return _Part(letter, name, nullable, 0, len(items), nulls, validity, array(code, [0 if item is None else item for item in items]))


def _whole(value: Any) -> Any:
    """A number. A float that is whole is one, and one that is no number is a null, as pandas has integers with nulls."""
    if not isinstance(value, float):
        return value
    if math.isnan(value):
        return None
    if not value.is_integer():
        raise TypeError(f"{value!r} is no whole number")
    return int(value)


def _of_numpy(part: _Part, kind: str, values: Any, mask: Any) -> _Part:
    """An array of integers. It is handed on as it lies where it has the column's type, and copied where its numbers are of that type."""
    import numpy
    wanted = numpy.dtype(kind).newbyteorder("<")
    if values.ndim != 1:
        raise TypeError("an array has one dimension")
    limits = numpy.iinfo(wanted)
    if not numpy.can_cast(values.dtype, wanted) and len(values) and (int(values.min()) < limits.min or int(values.max()) > limits.max):
        raise OverflowError(f"a number of {values.dtype} is outside of {kind}")
    part.first = numpy.ascontiguousarray(values, dtype=wanted)
    if mask is not None:
        part.validity, part.null_count = numpy.packbits(~mask, bitorder="little"), int(mask.sum())
    return part


def _bools(name: str, nullable: bool, items: list[Any]) -> _Part:
    for item in items:
        # Those of numpy are no `bool`.
        if item is not None and not isinstance(item, bool) and getattr(getattr(item, "dtype", None), "kind", "") != "b":
            raise TypeError(f"{item!r} is no truth value")
    validity, nulls = _validity(items)
    return _Part("b", name, nullable, 0, len(items), nulls, validity, _bits(items))


def _texts(name: str, kind: str, nullable: bool, items: list[Any]) -> _Part:
    letter, code = _TEXTS[kind]
    for item in items:
        if item is not None and not isinstance(item, str):
            raise TypeError(f"{item!r} is no text")
    texts = [b"" if item is None else item.encode() for item in items]
    validity, nulls = _validity(items)
    return _Part(letter, name, nullable, 0, len(items), nulls, validity, _offsets(code, texts), b"".join(texts))


def _lists(name: str, kind: str, nullable: bool, items: list[Any]) -> list[_Part]:
    told = _LIST.fullmatch(kind) if isinstance(kind, str) else None
    if told is None:
        raise TypeError(f"there is no such type; there are {', '.join([*_NUMBERS, 'bool', *_TEXTS])}, list<T> and largelist<T>")
    letter, code = _LISTS[told[1]]
    lists = [[] if item is None else _items(item) for item in items]
    validity, nulls = _validity(items)
    inside = _column("item", told[2], True, list(chain.from_iterable(lists)))
    return [_Part(letter, name, nullable, 1, len(items), nulls, validity, _offsets(code, lists)), *inside]


def _offsets(code: str, parts: Sequence[Any]) -> array[int]:
    return array(code, accumulate(map(len, parts), initial=0))


@contextmanager
def nodes(parts: list[_Part]) -> Iterator[Any]:
    """The nodes of a call."""
    with ExitStack() as stack:
        def lent(data: Any) -> Bytes:
            return stack.enter_context(held(data))

        found = [Node(lent(part.format.encode()), lent(part.name.encode()), part.nullable, 0, part.children, part.length, part.null_count, lent(part.validity),
                      lent(part.first), lent(part.second)) for part in parts]
        yield (Node * max(len(found), 1))(*found)
