"""What is printed, as values."""
from __future__ import annotations

import html
import json
from dataclasses import dataclass, field
from typing import Optional, Union

Value = Union[int, bool, str, None]


@dataclass
class Column:
    """The statistics of a column; None where there is none."""
    name: str
    type: str
    rows: int
    nulls: int
    sum: Optional[int]
    least: Value
    greatest: Value


@dataclass
class Worker:
    """How many batches a worker appended, and how many rows they have."""
    batches: int
    rows: int


@dataclass
class Stats:
    """The statistics of a table: how many rows it has, in how many batches, its columns in order, and what each worker appended."""
    rows: int
    batches: int
    columns: list[Column]
    workers: list[Worker] = field(default_factory=list)

    def column(self, name: str) -> Column:
        """The first column of a name; a `KeyError` where there is none."""
        for column in self.columns:
            if column.name == name:
                return column
        raise KeyError(name)

    def _repr_html_(self) -> str:
        """The columns as rows of a table, for a notebook."""
        names = ("name", "type", "rows", "nulls", "sum", "least", "greatest")
        head = "".join(f"<th>{name}</th>" for name in names)
        rows = "".join("<tr>" + "".join(f"<td>{_cell(getattr(column, name))}</td>" for name in names) + "</tr>" for column in self.columns)
        return f"<table><thead><tr>{head}</tr></thead><tbody>{rows}</tbody></table>"


def _cell(value: Value) -> str:
    return "" if value is None else html.escape(str(value))


_READER = json.JSONDecoder()


def stats_of(text: str) -> Stats:
    rows, *lines = text.split("\n")[:-1]
    workers = [_worker(line) for line in lines if line.startswith("worker ")]
    columns = [_column(line) for line in lines[len(workers):]]
    return Stats(int(rows.split(" ")[1]), sum(worker.batches for worker in workers), columns, workers)


def _worker(line: str) -> Worker:
    _, _, _, calls, _, rows = line.split(" ")
    return Worker(int(calls), int(rows))


def groups_of(text: str) -> list[list[Value]]:
    return [_cells(line) for line in text.split("\n")[:-1]]


def _cells(line: str) -> list[Value]:
    cells, at = [], 0
    while at < len(line):
        cell, at = _READER.raw_decode(line, at)
        cells.append(cell)
        at += 1
    return cells


def _column(line: str) -> Column:
    """What the line of a column says."""
    name, at = _READER.raw_decode(line)
    kind, rest = line[at + 1:].split(" rows=", 1)
    rows, rest = rest.split(" nulls=", 1)
    nulls, rest = rest.split(" sum=", 1)
    total, rest = rest.split(" least=", 1)
    least, at = _statistic(rest)
    greatest, _ = _statistic(rest[at + len(" greatest="):])
    return Column(name, kind, int(rows), int(nulls), None if total == "-" else int(total), least, greatest)


def _statistic(text: str) -> tuple[Value, int]:
    """A value, and where it ends; a dash is none. A number that is below zero begins with a dash too."""
    if text == "-" or text.startswith("- "):
        return None, 1
    return _READER.raw_decode(text)
