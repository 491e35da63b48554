#!/usr/bin/env python3
"""How long queries of a table take from Python, beside pandas over the same 2,000,000 rows.

    SELQUMAR_LIBRARY=build/libselqumar.so PYTHONPATH=python bench/frames.py

`k` has 1,000 texts, `g` 100,000 numbers of 32 bits, `v` numbers of 64 bits; each twentieth item is null. Of each query it prints the processor time of both and their
ratio, each the median of some runs in turn, once with answers as columns (numpy arrays over what is lent here, a frame there) and once as lists; then how long it takes to
append the rows, in one batch and in batches of 1,000, and to hand the columns out."""
import ctypes
import os
import sys
import time

import numpy
import pandas

import selqumar

sys.path.insert(0, os.path.join(os.path.dirname(os.path.abspath(__file__)), "..", "tools"))
from arrow_consumer import Taken, release

ROWS, RUNS = 2_000_000, 7
FILTER = {"op": "and", "args": [{"op": "gt", "args": [{"op": "add", "args": [{"column": "v"}, {"int": 1}]}, {"int": 5}]},
                                {"op": "not", "args": [{"op": "is_null", "args": [{"column": "k"}]}]}]}


def columns():
    chance = numpy.random.default_rng(1)
    texts = numpy.array([f"text {i}" for i in range(1000)], dtype=object)
    k = texts[chance.integers(0, 1000, ROWS)]
    k[::20] = None
    g = numpy.ma.array(chance.integers(0, 100_000, ROWS, dtype="int32"), mask=numpy.arange(ROWS) % 20 == 1)
    v = numpy.ma.array(chance.integers(0, 1_000_000, ROWS, dtype="int64"), mask=numpy.arange(ROWS) % 20 == 2)
    return {"k": k, "g": g, "v": v}


# Of each query its name, what it asks, and the same of a frame.
QUERIES = [
    ("sum(v) by k", {"by": ["k"], "aggs": [{"agg": "sum", "column": "v"}]}, lambda frame: by(frame, "k")["v"].sum()),
    ("rows, least(v), greatest(v) by g", {"by": ["g"], "aggs": [{"agg": "rows"}, {"agg": "least", "column": "v"}, {"agg": "greatest", "column": "v"}]},
     lambda frame: by(frame, "g")["v"].agg(["size", "min", "max"])),
    ("sum(v)", {"aggs": [{"agg": "sum", "column": "v"}]}, lambda frame: frame["v"].sum()),
    ("rows where v + 1 > 5 and not is_null(k)", {"filter": FILTER, "aggs": [{"agg": "rows"}]}, lambda frame: ((frame["v"] + 1 > 5) & frame["k"].notna()).sum()),
]


def by(frame, name):
    return frame.groupby(name, dropna=False, sort=False)


def listed(answer):
    return answer.values.tolist() if hasattr(answer, "values") else int(answer)


def slots_of(table):
    """How many slots all columns have, each taken as a numpy array over what is lent."""
    source, count = Taken(table), 0
    for batch in source.batches():
        for place, field in enumerate(source.fields()):
            column = batch.children[place].contents
            width = {b"l": 8, b"i": 4, b"U": 8, b"+l": 4}[field.format]
            data = (ctypes.c_char * (width * column.length)).from_address(column.buffers[1]) if column.length else b""
            count += numpy.frombuffer(data, dtype=f"<i{width}").size
        release(batch)
    source.close()
    return count


def answered(table, query):
    with table.answer(query) as answer:
        return slots_of(answer)


def taken(run):
    before = time.process_time()
    run()
    return time.process_time() - before


def show(name, ours, theirs):
    times = sorted(taken(ours) for _ in range(RUNS)), sorted(taken(theirs) for _ in range(RUNS))
    one, other = (it[RUNS // 2] for it in times)
    print(f"{name}: {1000 * one:.1f} ms, {1000 * other:.1f} ms, {one / other:.2f}")


def main():
    data = columns()
    frame = pandas.DataFrame({"k": data["k"], "g": pandas.array(data["g"].filled(0), dtype="Int32"), "v": pandas.array(data["v"].filled(0), dtype="Int64")})
    frame.loc[data["g"].mask, "g"] = pandas.NA
    frame.loc[data["v"].mask, "v"] = pandas.NA
    schema = {"k": "utf8", "g": "int32", "v": "int64"}
    with selqumar.Table(schema) as table:
        whole = taken(lambda: table.append(data))
        for name, query, theirs in QUERIES:
            show(f"{name}, columns", lambda: answered(table, query), lambda: theirs(frame))
            show(f"{name}, lists", lambda: table.query(query), lambda: listed(theirs(frame)))
        out = taken(lambda: slots_of(table))
    numbers = {name: data[name] for name in ("g", "v")}
    with selqumar.Table({"g": "int32", "v": "int64"}) as table:
        at_once = taken(lambda: table.append(numbers))
    with selqumar.Table({"g": "int32", "v": "int64"}) as table:
        in_parts = taken(lambda: [table.append({name: items[at:at + 1000] for name, items in numbers.items()}) for at in range(0, ROWS, 1000)])
    print(f"append of all columns {1000 * whole:.0f} ms, of the numbers {1000 * at_once:.0f} ms, in batches of 1,000 rows {1000 * in_parts:.0f} ms; all columns out {1000 * out:.2f} ms")


main()
