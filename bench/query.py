#!/usr/bin/env python3
"""Measures grouped queries beside plain Rust that is written by hand for each, and beside SQLite in memory.

    bench/query.py [RUNS [QUERY..]]          in one piece
    bench/query.py pieces [RUNS [QUERY..]]   in 1, 2, 4 and 64 pieces on threads

Builds `crates/bench`, and bench/query.rs by cargo in a folder of its own; where VENDORED names a folder of vendored crates,
cargo takes indexmap from there. 8 million rows in 80 batches; the runs
alternate. Both print each answer as soon as they have it. Printed are the medians of the milliseconds from one answer of a
run to the next, so that making the columns doesn't count. SQLite's time is that of one statement, once the rows are there.
"""
import sqlite3
import statistics
import subprocess
import sys
import tempfile
import time

import programs

BATCHES, ROWS = 80, 100_000
QUERIES = {
    "sum-by-text": ('{"by":["k"],"aggs":[{"agg":"sum","column":"v"}]}',
                    "select count(*), sum(s) from (select sum(v) s from t group by k)"),
    "ends-by-number": ('{"by":["g"],"aggs":[{"agg":"rows"},{"agg":"least","column":"v"},{"agg":"greatest","column":"v"}]}',
                       "select count(*), sum(n + coalesce(a, 0) + coalesce(b, 0)) from (select count(*) n, min(v) a, max(v) b from t group by g)"),
    "rows-where": ('{"filter":{"op":"and","args":[{"op":"gt","args":[{"op":"add","args":[{"column":"v"},{"int":1}]},{"int":5}]},'
                   '{"op":"not","args":[{"op":"is_null","args":[{"column":"k"}]}]}]},"aggs":[{"agg":"rows"}]}',
                   "select 1, count(*) from t where v + 1 > 5 and k is not null"),
    "sum": ('{"aggs":[{"agg":"sum","column":"v"}]}', "select 1, sum(v) from t"),
}

# how many answers a run gives after its first
ANSWERS = {"sum-by-text": 60, "ends-by-number": 16, "rows-where": 150, "sum": 100}


def one_answer(program, query, times, pieces=1):
    """The median of the milliseconds from one answer to the next, and what the answers say."""
    words = [*program, query, str(BATCHES), str(ROWS), str(times + 1), str(pieces)]
    with subprocess.Popen(words, stdout=subprocess.PIPE) as run:
        lines = [(line, time.monotonic()) for line in run.stdout]
    assert run.returncode == 0 and len(lines) == times + 1, words
    said = {line for line, _ in lines}
    assert len(said) == 1, said
    return statistics.median(1000 * (after - before) for (_, before), (_, after) in zip(lines, lines[1:])), said.pop()


def spread(row, salt, distinct):
    return (row + salt) * 2_654_435_761 % 2**32 % distinct


def table():
    """The same rows in SQLite."""
    base = sqlite3.connect(":memory:")
    base.execute("create table t (k text, g integer, v integer)")
    rows = ((None if (i % ROWS + 1) % 20 == 0 else str(spread(i, 1, 1000)), None if (i % ROWS + 2) % 20 == 0 else spread(i, 2, 100_000),
             None if (i % ROWS + 3) % 20 == 0 else spread(i, 3, 2**31)) for i in range(BATCHES * ROWS))
    base.executemany("insert into t values (?, ?, ?)", rows)
    return base


def beside_sqlite(own, peer, runs, names):
    base = table()
    for name in names:
        text, statement = QUERIES[name]
        pairs = []
        for _ in range(runs):
            ours, said = one_answer(own, text, ANSWERS[name])
            theirs, told = one_answer(peer, name, ANSWERS[name])
            assert said == told, (name, said, told)
            pairs.append((ours, theirs))
        ours = statistics.median(pair[0] for pair in pairs)
        theirs = statistics.median(pair[1] for pair in pairs)
        begin = time.monotonic()
        told = base.execute(statement).fetchone()
        sqlite = 1000 * (time.monotonic() - begin)
        assert " ".join(map(str, told)) == said.decode().strip(), (name, said, told)
        print(f"{name}: {ours:.1f} ms beside {theirs:.1f} ms, {ours / theirs:.2f}; SQLite {sqlite:.0f} ms", flush=True)


def in_pieces(own, peer, runs, names):
    for name in names:
        text = QUERIES[name][0]
        took = {pieces: ([], []) for pieces in (1, 2, 4, 64)}
        for _ in range(runs):
            answers = set()
            for pieces, (ours, theirs) in took.items():
                time_taken, said = one_answer(own, text, ANSWERS[name], pieces)
                ours.append(time_taken)
                time_taken, told = one_answer(peer, name, ANSWERS[name], pieces)
                theirs.append(time_taken)
                answers |= {said, told}
            assert len(answers) == 1, (name, answers)
        for pieces, pair in took.items():
            ours, theirs = map(statistics.median, pair)
            one, other = (statistics.median(times) for times in took[1])
            print(f"{name} in {pieces}: {ours:.1f} ms, {one / ours:.2f} times as fast as in 1; the other {theirs:.1f} ms, {other / theirs:.2f}", flush=True)


def main():
    words = sys.argv[1:]
    pieces = words[:1] == ["pieces"]
    words = words[pieces:]
    runs = int(words[0]) if words else 5
    names = words[1:] or list(QUERIES)[:2 if pieces else None]
    with tempfile.TemporaryDirectory() as folder:
        (in_pieces if pieces else beside_sqlite)(programs.ours("query"), [programs.plain("query", folder)], runs, names)


main()
