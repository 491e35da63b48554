#!/usr/bin/env python3
"""Runs tools/shards on random queries and files of a fixed seed, and compares output, fault and status with `arrowtab query` on one machine.

    tools/shard_cases.py PROGRAM

Most run in threads, some by GNU parallel, whose package is `parallel`: without it these fail. Some cases aim at what chance misses: an overflow at one
row, sums past 64 bits. Others have a file that is refused in the third shard, a program that is killed once or always, and a shard without rows.
`shard_use.py` has further cases. The last line is 'N passed, M failed'."""
import json
import os
import random
import sys
import tempfile
from concurrent.futures import ThreadPoolExecutor

import shard_use
from shard_use import PARALLEL, SHARDS, WAYS, executable, given

SEED = 20
CASES = {"values": 110, "overflow": 50, "sums": 40}
# Of so many cases one goes by GNU parallel.
SOME = 8
TEXTS = ["", "a", "b", "é", 'q"', "a b", "\n", "null"]
# Each column: its name, the bits of its numbers and whether they have a sign; no bits for texts and truth values.
COLUMNS = [("t", None, "utf8"), ("b", None, "bool"), ("i", 16, True), ("n", 64, True), ("u", 64, False), ("s", 8, True)]
NUMBERS = [name for name, bits, _ in COLUMNS if bits]


def type_of(bits, kind):
    return {"name": "int", "bitWidth": bits, "isSigned": kind} if bits else {"name": kind}


def schema():
    return {"fields": [{"name": name, "nullable": True, "type": type_of(bits, kind), "children": []} for name, bits, kind in COLUMNS]}


def number(chance, bits, signed, aim):
    least, most = (-(1 << bits - 1), (1 << bits - 1) - 1) if signed else (0, (1 << bits) - 1)
    if aim == "sums":
        return chance.choice([least, most, most - 1])
    return chance.choice([chance.randint(0, 3), chance.randint(max(least, -9), 9), chance.randint(least, most)])


def column(chance, name, bits, kind, rows, aim):
    valid = [int(chance.random() < 0.8) for _ in range(rows)]
    made = {"name": name, "count": rows, "VALIDITY": valid}
    if bits:
        data = [number(chance, bits, kind, aim) for _ in range(rows)]
        made["DATA"] = [str(it) for it in data] if bits == 64 else data
    elif kind == "bool":
        made["DATA"] = [chance.randint(0, 1) for _ in range(rows)]
    else:
        made["DATA"] = [chance.choice(TEXTS) if it else "" for it in valid]
        made["OFFSET"] = [0]
        for text in made["DATA"]:
            made["OFFSET"].append(made["OFFSET"][-1] + len(text.encode()))
    return made


def batch(chance, rows, aim):
    return {"count": rows, "columns": [column(chance, *it, rows, aim) for it in COLUMNS]}


def files_of(chance, aim):
    """Files of no batches up to three, and of no rows up to nine in each."""
    return [
        {"schema": schema(), "batches": [batch(chance, chance.choice([0, 1, 2, 5, 9]), aim) for _ in range(chance.randint(0, 3))]}
        for _ in range(chance.randint(1, 6))
    ]


def filter_of(chance, aim):
    name = chance.choice(NUMBERS)
    if aim == "overflow":
        # One number more than the greatest is outside the type at the rows that have the greatest, and at no other.
        added = {"op": "add", "args": [{"column": "s"}, {"int": 1}]}
        return {"op": "lt", "args": [added, {"int": chance.randint(-9, 9)}]}
    return chance.choice([
        None,
        {"op": "is_null", "args": [{"column": chance.choice(COLUMNS)[0]}]},
        {"column": "b"},
        {"op": "not", "args": [{"column": "b"}]},
        {"op": chance.choice(["lt", "ge", "ne"]), "args": [{"column": name}, {"int": chance.randint(0, 5)}]},
        {"op": "eq", "args": [{"column": "t"}, {"text": chance.choice(TEXTS)}]},
        {"op": "gt", "args": [{"op": chance.choice(["add", "mul"]), "args": [{"column": name}, {"column": name}]}, {"int": 3}]},
    ])


def query_of(chance, aim):
    keys = [] if aim == "sums" and chance.random() < 0.5 else [chance.choice(COLUMNS)[0] for _ in range(chance.randint(0, 3))]
    aggs = [{"agg": "rows"}] * chance.randint(0, 1)
    for _ in range(chance.randint(0, 4)):
        agg = "sum" if aim == "sums" else chance.choice(["count", "sum", "least", "greatest"])
        aggs.append({"agg": agg, "column": chance.choice(NUMBERS if agg == "sum" else [it[0] for it in COLUMNS])})
    return {"filter": filter_of(chance, aim), "by": keys, "aggs": aggs}


def unaimed(files):
    """No row with the greatest number of eight bits."""
    for one in files:
        for each in one["batches"]:
            each["columns"][5]["DATA"] = [min(it, 126) for it in each["columns"][5]["DATA"]]


def aimed(chance, files):
    """Some rows with it, so that an overflow stands there."""
    unaimed(files)
    batches = [each for one in files for each in one["batches"] if each["count"]]
    for each in chance.sample(batches, min(len(batches), chance.randint(1, 2))):
        row = chance.randrange(each["count"])
        each["columns"][5]["DATA"][row], each["columns"][5]["VALIDITY"][row] = 127, 1


def written(room, files):
    os.makedirs(room)
    names = []
    for place, one in enumerate(files):
        names.append(os.path.join(room, f"{place}.json"))
        with open(names[-1], "w", encoding="utf-8") as file:
            file.write(one if isinstance(one, str) else json.dumps(one, ensure_ascii=False))
    return names


def fault_of(program, room, query, names, shards, way, other=None, wanted=None):
    """What shards give, where that isn't what one machine gives."""
    query = json.dumps(query)
    wanted = wanted or given([program, "query", "--query", query, *names], room)
    found = given([SHARDS, "--arrowtab", other or program, "--shards", str(shards), way, query, *names], room)
    return None if found == wanted else f"{found} and not {wanted}, of {query}"


def random_case(program, room, aim, place):
    chance = random.Random(f"{SEED} {aim} {place}")
    files = files_of(chance, aim)
    if aim == "overflow":
        aimed(chance, files)
    query, shards = query_of(chance, aim), chance.randint(1, 5)
    return fault_of(program, room, query, written(f"{room}/{aim}{place}", files), shards, PARALLEL if place % SOME == 0 else WAYS["threads"])


def stated_cases(program, room):
    """A name, and the fault of a case that no chance makes."""
    chance = random.Random(SEED)
    query = {"by": ["t"], "aggs": [{"agg": "rows"}, {"agg": "sum", "column": "u"}]}
    files = [{"schema": schema(), "batches": [batch(chance, 5, "values")]} for _ in range(4)]
    other = dict(files[2], schema={"fields": schema()["fields"][:5]}, batches=[dict(files[2]["batches"][0], columns=files[2]["batches"][0]["columns"][:5])])
    cases = [
        ("other fields in the third shard", query, [*files[:2], other, files[3]]),
        ("no file in the third shard", query, [*files[:2], "{", files[3]]),
        ("other fields, and no file behind", query, [*files[:2], other, "["]),
        ("no such column", {"by": ["w"]}, files),
        ("no query", {"by": 3}, files),
        ("a shard without rows", query, [files[0], {"schema": schema(), "batches": []}, files[1]]),
    ]
    for what, way in WAYS.items():
        for place, (name, asked, some) in enumerate(cases):
            names = written(f"{room}/stated {what} {place}", some)
            yield f"{name}, {what}", fault_of(program, room, asked, names, len(some), way)
        names = written(f"{room}/stated {what}", files)
        once = executable(room, f"once {what}", f'mkdir "{room}/killed {what}" 2> /dev/null && kill -KILL $$\nexec "{program}" "$@"')
        yield f"a program that is killed once, {what}", fault_of(program, room, query, names, 4, way, once)
        always = executable(room, f"always {what}", f'case "$*" in *3.json*) kill -KILL $$ ;; esac\nexec "{program}" "$@"')
        lost = (3, b"", b"shards: shard 4 of 4 is lost: status 137\n")
        yield f"a program that is killed always, {what}", fault_of(program, room, query, names, 4, way, always, lost)
    once = executable(room, "once merging", f'case $PWD in */shards-*) mkdir "{room}/merging" 2> /dev/null && kill -KILL $$ ;; esac\nexec "{program}" "$@"')
    yield "a merge that is killed once", fault_of(program, room, query, names, 4, WAYS["threads"], once) or shard_use.difference(os.path.exists(f"{room}/merging"), True)
    always = executable(room, "always merging", f'case $PWD in */shards-*) kill -KILL $$ ;; esac\nexec "{program}" "$@"')
    yield "a merge that is killed always", fault_of(program, room, query, names, 4, WAYS["threads"], always, (3, b"", b"shards: the merge is lost: status 137\n"))


def main():
    program = os.path.abspath(sys.argv[1])
    passed = failed = 0
    with tempfile.TemporaryDirectory() as room, ThreadPoolExecutor(os.cpu_count()) as pool:
        cases = [(f"{aim} {place}", pool.submit(random_case, program, room, aim, place)) for aim, many in CASES.items() for place in range(many)]
        chance = ((name, case.result()) for name, case in cases)
        for name, fault in [*chance, *stated_cases(program, room), *shard_use.cases(program, room)]:
            passed, failed = passed + (fault is None), failed + (fault is not None)
            if fault:
                print(f"{name}: {fault}", flush=True)
    print(f"{passed} passed, {failed} failed")
    return 1 if failed else 0


if __name__ == "__main__":
    sys.exit(main())
