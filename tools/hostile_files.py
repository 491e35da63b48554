#!/usr/bin/env python3
"""Runs `arrowtab` on files from strangers, each run under a limit of memory and of processor time: small ones that would cost much
where an array, a schema or a dictionary were copied each time that it is named or grows; some in which a member comes many times, or many of a sort, in the time that
their size allows; some that state 2147483647 where a count or an offset stands, and hold nothing; files that are cut, that are none, or whose fault has a place; many files of 1 MB;
ends that aren't files; first rows and groups that are large; and queries from files and standard input.

    tools/hostile_files.py PROGRAM

The last line is 'N passed, M failed'."""
import json
import os
import resource
import subprocess
import sys
import tempfile

MEGABYTE = 1 << 20
INT32 = {"name": "int", "bitWidth": 32, "isSigned": True}


def text_field(name, dictionary):
    encoding = {"id": dictionary, "indexType": INT32, "isOrdered": False}
    return {"name": name, "nullable": True, "type": {"name": "utf8"}, "children": [], "dictionary": encoding}


def entry(number, texts):
    """A dictionary of so many texts, all of them empty."""
    column = {"name": "d", "count": texts, "VALIDITY": [1] * texts, "OFFSET": [0] * (texts + 1), "DATA": [""] * texts}
    return {"id": number, "data": {"count": texts, "columns": [column]}}


# ---- what would cost much


def one_dictionary():
    fields = [text_field(f"f{number}", 0) for number in range(3000)]
    return {"schema": {"fields": fields}, "dictionaries": [entry(0, 125000)], "batches": []}, 3000, 0


def long_name():
    field = {"name": "n" * 2000000, "nullable": True, "type": INT32, "children": []}
    column = {"name": "n", "count": 0, "VALIDITY": [], "DATA": []}
    return {"schema": {"fields": [field]}, "batches": [{"count": 0, "columns": [column]}] * 2000}, 1, 0


def many_dictionaries():
    fields = [text_field(f"f{number}", number) for number in range(100000)]
    return {"schema": {"fields": fields}, "dictionaries": [entry(number, 1) for number in range(100000)], "batches": []}, 100000, 0


def texts(first, end):
    """A batch of so many rows, each with a text of its own."""
    data, offsets = [f"t{number}" for number in range(first, end)], [0]
    for text in data:
        offsets.append(offsets[-1] + len(text))
    return {"count": end - first, "columns": [{"name": "s", "count": end - first, "VALIDITY": [1] * (end - first), "OFFSET": offsets, "DATA": data}]}


def growing(count, batches):
    """So many texts, and then so many batches, each of which brings one more."""
    field = {"name": "s", "nullable": True, "type": {"name": "utf8"}, "children": []}
    more = [texts(number, number + 1) for number in range(count, count + batches)]
    return {"schema": {"fields": [field]}, "batches": [texts(0, count), *more]}, 1, count + batches


# What is in the file, what makes it, megabytes of memory, seconds.
COSTS = [
    ("3,000 fields that name one dictionary of 125,000 texts", one_dictionary, 70, 4),
    ("2,000 batches without rows under a name of 2 MB", long_name, 50, 4),
    ("100,000 fields with a dictionary each", many_dictionaries, 550, 6),
    ("100,000 texts, and 400 batches with a new one each", lambda: growing(100000, 400), 150, 3),
    ("200,000 texts, and 400 batches with a new one each", lambda: growing(200000, 400), 300, 6),
]

# ---- counts that are stated

MOST = 2147483647
ITEM = {"name": "item", "nullable": True, "type": {"name": "int", "bitWidth": 8, "isSigned": True}, "children": []}
TYPES = {"int": INT32, **{name: {"name": name} for name in ("bool", "utf8", "largeutf8", "list", "largelist")}}
PLACE = "/batches/0/columns/0"


def field(name):
    return {"name": "n", "nullable": True, "type": TYPES[name], "children": [ITEM] if name in ("list", "largelist") else []}


def stated_columns():
    """The type, how many rows the batch states, the column, and what is reported of it."""
    for name in ("int", "bool", "utf8", "largeutf8"):
        yield name, MOST, {"count": MOST, "DATA": []}, f"J7 CountDiffers at {PLACE}/DATA"
        yield name, MOST, {"count": MOST, "VALIDITY": [], "DATA": []}, f"J7 CountDiffers at {PLACE}/VALIDITY"
        yield name, MOST, {"count": MOST}, f"J2 MissingMember at {PLACE}/DATA"
        yield name, 0, {"count": MOST, "DATA": []}, f"J7 CountDiffers at {PLACE}/count"
    none = {"name": "item", "count": 0, "VALIDITY": [], "DATA": []}
    most = {"name": "item", "count": MOST, "DATA": []}
    for name in ("list", "largelist"):
        yield name, MOST, {"count": MOST, "OFFSET": [], "children": [none]}, f"J7 CountDiffers at {PLACE}/OFFSET"
        yield name, MOST, {"count": MOST, "OFFSET": [0], "children": [none]}, f"J7 CountDiffers at {PLACE}/OFFSET"
        yield name, MOST, {"count": MOST, "VALIDITY": [], "OFFSET": [0], "children": [none]}, f"J7 CountDiffers at {PLACE}/VALIDITY"
        yield name, 1, {"count": 1, "OFFSET": [0, MOST], "children": [none]}, f"J10 Layout V6 OffsetPastEnd at {PLACE}"
        yield name, 1, {"count": 1, "OFFSET": [MOST, MOST], "children": [none]}, f"J10 Layout V6 OffsetPastEnd at {PLACE}"
        yield name, 0, {"count": 0, "OFFSET": [], "children": [most]}, f"J7 CountDiffers at {PLACE}/children/0/DATA"
        yield name, 1, {"count": 1, "OFFSET": [0, MOST], "children": [most]}, f"J7 CountDiffers at {PLACE}/children/0/DATA"
    yield "list", 1, {"count": 1, "OFFSET": [0, MOST + 1], "children": [none]}, f"J6 BadOffset at {PLACE}/OFFSET/1"
    yield "largelist", 1, {"count": 1, "OFFSET": [0, str(MOST + 1)], "children": [none]}, f"J10 Layout V6 OffsetPastEnd at {PLACE}"
    yield "largelist", 1, {"count": 1, "OFFSET": [0, str(2 ** 63)], "children": [none]}, f"J6 BadOffset at {PLACE}/OFFSET/1"


def stated_dictionaries():
    """The batch of a dictionary, and what is reported of it."""
    place = "/dictionaries/0/data/columns"
    yield [{"count": MOST, "DATA": []}], f"J7 CountDiffers at {place}/0/DATA"
    yield [{"count": MOST, "VALIDITY": [], "DATA": []}], f"J7 CountDiffers at {place}/0/VALIDITY"
    yield [{"count": MOST, "OFFSET": [0, MOST], "DATA": []}], f"J7 CountDiffers at {place}/0/DATA"
    yield [{"count": 0, "DATA": []}], f"J7 CountDiffers at {place}/0/count"
    yield [], f"J7 CountDiffers at {place}"


def stated_files():
    """A file that states so many, and what is reported of it."""
    for name, rows, column, wanted in stated_columns():
        yield {"schema": {"fields": [field(name)]}, "batches": [{"count": rows, "columns": [column]}]}, wanted
    schema = {"fields": [text_field("s", 7)]}
    for columns, wanted in stated_dictionaries():
        data = {"count": MOST, "columns": columns}
        yield {"schema": schema, "dictionaries": [{"id": 7, "data": data}], "batches": []}, wanted
    for rows, column, wanted in [
        (MOST, {"count": MOST, "DATA": []}, f"J7 CountDiffers at {PLACE}/DATA"),
        (1, {"count": 1, "DATA": [MOST]}, f"J10 Layout V9 IndexPastDictionary row=0 at {PLACE}"),
    ]:
        yield {"schema": schema, "dictionaries": [entry(7, 1)], "batches": [{"count": rows, "columns": [column]}]}, wanted
    yield {"schema": {"fields": [field("int")]}, "batches": [{"count": MOST, "columns": []}]}, "J7 CountDiffers at /batches/0/columns"
    yield {"schema": {"fields": []}, "batches": [{"count": MOST + 1, "columns": []}]}, "J3 WrongMember at /batches/0/count"


# ---- what comes many times

SIZE = 1000000


def compact(value):
    return json.dumps(value, separators=(",", ":"))


def members(*pairs):
    """An object of these members, whose values are texts. Several may have one name."""
    return "{" + ",".join(f'"{name}":{value}' for name, value in pairs) + "}"


def array(items):
    return "[" + ",".join(items) + "]"


def lists_of(depth):
    """A field of so many lists in one another."""
    if depth == 0:
        return {"name": "m", "nullable": True, "type": {"name": "bool"}}
    return {"name": "m", "nullable": True, "type": {"name": "list"}, "children": [lists_of(depth - 1)]}


def column_of_lists(depth):
    """A column of one such list, of true."""
    if depth == 0:
        return {"name": "m", "count": 1, "VALIDITY": [1], "DATA": [1]}
    return {"name": "m", "count": 1, "VALIDITY": [1], "OFFSET": [0, 1], "children": [column_of_lists(depth - 1)]}


def one_row():
    """A file of one row with an object of each sort, lists in one another as deep as they may be."""
    flat = [(one, {"name": one["name"], "count": 1, "VALIDITY": [1], "DATA": [0]}) for one in (field("int"), text_field("d", 0))]
    fields, columns = zip(*flat, (lists_of(8), column_of_lists(8)))
    return {"schema": {"fields": fields}, "dictionaries": [entry(0, 1)], "batches": [{"count": 1, "columns": columns}]}


STATS_OF_ONE_ROW = (
    'rows 1\nworker 0 calls 1 rows 1\n"n" int32 rows=1 nulls=0 sum=0 least=0 greatest=0\n"d" dictionary rows=1 nulls=0 sum=- least="" greatest=""\n'
    '"m" list<list<list<list<list<list<list<list<bool>>>>>>>> rows=1 nulls=0 sum=- least=- greatest=-'
)


def parts_of(value):
    """The parts of an object or an array, each with its step."""
    return value.items() if isinstance(value, dict) else enumerate(value) if isinstance(value, (list, tuple)) else ()


def objects(value, place=()):
    """Each object in a value, with its place."""
    if isinstance(value, dict):
        yield place, value
    for step, part in parts_of(value):
        yield from objects(part, (*place, step))


def with_object(value, place, text):
    """The value with this text for the object of that place."""
    if not place:
        return text
    parts = [(step, with_object(part, place[1:], text) if step == place[0] else compact(part)) for step, part in parts_of(value)]
    return members(*parts) if isinstance(value, dict) else array(part for _, part in parts)


def repeats(document):
    """Each member of each object many times, and all its members in turn: what comes, and the file. It says what the document does."""
    for place, found in objects(document):
        each = [(name, compact(value)) for name, value in found.items()]
        for name, turn in [("each", each), *((one[0], [one]) for one in each)][len(each) == 1 :]:
            text = members(*each, *turn * (SIZE // len(members(*turn))))
            yield f"{name} many times at /{'/'.join(map(str, place))}", with_object(document, place, text)


def many(item):
    """An array of as many as fill a file, each by its number."""
    return array(map(item, range(SIZE // len(item(SIZE)))))


def file_of(schema, batches, dictionaries="[]"):
    return members(("schema", schema), ("dictionaries", dictionaries), ("batches", batches))


def schema_of(*fields):
    return compact({"fields": fields})


def no_batches(first=(), last=()):
    """Batches that are none, many times, between other members."""
    return members(*first, *[("batches", "[]")] * (SIZE // 13), *last)


def names_and(*others):
    """Members that nobody asks for, and others."""
    return members(*((f"x{number}", "[]") for number in range(SIZE // 12)), *others)


def many_fields(one_name):
    return members(("fields", many(lambda number: compact({**field("int"), "name": "n" if one_name else f"n{number}"}))))


def many_flags():
    """A column of nulls, whose DATA comes many times without any, and then with all."""
    slots = SIZE // 8
    nulls = array("0" * slots)
    column = members(("count", slots), ("VALIDITY", nulls), *[("DATA", "[]")] * (SIZE // 20), ("DATA", nulls))
    return file_of(schema_of(field("int")), array([members(("count", slots), ("columns", array([column])))]))


def many_entries(number_of, first=()):
    """A field of dictionary 0, and dictionaries of some numbers."""
    count = SIZE // len(compact(entry(SIZE, 1)))
    return file_of(schema_of(text_field("d", 0)), "[]", compact([*first, *(entry(number_of(number), 1) for number in range(count))]))


SCHEMA = ("schema", schema_of())
BATCH = members(("count", 1), ("columns", compact([{"name": "n", "count": 1, "DATA": [1]}])))
# What there is much of, what makes the file, and the first line of its statistics or what is reported of it.
CROWDS = [
    ("batches before their schema", lambda: no_batches(last=[SCHEMA]), "rows 0"),
    ("batches before a long schema", lambda: no_batches(last=[("schema", many_fields(True))]), "rows 0"),
    ("batches without a schema", lambda: no_batches(), "J2 MissingMember at /schema"),
    ("batches behind long dictionaries", lambda: no_batches([SCHEMA, ("dictionaries", compact("x" * SIZE))]), "rows 0"),
    ("batches, the last of which are a number", lambda: no_batches([SCHEMA], [("batches", 1)]), "J3 WrongMember at /batches"),
    ("words that might be a schema", lambda: members(("batches", "[]"), SCHEMA, ("x", compact("schem" * (SIZE // 5)))), "rows 0"),
    ("schemas behind the file's", lambda: members(("batches", "[]"), SCHEMA, ("x", many(lambda number: '{"schema":[]}'))), "rows 0"),
    ("members that nobody asks for", lambda: names_and(SCHEMA, ("batches", "[]")), "rows 0"),
    ("members of a file at fault", lambda: names_and(SCHEMA, ("batches", 1)), "J3 WrongMember at /batches"),
    ("fields of one name", lambda: file_of(many_fields(True), "[]"), "rows 0"),
    ("fields of other names", lambda: file_of(many_fields(False), "[]"), "rows 0"),
    ("dictionaries of one number", lambda: many_entries(lambda number: 0), "J9 DictionaryTwice at /dictionaries/1/id"),
    ("dictionaries of one number behind another", lambda: many_entries(lambda number: 1, [entry(0, 1)]), "rows 0"),
    ("dictionaries of other numbers", lambda: many_entries(lambda number: number), "rows 0"),
    ("flags before no values", many_flags, f"rows {SIZE // 8}"),
    ("batches of one row", lambda: file_of(schema_of(field("int")), many(lambda number: BATCH)), f"rows {SIZE // len(BATCH)}"),
]


# ---- files whose faults have a place

A = '{"schema":{"fields":[{"name":"n","nullable":true,"type":{"name":"int","bitWidth":64,"isSigned":true},"children":[]}]},"batches":[{"count":3,"columns":[{"name":"n","count":3,"VALIDITY":[1,0,1],"DATA":["9223372036854775807","x",-1]}]}]}'
D = '{"schema":{"fields":[{"name":"s","nullable":true,"type":{"name":"utf8"},"children":[],"dictionary":{"id":7,"indexType":{"name":"int","bitWidth":8,"isSigned":true},"isOrdered":false}}]},"dictionaries":[{"id":7,"data":[{"count":4,"columns":[{"name":"x","count":4,"VALIDITY":[1,1,1,0],"OFFSET":[0,1,2,3,3],"DATA":["a","b","a",""]}]}]}],"batches":[{"count":5,"columns":[{"name":"s","count":5,"VALIDITY":[1,1,1,0,1],"DATA":[2,0,3,9,1]}]}]}'
E = '{"schema":{"fields":[{"name":"l","nullable":true,"type":{"name":"list"},"children":[{"name":"item","nullable":true,"type":{"name":"int","bitWidth":8,"isSigned":true},"children":[]}]}]},"batches":[{"count":0,"columns":[{"name":"l","count":0,"VALIDITY":[],"OFFSET":[],"children":[{"name":"item","count":0,"VALIDITY":[],"DATA":[]}]}]}]}'
STATS_OF_A = 'rows 3\nworker 0 calls 1 rows 3\n"n" int64 rows=3 nulls=1 sum=9223372036854775806 least=-1 greatest=9223372036854775807\n'
STATS_OF_D = 'rows 5\nworker 0 calls 1 rows 5\n"s" dictionary rows=5 nulls=2 sum=- least="a" greatest="b"\n'
STATS_OF_E = 'rows 0\nworker 0 calls 1 rows 0\n"l" list<int8> rows=0 nulls=0 sum=- least=- greatest=-\n'


def put(text, *pairs):
    """The text with each of these, which stand once in it, put for another."""
    for found, other in pairs:
        assert text.count(found) == 1, found
        text = text.replace(found, other)
    return text


def nested(arrays):
    return put(A, ('{"schema"', '{"x":' + "[" * arrays + "]" * arrays + ',"schema"'))


def one_list(offsets):
    return put(E, ('[{"count":0', '[{"count":1'), ('"name":"l","count":0,"VALIDITY":[],"OFFSET":[]', '"name":"l","count":1,"VALIDITY":[1],"OFFSET":' + offsets))


# What it is, the text or the bytes, and what is reported: the output, or the fault of the file, or several, one of which is reported.
FILES = [
    ("a file of three numbers", A, STATS_OF_A),
    ("a file with a dictionary", D, STATS_OF_D),
    ("a file of lists", E, STATS_OF_E),
    ("126 arrays in one another in a member that nobody asks for", nested(126), STATS_OF_A),
    ("127 of them", nested(127), "J1 NotJson"),
    ("100,000 of them", nested(100000), "J1 NotJson"),
    ("counts of 2147483647", put(A, ('[{"count":3', '[{"count":2147483647'), ('"n","count":3', '"n","count":2147483647')),
     ["J7 CountDiffers at /batches/0/columns/0/VALIDITY", "J7 CountDiffers at /batches/0/columns/0/DATA"]),
    ("a count of 2147483648", put(A, ('[{"count":3', '[{"count":2147483648')), ["J3 WrongMember at /batches/0/count", "J7 CountDiffers at /batches/0/columns/0/count"]),
    ("as many rows without columns as there may be", '{"schema":{"fields":[]},"batches":[{"count":2147483647,"columns":[]}]}', "rows 2147483647\nworker 0 calls 1 rows 2147483647\n"),
    ("a list past its child", one_list("[0,1]"), "J10 Layout V6 OffsetPastEnd at /batches/0/columns/0"),
    ("a list past what an offset holds", one_list("[0,2147483648]"), "J6 BadOffset at /batches/0/columns/0/OFFSET/1"),
    ("a dictionary that isn't wrapped in an array", put(D, ('"data":[{', '"data":{'), ('""]}]}]}]', '""]}]}}]')), STATS_OF_D),
    ("an index past the dictionary", put(D, ("[1,1,1,0,1]", "[1,1,1,1,1]")), "J10 Layout V9 IndexPastDictionary row=3 at /batches/0/columns/0"),
    ("an index that is none of its type", put(D, ("[2,0,3,9,1]", "[200,0,3,9,1]")), "J5 BadNumber at /batches/0/columns/0/DATA/0"),
    ("a dictionary of another number", put(D, ('[{"id":7', '[{"id":8')), "J8 NoDictionary at /schema/fields/0/dictionary/id"),
    ("nothing", "", "J1 NotJson"),
    ("a byte that is 0", "\0", "J1 NotJson"),
    ("half a character of two bytes", b'{"schema":{"fields":[{"name":"\xc3"}]}}', "J1 NotJson"),
    ("half a pair of surrogates", put(A, ('"name":"n","nullable"', '"name":"\\ud800","nullable"')), "J1 NotJson"),
    ("a number past all floats", put(A, ("-1]", "1e400]")), ["J1 NotJson", "J5 BadNumber at /batches/0/columns/0/DATA/2"]),
    ("a number that is no integer", put(A, ("-1]", "-1.5]")), "J5 BadNumber at /batches/0/columns/0/DATA/2"),
    ("a schema before the schema", put(A, ('{"schema":', '{"schema":{"fields":[]},"schema":')), STATS_OF_A),
    ("two documents", A + A, "J1 NotJson"),
    ("a mark of the order of bytes", "\ufeff" + A, "J1 NotJson"),
]


# What it is, a field of a column that is to be added, and what is reported.
FIELDS = [
    ("a field of eight lists", json.dumps(lists_of(8)), STATS_OF_A + '"m" ' + "list<" * 8 + "bool" + ">" * 8 + " rows=3 nulls=3 sum=- least=- greatest=-\n"),
    ("a field of nine lists", json.dumps(lists_of(9)), "J4 UnsupportedType at " + "/children/0" * 8),
    ("a field of 60 lists", json.dumps(lists_of(60)), "J4 UnsupportedType at " + "/children/0" * 8),
    ("100,000 arrays for a field", "[" * 100000, "J1 NotJson"),
    ("a field of a long name", '{"name":"' + "m" * 100000 + '","nullable":true,"type":{"name":"bool"}}',
     STATS_OF_A + '"' + "m" * 100000 + '" bool rows=3 nulls=3 sum=- least=- greatest=-\n'),
    ("two fields", "{} {}", "J1 NotJson"),
    ("no field", "", "J1 NotJson"),
]

# ---- queries from files, and standard input

COUNT = '{"aggs":[{"agg":"rows"}]}'


def negated(depth):
    """A filter of so many expressions in one another."""
    test = {"op": "is_null", "args": [{"column": "n"}]}
    for _ in range(depth - 2):
        test = {"op": "not", "args": [test]}
    return json.dumps({"filter": test, "aggs": [{"agg": "rows"}]}).encode()


# What it is, what the query's file holds, and what is reported.
QUERY_FILES = [
    ("a query that counts", COUNT.encode(), "3\n"),
    ("a query between empty lines", b"\n\n" + COUNT.encode() + b"\r\n", "3\n"),
    ("no query", b"", "J1 NotJson"),
    ("a query of a byte that is 0", b"\0", "J1 NotJson"),
    ("a query that is no text", b'{"by":["\xff"]}', "J1 NotJson"),
    ("a query that is cut", COUNT[:-1].encode(), "J1 NotJson"),
    ("two queries", COUNT.encode() * 2, "J1 NotJson"),
    ("100,000 arrays for a query", b"[" * 100000, "J1 NotJson"),
    ("a query that is an array", b"[]", "J3 WrongMember"),
    ("a query of 32 expressions in one another", negated(32), "1\n"),
    ("a query of 40", negated(40), "Q5 TooDeep"),
    ("a query of 2 MB", COUNT.encode() + b" " * 2000000, "3\n"),
]
# What it is, the words for a file and one of a query, what comes on standard input, and what is reported.
INPUTS = [
    ("the table from standard input", lambda path, query: ["stats", "-"], A.encode(), STATS_OF_A),
    ("one of its files", lambda path, query: ["validate", path, "-"], A[:100].encode(), "J1 NotJson"),
    ("nothing on standard input", lambda path, query: ["export", "-"], b"", "J1 NotJson"),
    ("a query from standard input", lambda path, query: ["query", "--query-file", "-", path], COUNT.encode(), "3\n"),
    ("an array there", lambda path, query: ["query", "--query-file", "-", path], b"[]", "J3 WrongMember"),
    ("a query from a file over it", lambda path, query: ["query", "-", "--query-file", query], A.encode(), "3\n"),
]

# ---- runs


def limited(megabytes, seconds):
    resource.setrlimit(resource.RLIMIT_AS, (megabytes * MEGABYTE,) * 2)
    resource.setrlimit(resource.RLIMIT_CPU, (seconds,) * 2)
    resource.setrlimit(resource.RLIMIT_CORE, (0, 0))


class Runs:
    def __init__(self, program, room):
        self.program, self.room = program, room
        self.passed = self.failed = 0

    def tell(self, name, fault):
        self.passed += fault is None
        self.failed += fault is not None
        if fault:
            print(f"{name}: {fault}", flush=True)

    def file(self, data):
        path = os.path.join(self.room, "file")
        with open(path, "wb") as file:
            file.write(data if isinstance(data, bytes) else data.encode())
        return path

    def run(self, names, megabytes=60, seconds=4, command=("stats",), **streams):
        streams = {"stdout": subprocess.PIPE, "stderr": subprocess.PIPE, "stdin": subprocess.DEVNULL, **streams}
        return subprocess.run([self.program, *command, *names], preexec_fn=lambda: limited(megabytes, seconds), timeout=60, **streams)

    def expect(self, name, run, path, wanted):
        """Says whether a run gave this output, or this fault of the file, or one of these."""
        given = (run.returncode, run.stdout, run.stderr)
        lawful = [outcome(path, one) for one in ([wanted] if isinstance(wanted, str) else wanted)]
        self.tell(name, None if given in lawful else f"{given[0]} {given[1][:100]!r} {given[2][:200]!r}")

    def costs(self, name, make, megabytes, seconds):
        document, columns, rows = make()
        path = self.file(json.dumps(document, separators=(",", ":")))
        with open(path + ".lines", "w+b") as out:
            run = self.run([path], megabytes, seconds, stdout=out)
            out.seek(0)
            lines = sum(1 for line in out)
            out.seek(0)
            first = out.readline()
        right = run.returncode == 0 and first == f"rows {rows}\n".encode() and lines >= columns + 1
        self.tell(name, None if right else f"status {run.returncode}, {lines} lines, {run.stderr[:200]!r}")
        print(f"{name}: within {megabytes} MB and {seconds} s", flush=True)

    def seconds(self, path):
        """A run, and its processor time."""
        before = resource.getrusage(resource.RUSAGE_CHILDREN)
        run = self.run([path], 200, 4)
        after = resource.getrusage(resource.RUSAGE_CHILDREN)
        return run, after.ru_utime - before.ru_utime + after.ru_stime - before.ru_stime

    def in_time(self, name, text, wanted, most):
        """Says whether a run told this first, in no more than so many seconds of one of three runs."""
        path = self.file(text)
        for _ in range(3):
            run, seconds = self.seconds(path)
            told = run.stdout if wanted.startswith("rows ") else run.stderr
            right = told.decode().removeprefix(f"arrowtab: {path}: ").startswith(f"{wanted}\n")
            if not right or seconds <= most:
                break
        if not right:
            self.tell(name, f"status {run.returncode}, {run.stdout[:100]!r} {run.stderr[:200]!r}")
        else:
            self.tell(name, None if seconds <= most else f"{seconds:.2f} seconds")

    def repeated(self):
        """What comes many times takes as long as its size allows: four times as long as numbers of that size, and 0.2 seconds."""
        numbers = {"name": "n", "count": SIZE // 4, "DATA": [100 + number % 900 for number in range(SIZE // 4)]}
        path = self.file(file_of(schema_of(field("int")), compact([{"count": SIZE // 4, "columns": [numbers]}])))
        most = 4 * min(self.seconds(path)[1] for _ in range(3)) + 0.2
        for name, text in repeats(one_row()):
            self.in_time(name, text, STATS_OF_ONE_ROW, most)
        at_fault = one_row()
        at_fault["batches"].append({"count": 0, "columns": []})
        for name, text in repeats(at_fault):
            if name.startswith("each "):
                self.in_time(f"{name}, of a file at fault", text, "J7 CountDiffers at /batches/1/columns", most)
        for name, make, wanted in CROWDS:
            self.in_time(name, make(), wanted, most)
        print(f"what comes many times: each within {most:.2f} s", flush=True)

    def cuts(self):
        """The file of three numbers at each cut, alone; and behind itself, cut after 100 bytes. A long one, in the memory of its bytes and its column."""
        for size in range(len(A)):
            path = self.file(A[:size])
            self.expect(f"the first {size} bytes", self.run([path]), path, "J1 NotJson")
        whole = os.path.join(self.room, "whole")
        with open(whole, "w") as file:
            file.write(A)
        path = self.file(A[:100])
        self.expect("a file, and one that is cut", self.run([whole, path]), path, "J1 NotJson")
        column = {"name": "n", "count": 1000000, "DATA": list(range(1000000))}
        document = {"schema": {"fields": [field("int")]}, "batches": [{"count": 1000000, "columns": [column]}]}
        path = self.file(json.dumps(document)[:-1])
        self.expect("a million numbers without the last brace", self.run([path], 80), path, "J1 NotJson")

    def windows(self):
        """Far more bytes of files than there is memory for: a worker's window is one file, whose bytes are gone before the next is read."""
        path = self.file(put(A, ('{"schema"', '{"x":"' + "x" * MEGABYTE + '","schema"')))
        count = 500
        wanted = f'rows {3 * count}\nworker 0 calls {count} rows {3 * count}\n"n" int64 rows={3 * count} nulls={count} sum={(2 ** 63 - 2) * count} least=-1 greatest={2 ** 63 - 1}\n'
        self.expect(f"{count} files of 1 MB", self.run([path] * count, seconds=20, command=("stats", "--workers", "1")), path, wanted)

    def ends(self):
        """Sources that can't be read, and outputs that take nothing."""
        for name in (self.room, os.path.join(self.room, "nothing"), "/proc/self/mem"):
            self.expect(f"to read {name}", self.run([name]), name, "cannot be read")
        path = self.file(A)
        with open("/dev/full", "wb") as full:
            self.expect("a full device", self.run([path], stdout=full), None, "output failed")
        read, write = os.pipe()
        os.close(read)
        self.expect("a pipe that nobody reads", self.run([path], stdout=write), None, "output failed")
        os.close(write)
        run = subprocess.run(["sh", "-c", 'exec "$0" stats "$1" >&-', self.program, path], stderr=subprocess.PIPE, timeout=60)
        self.expect("an output that is closed", run, None, "output failed")
        pipe = os.path.join(self.room, "pipe")
        os.mkfifo(pipe)
        writer = subprocess.Popen(["sh", "-c", 'printf %s "$0" > "$1"', A, pipe])
        self.expect("a pipe with a name", self.run([pipe]), pipe, STATS_OF_A)
        writer.wait()

    def columns(self):
        """Fields of a column that is to be added."""
        path = self.file(A)
        for name, field, wanted in FIELDS:
            self.expect(name, self.run(["--add-column", field, path]), "column", wanted)
        run = self.run([b"--add-column", b"\xff", path.encode()])
        self.tell("a field that is no text", None if (run.returncode, run.stdout, run.stderr) == (2, b"", b"arrowtab: bad arguments\n") else run.stderr)


    def rows(self):
        """First rows, and groups in each form."""
        path = self.file('{"schema":{"fields":[]},"batches":[{"count":2147483647,"columns":[]}]}')
        self.expect("three of as many rows as there may be", self.run([path], command=("head", "-n", "3")), path, "{}\n" * 3)
        path = self.file(json.dumps({"schema": {"fields": [lists_of(8)]}, "batches": [{"count": 1, "columns": [column_of_lists(8)]}]}))
        self.expect("a row of eight lists", self.run([path], command=("head", "-n", str(2 ** 64 - 1))), path, '{"m":' + "[" * 8 + "true" + "]" * 8 + "}\n")
        column = {"name": "s", "count": 1, "DATA": ['"' * 100000]}
        path = self.file(json.dumps({"schema": {"fields": [{"name": "s", "nullable": True, "type": {"name": "utf8"}}]}, "batches": [{"count": 1, "columns": [column]}]}))
        query = ("--query", '{"by":["s"],"aggs":[{"agg":"rows"}]}')
        self.expect("100,000 quotes as CSV", self.run([path], command=("query", *query, "--output", "csv")), path, 's,rows\r\n"' + '""' * 100000 + '",1\r\n')
        self.expect("100,000 quotes as JSON", self.run([path], command=("query", *query, "--output", "json")), path, '["' + '\\"' * 100000 + '",1]\n')
        path = self.file(A[:100])
        self.expect("rows of a file that is cut", self.run([path], command=("head",)), path, "J1 NotJson")


    def queries(self):
        """Queries that are in files."""
        path = self.file(A)
        query = os.path.join(self.room, "query")
        for name, data, wanted in QUERY_FILES:
            with open(query, "wb") as file:
                file.write(data)
            self.expect(name, self.run(["--query-file", query, path], command=("query",)), "query", wanted)
        for name in (self.room, os.path.join(self.room, "nothing"), "/proc/self/mem"):
            self.expect(f"a query from {name}", self.run(["--query-file", name, path], command=("query",)), name, "cannot be read")
        self.expect_mistake(["query", path], "query wants --query or --query-file")
        self.expect_mistake(["query", "--query", "{}", "--query-file", query, path], "--query and --query-file are two queries")

    def expect_mistake(self, words, wanted):
        """Says whether this was told of the words, and nothing was read."""
        run = self.run(words[1:], command=words[:1])
        given = (run.returncode, run.stdout, run.stderr)
        self.tell(" ".join(words), None if given == (2, b"", f"arrowtab: {wanted}\n".encode()) else f"{given[0]} {given[2][:200]!r}")

    def input(self):
        """Standard input in a file's place."""
        path = self.file(A)
        query = os.path.join(self.room, "query")
        with open(query, "w") as file:
            file.write(COUNT)
        for name, words, data, wanted in INPUTS:
            run = self.run_over(words(path, query), data)
            self.expect(name, run, "query" if wanted == "J3 WrongMember" else "-", wanted)
        with open(path, "rb") as file:
            self.expect("a file as standard input", self.run(["-"], stdin=file), "-", STATS_OF_A)
        folder = os.open(self.room, os.O_RDONLY)
        for words in (["stats", "-"], ["query", "--query-file", "-", path]):
            self.expect("a folder as standard input", self.run(words[1:], command=words[:1], stdin=folder), "-", "cannot be read")
        os.close(folder)
        run = subprocess.run(["sh", "-c", 'exec "$0" stats - <&-', self.program], stdout=subprocess.PIPE, stderr=subprocess.PIPE, timeout=60)
        self.expect("standard input that is closed", run, "-", "cannot be read")
        for words in (["stats", "-", path, "-"], ["query", "--query-file", "-", "-"], ["query", "--query-file=-", path, "--", "-"]):
            self.expect_mistake(words, "- is standard input, which is read once")

    def run_over(self, words, data):
        """A run with these bytes on standard input, which come through a pipe."""
        return subprocess.run([self.program, *words], preexec_fn=lambda: limited(60, 4), timeout=60, input=data, stdout=subprocess.PIPE, stderr=subprocess.PIPE)


def outcome(path, wanted):
    """The status of a run, its output and the line of its fault."""
    if wanted.endswith("\n"):
        return 0, wanted.encode(), b""
    line = wanted if path is None else f"{path}: {wanted}"
    return 1, b"" if path is not None else None, f"arrowtab: {line}\n".encode()


def main():
    program = os.path.abspath(sys.argv[1])
    with tempfile.TemporaryDirectory() as room:
        runs = Runs(program, room)
        for cost in COSTS:
            runs.costs(*cost)
        runs.repeated()
        for number, (document, wanted) in enumerate(stated_files()):
            path = runs.file(json.dumps(document, separators=(",", ":")))
            runs.expect(f"file {number} that states 2147483647", runs.run([path]), path, wanted)
        for name, data, wanted in FILES:
            path = runs.file(data)
            runs.expect(name, runs.run([path]), path, wanted)
        runs.cuts()
        runs.windows()
        runs.ends()
        runs.columns()
        runs.rows()
        runs.queries()
        runs.input()
    print(f"{runs.passed} passed, {runs.failed} failed")
    return 1 if runs.failed else 0


sys.exit(main())
