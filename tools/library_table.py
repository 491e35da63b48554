"""Tables that are filled in Python, and from other libraries: what comes in is what `export` has. Each case is a name and its fault, none where it is as it should
be."""
import ctypes
import ctypes.util
import importlib
import json
import os
import random
import tempfile
from concurrent.futures import ThreadPoolExecutor

from arrow_consumer import Taken, release, rows_of_stream, values as values_of
from arrow_producer import NULLABLE, Column, Exporter, Producer, Stream
from library_python import difference, raised

BATCHES = 1000
INTEGERS = {name: ((-(2 ** (bits - 1)), 2 ** (bits - 1) - 1) if name[0] == "i" else (0, 2 ** bits - 1))
            for bits in (8, 16, 32, 64) for name in (f"int{bits}", f"uint{bits}")}
ROWS = {"aggs": [{"agg": "rows"}]}


def not_tried(what):
    print(f"not tried: {what}", flush=True)


# ---- what a table holds


def values(field, column, texts):
    """The values of a column of a file. Large integers stand there as texts."""
    if field["children"]:
        items, ends = values(field["children"][0], column["children"][0], texts), [int(it) for it in column["OFFSET"]]
        found = [items[start:end] for start, end in zip(ends, ends[1:])]
    elif "dictionary" in field:
        found = [texts[field["dictionary"]["id"]][int(it)] if flag else None for it, flag in zip(column["DATA"], column["VALIDITY"])]
    else:
        read = {"int": int, "bool": bool}.get(field["type"]["name"], str)
        found = map(read, column["DATA"])
    return [it if flag else None for it, flag in zip(found, column["VALIDITY"])]


def rows_of(table):
    """All values of a table by its columns' names."""
    file = json.loads(table.export())
    texts = {it["id"]: it["data"]["columns"][0]["DATA"] for it in file.get("dictionaries", [])}
    fields = file["schema"]["fields"]
    columns = [[it for batch in file["batches"] for it in values(field, batch["columns"][place], texts)] for place, field in enumerate(fields)]
    return {field["name"]: found for field, found in zip(fields, columns)}


# ---- values by chance


def random_value(chance, kind, depth=0):
    if kind.startswith(("list", "largelist")):
        inside = kind.partition("<")[2][:-1]
        return [random_item(chance, inside, depth + 1) for _ in range(chance.randrange(4))]
    if kind in INTEGERS:
        low, high = INTEGERS[kind]
        return chance.choice([low, high, 0, chance.randint(low, high)])
    if kind == "bool":
        return chance.random() < 0.5
    return "".join(chance.choice("aé€😀 \"") for _ in range(chance.randrange(5)))


def random_item(chance, kind, depth=0):
    return None if chance.random() < 0.2 else random_value(chance, kind, depth)


KINDS = [*INTEGERS, "bool", "utf8", "largeutf8", "list<int8>", "largelist<utf8>", "list<list<bool>>", "largelist<list<largeutf8>>",
         *(f"dictionary<{name}>" for name in INTEGERS)]


def plain(kind):
    """The type that a column of dictionary indices has in a table."""
    return "utf8" if kind.startswith("dictionary<") else kind


def random_columns(chance, rows):
    """Columns with more slots than there are rows, before and behind, and what is in the rows."""
    columns, wanted, start = [], {}, chance.randrange(12)
    is_whole = chance.random() < 0.5
    for place, kind in enumerate(chance.sample(KINDS, 6)):
        has_nulls = chance.random() < 0.7
        before, behind = ([], []) if is_whole else ([random_item(chance, plain(kind)) for _ in range(count)] for count in (start, chance.randrange(5)))
        items = [random_item(chance, plain(kind)) if has_nulls else random_value(chance, plain(kind)) for _ in range(rows)]
        columns.append(Column(f"c{place}", kind, before + items + behind, chance.randrange(20), chance.random() < 0.5, chance.random() < 0.5))
        wanted[f"c{place}"] = items
    return columns, wanted, 0 if is_whole else start


def schema_of(columns):
    return {column.name: plain(column.kind) for column in columns}


# ---- columns of lists and arrays


def list_cases(selqumar):
    """Lists of values, of each type."""
    chance = random.Random(1)
    for kind in [it for it in KINDS if not it.startswith("dictionary")]:
        items = [random_item(chance, kind) for _ in range(100)]
        with selqumar.Table({"v": kind}) as table:
            counts = table.append({"v": items[:40]}), table.append({"v": iter(items[40:])}, worker=3)
            yield f"a list of {kind}", difference((counts, rows_of(table)), ((40, 60), {"v": items}))
            yield f"workers of {kind}", difference([(it.batches, it.rows) for it in table.stats().workers], [(1, 40), (0, 0), (0, 0), (1, 60)])
    with selqumar.Table({"a": "int8", "b": selqumar.Field("utf8", nullable=False)}) as table:
        table.append({"b": ["x"], "a": [1]})
        before = table.export()
        for what, data, wanted in [
            ("another column", {"a": [1], "c": ["x"]}, "ValueError"), ("a column less", {"a": [1]}, "ValueError"), ("no rows", 3, "TypeError"),
            ("a number past its type", {"a": [128], "b": ["x"]}, "OverflowError"), ("a text for a number", {"a": ["1"], "b": ["x"]}, "TypeError"),
            ("a number for a text", {"a": [1], "b": [1]}, "TypeError"), ("a text for a list", {"a": "1", "b": ["x"]}, "TypeError"),
            ("a part of a character", {"a": [1], "b": ["\ud800"]}, "UnicodeEncodeError"), ("another length", {"a": [1, 2], "b": ["x"]}, "Fault"),
            ("a null that may not be", {"a": [1], "b": [None]}, "Fault"),
        ]:
            yield f"{what} is refused", difference((raised(table.append, data) or ("nothing",))[0], wanted)
        yield "a worker that there isn't", difference((raised(table.append, {"a": [1], "b": ["x"]}, 64) or ("nothing",))[0], "ValueError")
        yield "what was refused left no trace", difference(table.export(), before)
    yield "no such type", difference((raised(selqumar.Table, {"a": "float"}) or ("nothing",))[0], "TypeError")
    yield "no schema", difference((raised(selqumar.Table, ["a"]) or ("nothing",))[0], "TypeError")


def fault_cases(selqumar):
    """A fault's fields."""
    with selqumar.Table({"a": selqumar.Field("int8", nullable=False)}) as table:
        try:
            table.append({"a": [1, None]})
            yield "the fault of a null", "there is none"
        except selqumar.Fault as fault:
            yield "the fault of a null", difference((fault.code, fault.column, fault.row, fault.file, fault.path), ("A2", 0, 1, None, None))
        try:
            table.query({"by": ["b"]})
            yield "the fault of a query", "there is none"
        except selqumar.Fault as fault:
            yield "the fault of a query", difference((fault.code, fault.column), ("Q1", None))


def change_cases(selqumar):
    """Columns that are added, batches that are joined, and answers between."""
    with selqumar.Table({"a": "int32"}) as table:
        for number in range(5):
            table.append({"a": [number, None]}, worker=number % 2)
        table.add_column("b", "list<utf8>")
        table.append({"a": [7], "b": [["x", None]]})
        wanted = {"a": [0, None, 1, None, 2, None, 3, None, 4, None, 7], "b": [None] * 10 + [["x", None]]}
        yield "a column that is added", difference(rows_of(table), wanted)
        before = table.export(), table.stats_text()
        table.compact(4)
        yield "batches that are joined", difference((table.export(), table.stats_text()), before)
        yield "a query", difference(table.query({"aggs": [{"agg": "sum", "column": "a"}, {"agg": "count", "column": "a"}]}), [[17, 6]])
        yield "repr", difference(repr(table), "<selqumar.Table of 11 rows: a, b>")
        shown = table._repr_html_()
        yield "a table for a notebook", difference((shown.count("<tr>"), "<td>list&lt;utf8&gt;</td>" in shown), (3, True))
        yield "a column of a type that isn't", difference((raised(table.add_column, "c", "date") or ("nothing",))[0], "TypeError")
    yield "what is closed", difference((raised(table.append, {"a": [1]}) or ("nothing",))[0], "ValueError")


def numpy_cases(selqumar):
    """Arrays of numpy, masked ones, and frames of pandas."""
    try:
        numpy = importlib.import_module("numpy")
    except ImportError:
        not_tried("numpy")
        return
    for kind, (low, high) in INTEGERS.items():
        array = numpy.array([low, 0, 1, high], dtype=kind)
        masked = numpy.ma.array(array, mask=[False, True, False, False])
        with selqumar.Table({"v": kind}) as table:
            table.append({"v": array})
            table.append({"v": masked})
            table.append({"v": array[::-2]})
            yield f"an array of {kind}", difference(rows_of(table)["v"], [low, 0, 1, high, low, None, 1, high, high, 0])
    with selqumar.Table({"v": "int8"}) as table:
        table.append({"v": numpy.array([1, -1], dtype=">i8")})
        yield "wider numbers", difference(rows_of(table)["v"], [1, -1])
        for what, array in (("numbers past the type", numpy.array([300])), ("floats", numpy.array([1.5])), ("two dimensions", numpy.zeros((2, 2), dtype="int8"))):
            yield f"{what} are refused", difference((raised(table.append, {"v": array}) or ("nothing",))[0] in ("OverflowError", "TypeError"), True)
    with selqumar.Table({"b": "bool", "t": "utf8"}) as table:
        table.append({"b": numpy.array([True, False]), "t": numpy.array(["x", "é"])})
        table.append({"b": numpy.ma.array([True, False], mask=[True, False]), "t": numpy.array(["x", None], dtype=object)})
        yield "truth values and texts", difference(rows_of(table), {"b": [True, False, None, False], "t": ["x", "é", "x", None]})
    try:
        pandas = importlib.import_module("pandas")
    except ImportError:
        not_tried("pandas")
        return
    frame = pandas.DataFrame({"n": pandas.array([1, None, 3], dtype="Int64"), "t": ["x", None, "y"], "b": [True, False, True], "i": [1, 2, 3]})
    with selqumar.Table({"n": "int64", "t": "utf8", "b": "bool", "i": "int64"}) as table:
        table.append(frame)
        yield "a frame of pandas", difference(rows_of(table), {"n": [1, None, 3], "t": ["x", None, "y"], "b": [True, False, True], "i": [1, 2, 3]})


# ---- other libraries


def array_cases(selqumar):
    """Batches in every form of the C data interface, each released by whoever made it and not by the table."""
    chance = random.Random(2)
    for number in range(BATCHES):
        rows = chance.choice([0, 1, 7, 8, 9, 30])
        columns, wanted, start = random_columns(chance, rows)
        producer = Producer()
        schema, batch = producer.schema(columns), producer.batch(columns, rows, start)
        with selqumar.Table(Exporter(schema)) as table:
            count = table.append(Exporter(schema, batch))
            fault = difference((count, rows_of(table)), (rows, wanted)) or difference(producer.released, {"schema": 0, "array": 0, "stream": 0})
        if fault:
            yield f"batch {number} by chance of {[it.kind for it in columns]}", fault
    yield f"{BATCHES} batches by chance", None


def stream_cases(selqumar):
    """Streams: what they give is released once, whatever comes of it."""
    good = [Column("a", "int32", [1, None, 3]), Column("t", "dictionary<int8>", ["x", "y", "x"])]
    bad = [Column("a", "int32", [1]), Column("t", "utf8", ["x", "y", "x"])]

    def stream(producer, *batches, code=0):
        return producer.stream(lambda: producer.schema(good), [lambda columns=columns: producer.batch(columns, 3) for columns in batches], code)

    for what, batches, code, wanted in [
        ("no batch", [], 0, (0, [])), ("three batches", [good] * 3, 0, (9, [1, None, 3] * 3)), ("a failure", [good], 5, ("E6", 1, [1, None, 3])),
        ("a batch that is refused", [good, good, bad, good], 0, ("E4", 2, [1, None, 3] * 2)),
    ]:
        producer = Producer()
        with selqumar.Table({"a": "int32", "t": "utf8"}) as table:
            try:
                found = table.append(Exporter(stream=stream(producer, *batches, code=code))),
            except selqumar.Fault as fault:
                found = fault.code, fault.batch
            read = len(batches[:batches.index(bad) + 1]) if bad in batches else len(batches)
            yield f"a stream of {what}", difference((*found, rows_of(table)["a"]), wanted)
            yield f"a stream of {what}: what is released", difference(producer.released, {"schema": 1, "array": read, "stream": 1})
    producer = Producer()
    with selqumar.Table.of(Exporter(stream=stream(producer, good, good))) as table:
        yield "a table of a stream", difference(rows_of(table), {"a": [1, None, 3] * 2, "t": ["x", "y", "x"] * 2})


def shape_cases(selqumar):
    """What no batch is."""
    good = [Column("a", "int32", [1, 2, 3])]
    producer = Producer()

    def refused(change):
        schema, batch = producer.schema(good), producer.batch(good, 3)
        change(schema, batch, batch.children[0].contents)
        with selqumar.Table({"a": "int32"}) as table:
            table.append({"a": [1]})
            before = table.export()
            told = raised(table.append, Exporter(schema, batch))
            return (told or ("", ""))[1], table.export() == before

    def set_(thing, name, value):
        setattr(thing, name, value)

    second_is_null = ctypes.create_string_buffer(b"\x05")
    null_row = (ctypes.c_void_p * 1)(ctypes.addressof(second_is_null))
    for what, change, line in [
        ("no struct", lambda s, b, a: set_(s, "format", b"i"), "arrowtab: E1 NotStruct column=0"),
        ("a row that is null", lambda s, b, a: (set_(b, "null_count", -1), set_(b, "buffers", null_row)), "arrowtab: E2 NullRow row=1"),
        ("no children", lambda s, b, a: set_(b, "n_children", 0), "arrowtab: E3 ChildrenDiffer column=0"),
        ("a column that is short", lambda s, b, a: set_(a, "length", 2), "arrowtab: E4 TooShort column=0"),
        ("a length below 0", lambda s, b, a: set_(a, "length", -1), "arrowtab: E5 OutOfRange column=0"),
        ("an offset below 0", lambda s, b, a: set_(a, "offset", -1), "arrowtab: E5 OutOfRange column=0"),
        ("an offset past all", lambda s, b, a: set_(b, "offset", 2 ** 62), "arrowtab: E5 OutOfRange column=0"),
        ("a batch of a length below 0", lambda s, b, a: set_(b, "length", -1), "arrowtab: E5 OutOfRange column=0"),
    ]:
        yield what, difference(refused(change), (line, True))


def gdal_cases(selqumar, room):
    """A layer of GDAL, by its own stream."""
    names = [name for name in (ctypes.util.find_library("gdal"),) if name]
    if not names:
        not_tried("GDAL")
        return
    gdal = ctypes.CDLL(names[0])
    gdal.GDALAllRegister()
    path = os.path.join(room, "cities.csv")
    with open(path, "w", encoding="utf-8") as file:
        file.write("city,people\nLisbon,545923\nBraga,193324\nÉvora,53591\n")
    gdal.GDALOpenEx.restype, gdal.GDALOpenEx.argtypes = ctypes.c_void_p, [ctypes.c_char_p, ctypes.c_uint, *[ctypes.c_void_p] * 3]
    gdal.GDALDatasetGetLayer.restype, gdal.GDALDatasetGetLayer.argtypes = ctypes.c_void_p, [ctypes.c_void_p, ctypes.c_int]
    gdal.OGR_L_GetArrowStream.argtypes = [ctypes.c_void_p, ctypes.c_void_p, ctypes.c_void_p]
    gdal.OGR_L_GetArrowStream.restype = ctypes.c_bool
    gdal.GDALClose.argtypes = [ctypes.c_void_p]
    of_file = (ctypes.c_char_p * 2)(b"AUTODETECT_TYPE=YES", None)
    of_stream = (ctypes.c_char_p * 3)(b"INCLUDE_FID=NO", b"MAX_FEATURES_IN_BATCH=2", None)
    source = gdal.GDALOpenEx(path.encode(), 4, None, of_file, None)
    stream = Stream()
    if not source or not gdal.OGR_L_GetArrowStream(gdal.GDALDatasetGetLayer(source, 0), ctypes.byref(stream), of_stream):
        not_tried("a stream of GDAL")
        return
    with selqumar.Table.of(Exporter(stream=stream)) as table:
        yield "a layer of GDAL", difference(rows_of(table), {"city": ["Lisbon", "Braga", "Évora"], "people": [545923, 193324, 53591]})
    yield "the stream of GDAL is released", difference(bool(stream.release), False)
    gdal.GDALClose(source)


# ---- columns out


def out_cases(selqumar):
    """Streams of a table and of snapshots: what comes out is what is there, also once the table is gone."""
    chance = random.Random(3)
    for kind in [it for it in KINDS if not it.startswith("dictionary")]:
        items = [random_item(chance, kind) for _ in range(40)]
        with selqumar.Table({"v": kind, "n": "int8"}) as table:
            table.append({"v": items[:9], "n": range(9)})
            table.append({"v": items[9:], "n": range(31)})
            yield f"a stream of {kind}", difference(rows_of_stream(table), {"v": items, "n": [*range(9), *range(31)]})
            with selqumar.Table.of(table) as copy:
                yield f"a table of a table of {kind}", difference((rows_of(copy), copy.stats().columns), (rows_of(table), table.stats().columns))
    schema = {"a": selqumar.Field("utf8", nullable=False), "b": "largelist<list<bool>>"}
    with selqumar.Table(schema) as table:
        taken = Taken(table)
        fields = [(it.name, it.format, it.flags) for it in taken.fields()]
        yield "a stream without a batch", difference((fields, len(list(taken.batches()))), ([(b"a", b"i", 0), (b"b", b"+L", NULLABLE)], 0))
        taken.close()
    with selqumar.Table({}) as table:
        yield "a stream without a column", difference(rows_of_stream(table), {})
    with selqumar.Table({"a\0b": "int8"}) as table:
        yield "a name with a zero byte", difference((raised(rows_of_stream, table) or ("nothing",))[0], "AssertionError")


def snapshot_cases(selqumar):
    """Snapshots: each shows what was there, and stays when the table goes on or is closed."""
    table = selqumar.Table({"a": "int32", "t": "utf8"})
    table.append({"a": [1, None], "t": ["x", "y"]}, worker=1)
    with table.snapshot() as snapshot, table.snapshot() as other:
        taken = Taken(snapshot)
        table.append({"a": [3], "t": ["x"]})
        table.add_column("b", "bool")
        table.compact()
        wanted = {"a": [1, None], "t": ["x", "y"]}
        yield "a snapshot", difference((rows_of(snapshot), rows_of_stream(snapshot), snapshot.query(ROWS)), (wanted, wanted, [[2]]))
        yield "its statistics", difference([(it.batches, it.rows) for it in snapshot.stats().workers], [(0, 0), (1, 2)])
        yield "its table", difference(rows_of_stream(table), {"a": [1, None, 3], "t": ["x", "y", "x"], "b": [None] * 3})
        yield "repr of a snapshot", difference(repr(snapshot), "<selqumar.Snapshot of 2 rows: a, t>")
        batches = list(taken.batches())
        table.close()
        snapshot.close()
        found = [values_of(field, batches[0].children[place].contents) for place, field in enumerate(taken.fields())]
        yield "a batch that outlives its table", difference((len(batches), found), (1, [[1, None], ["x", "y"]]))
        with ThreadPoolExecutor(1) as threads:
            threads.submit(release, batches[0]).result()
        taken.close()
        yield "another snapshot", difference(rows_of_stream(other), wanted)
    yield "a snapshot that is closed", difference((raised(snapshot.query, ROWS) or ("nothing",))[0], "ValueError")
    yield "a stream of what is closed", difference((raised(table.__arrow_c_stream__) or ("nothing",))[0], "ValueError")
    yield "a snapshot of what is closed", difference((raised(table.snapshot) or ("nothing",))[0], "ValueError")


def answer_cases(selqumar):
    """Answers as tables: the rows of the groups."""
    chance = random.Random(4)
    for kind in [*INTEGERS, "bool", "utf8", "largeutf8"]:
        items = [random_item(chance, kind) for _ in range(60)]
        with selqumar.Table({"k": kind, "n": "int16"}) as table:
            table.append({"k": items, "n": [None, 1, 2] * 20})
            aggs = [{"agg": "rows"}, *({"agg": agg, "column": "n"} for agg in ("count", "sum", "least", "greatest")), {"agg": "least", "column": "k"}]
            query = {"filter": {"op": "not", "args": [{"op": "is_null", "args": [{"column": "n"}]}]}, "by": ["k"], "aggs": aggs}
            groups = table.query(query)
            with table.answer(query) as answer:
                found = rows_of_stream(answer)
                names = ["k", "rows", "count(n)", "sum(n)", "least(n)", "greatest(n)", "least(k)"]
                yield f"an answer by {kind}", difference((list(found), [list(row) for row in zip(*found.values())]), (names, groups))
                types = [column.type for column in answer.stats().columns]
                plain_ = "largeutf8" if kind == "utf8" else kind
                yield f"its types by {kind}", difference(types, [plain_, "int64", "int64", "int64", "int16", "int16", plain_])
                yield f"an answer that is asked by {kind}", difference(answer.query(ROWS), [[len(groups)]])
    with selqumar.Table({"u": "uint64"}) as table:
        aggs = {"aggs": [{"agg": "sum", "column": "u"}, {"agg": "greatest", "column": "u"}]}
        for rows in ([], [2 ** 63], [2 ** 64 - 1]):
            table.append({"u": rows})
            total, greatest = table.query(aggs)[0]
            wanted = {"sum(u)": [total if total is None or total < 2 ** 63 else str(total)], "greatest(u)": [greatest]}
            yield f"a sum of {total}", difference(rows_of_stream(table.answer(aggs)), wanted)
        with selqumar.Table({"n": "int32"}) as many:
            many.append({"n": range(70000)})
            yield "an answer of more groups than 16 bits count", difference(rows_of_stream(many.answer({"by": ["n"], "aggs": [{"agg": "rows"}]})), {"n": [*range(70000)], "rows": [1] * 70000})
        yield "an answer without a group", difference(rows_of_stream(table.answer({"filter": {"op": "lt", "args": [{"column": "u"}, {"int": 0}]}, "by": ["u"]})), {"u": []})
        yield "a query that is refused", difference((raised(table.answer, {"by": ["v"]}) or ("", ""))[1], "arrowtab: query: Q1 NoColumn")
    yield "an answer of what is closed", difference((raised(table.answer, aggs) or ("nothing",))[0], "ValueError")


def reader_cases(selqumar):
    """Threads that read snapshots of their own while another appends: each is a front of the table."""
    with selqumar.Table({"n": "int32"}) as table:
        def read(snapshot):
            with snapshot:
                return rows_of_stream(snapshot)["n"] == list(range(snapshot.stats().rows))

        with ThreadPoolExecutor(4) as threads:
            found = []
            for number in range(200):
                table.append({"n": [number]})
                found.append(threads.submit(read, table.snapshot()))
            yield "readers beside an append", difference([it.result() for it in found].count(True), 200)


def pyarrow_cases(selqumar):
    try:
        pyarrow = importlib.import_module("pyarrow")
    except ImportError:
        not_tried("pyarrow")
        return
    data = {"city": ["Lisbon", None, "Braga"], "people": [545923, 1, None], "stops": [["x"], [], None]}
    with selqumar.Table.of(pyarrow.table(data)) as table:
        table.append(pyarrow.record_batch(data))
        yield "a table of pyarrow", difference(rows_of(table), {name: items * 2 for name, items in data.items()})
        yield "a table for pyarrow", difference(pyarrow.table(table).to_pydict(), {name: items * 2 for name, items in data.items()})


# ---- nodes that lie


def hostile_cases(selqumar):
    """Nodes that no library hands in: each is told, and changes nothing."""
    columns, library = selqumar._columns, selqumar._library
    tried = 0
    with selqumar.Table({"n": "int32", "t": "utf8", "l": "list<int8>"}) as table:
        table.append({"n": [1], "t": ["x"], "l": [[1]]})
        before = table.export()
        parts = columns.parts_of_columns([("n", "int32", [1, None, 3]), ("t", "utf8", ["a", "é", None]), ("l", "list<int8>", [[1], [2, 3], []])])
        for place, field, value in changes(library.Bytes, parts):
            with columns.nodes(parts) as nodes:
                setattr(nodes[place], field, value)
                found = outcome(library, table, 3, nodes, len(parts))
            tried += 1
            if not found or table.export() != before:
                yield f"{field} of node {place} is {value!r:.60}", "it was taken" if not found else "it left a trace"
        for rows, count in [(0, 4), (2, 4), (4, 4), (2 ** 32 - 1, 4), (3, 0), (3, 1), (3, 2), (3, 3)]:
            with columns.nodes(parts) as nodes:
                found = outcome(library, table, rows, nodes, count)
            tried += 1
            if not found or table.export() != before:
                yield f"{rows} rows of {count} nodes", "they were taken" if not found else "they left a trace"
        with columns.nodes(parts) as nodes:
            yield "nodes that don't lie", difference(outcome(library, table, 3, nodes, len(parts)), None)
        # A dictionary lies in a list, and a column has more rows than the batch: the list's fault is told.
        inside = columns.parts_of_columns([("l", "list<int32>", [[0], [1], []]), ("t", "utf8", ["a", "b"]), ("n", "int32", [1, 2, 3, 4])])
        with columns.nodes(inside) as nodes:
            nodes[1].dictionary = 1
            yield "an array's fault before a batch's", difference(outcome(library, table, 3, nodes, len(inside)), "arrowtab: X6 Layout column=0: V10 ChildDiffers")
    yield "wrong nodes", None if tried >= 200 else f"only {tried}"


def changes(bytes_, parts):
    """Fields of nodes, and other values of them."""
    kept = []

    def lent(data):
        kept.append(ctypes.create_string_buffer(data, max(len(data), 1)))
        return bytes_(ctypes.addressof(kept[-1]), len(data))

    for place, part in enumerate(parts):
        for value in (0, 1, 2, 4, 5, 100, 2 ** 31 - 1, 2 ** 31, 2 ** 32 - 1, 2 ** 32 + 3, 2 ** 63, 2 ** 64 - 1):
            if value != part.length:
                yield place, "length", value
        for value in (0, 1, 2, 3, 4, 2 ** 32, 2 ** 32 + part.null_count, 2 ** 63):
            if value != part.null_count:
                yield place, "null_count", value
        for value in (0, 1, 2, 3, 2 ** 32, 2 ** 32 + 1, 2 ** 63):
            if value != part.children:
                yield place, "children", value
        yield place, "dictionary", 1
        for text in (b"", b"f", b"g", b"z", b"n", b"+s", b"+w:3", b"tdD", b"vu", b"\xff", b"u\0", b"ll", b"c" * 100):
            yield place, "format", lent(text)
        if part.name != "item":
            for text in (b"", b"x", b"\xff", b"\xed\xa0\x80"):
                yield place, "name", lent(text)
        if len(part.first) > 1:
            yield place, "first", lent(b"")
            yield place, "first", lent(bytes(memoryview(part.first).cast("B"))[:-1])
            if part.format in "u+l":
                for ends in ((1, 1, 3, 3), (0, 2, 1, 3), (0, 1, 3, 9), (0, -1, 3, 3), (2 ** 31 - 1,) * 4, (0, 2, 3, 3)):
                    # Offsets may begin above 0, and lists of other lengths are lists too.
                    if ends != (1, 1, 3, 3) and (part.format == "u" or ends != (0, 2, 3, 3)):
                        yield place, "first", lent(b"".join(it.to_bytes(4, "little", signed=True) for it in ends))
        if part.format == "u":
            for data in (b"", b"a", b"a\xff\xff", b"\xc3\xa9a"):
                yield place, "second", lent(data)
        yield place, "validity", lent(b"\0")


def outcome(library, table, rows, nodes, count):
    """The fault of an append, none where there is none."""
    try:
        table._rooms.text("selqumar_append", ctypes.byref(table._handle), 0, rows, nodes, count)
    except library.Fault as fault:
        return str(fault)
    except MemoryError:
        return "memory"
    return None


def cases(selqumar):
    with tempfile.TemporaryDirectory() as room:
        yield from list_cases(selqumar)
        yield from fault_cases(selqumar)
        yield from change_cases(selqumar)
        yield from numpy_cases(selqumar)
        yield from array_cases(selqumar)
        yield from stream_cases(selqumar)
        yield from shape_cases(selqumar)
        yield from out_cases(selqumar)
        yield from snapshot_cases(selqumar)
        yield from answer_cases(selqumar)
        yield from reader_cases(selqumar)
        yield from gdal_cases(selqumar, room)
        yield from pyarrow_cases(selqumar)
        yield from hostile_cases(selqumar)
