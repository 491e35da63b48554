"""What no proof covers of Python's module: memory that changes, capsules that several threads take, streams that block or fail, forks, interrupts, slices. Each case is
a name and its fault, none where it is as it should be. What may end the process runs in one of its own, over this file: `library_edges.py CASE`."""
import ctypes
import gc
import importlib
import json
import mmap
import multiprocessing
import os
import random
import signal
import subprocess
import sys
import tempfile
import threading
import time

TOP = os.path.dirname(os.path.dirname(os.path.abspath(__file__)))
SECONDS = 60
ROWS = {"aggs": [{"agg": "rows"}]}
SUMS = {"aggs": [{"agg": "rows"}, {"agg": "sum", "column": "n"}]}


def difference(found, wanted):
    return None if found == wanted else f"{found!r:.300} and not {wanted!r:.300}"


def raised(run, *words, **named):
    """The name and the text of what a call raises, none where it answers."""
    try:
        run(*words, **named)
    except BaseException as fault:
        return type(fault).__name__, str(fault)
    return "nothing", ""


def together(*tasks):
    """What each task gives, each in a thread, or raises."""
    found = [None] * len(tasks)

    def run(place, task):
        try:
            found[place] = task()
        except BaseException as fault:
            found[place] = type(fault).__name__, str(fault)

    threads = [threading.Thread(target=run, args=it, daemon=True) for it in enumerate(tasks)]
    for thread in threads:
        thread.start()
    for thread in threads:
        thread.join(SECONDS)
    return found


# ---- in a process of their own, each prints what is wanted


def texts_file(rows):
    field = {"name": "t", "nullable": True, "type": {"name": "utf8"}, "children": []}
    texts = [f"é€x{number}" for number in range(rows)]
    column = {"name": "t", "count": rows, "VALIDITY": [1] * rows, "DATA": texts}
    return json.dumps({"schema": {"fields": [field]}, "batches": [{"count": rows, "columns": [column]}]}, ensure_ascii=False).encode()


def run_changing(selqumar):
    """Files in a bytearray, a view and a mapping that other threads write to, byte by byte."""
    good = texts_file(300)
    with tempfile.TemporaryFile() as file:
        file.write(good)
        file.flush()
        mapped = mmap.mmap(file.fileno(), len(good))
        held = bytearray(good)
        files = [held, memoryview(held), memoryview(held).toreadonly(), mapped]
        is_over = threading.Event()

        def change(chance):
            while not is_over.is_set():
                place = chance.randrange(len(good))
                for data in (held, mapped):
                    data[place] = chance.choice(b'\xff\x80"\\\xf0\x00a, ')
                    data[place] = good[place]

        sys.setswitchinterval(1e-6)
        threads = [threading.Thread(target=change, args=(random.Random(it),)) for it in range(2)]
        for thread in threads:
            thread.start()
        end, found = time.monotonic() + 6, 0
        while time.monotonic() < end:
            for data in files:
                try:
                    with selqumar.Table.of_files([data]) as table:
                        json.loads(table.export())
                        found += len(table.query({"by": ["t"]})) > 0
                except selqumar.Fault:
                    found += 1
        is_over.set()
        for thread in threads:
            thread.join()
    print("changed", found > 0)


def run_capsule_name(selqumar):
    """The name of a capsule outlives the module."""
    get_name = ctypes.PYFUNCTYPE(ctypes.c_char_p, ctypes.py_object)(("PyCapsule_GetName", ctypes.pythonapi))
    with selqumar.Table({"a": "int8"}) as table:
        capsule = table.__arrow_c_stream__()
    for name in [it for it in sys.modules if it.startswith("selqumar")]:
        del sys.modules[name]
    del selqumar, table
    gc.collect()
    kept = ["".join(chr(86) for _ in range(18)) for _ in range(10000)]
    print(get_name(capsule).decode(), len(kept))


def run_shared_prototypes(selqumar):
    """What others set on Python's functions doesn't count."""
    api = ctypes.pythonapi
    api.PyObject_GetBuffer.argtypes, api.PyBuffer_Release.argtypes = [ctypes.c_int] * 3, [ctypes.c_double]
    api.PyCapsule_New.restype = api.PyCapsule_GetPointer.restype = ctypes.c_int
    with selqumar.Table({"a": "int8"}) as table, selqumar.Table({"a": "int8"}) as other:
        table.append({"a": [1, 2]})
        print(other.append(table), selqumar.stats(b'{"schema":{"fields":[]},"batches":[]}').rows)


def run_fork(selqumar):
    """In a child a table is closed where another thread was in a call of it. Its parent goes on, and the other tables too."""
    is_in, may_go = threading.Event(), threading.Event()

    class Blocks(dict):
        """Columns that wait once they are asked for."""

        def __getitem__(self, name):
            is_in.set()
            may_go.wait(SECONDS)
            return super().__getitem__(name)

    table, other = selqumar.Table({"n": "int8"}), selqumar.Table({"n": "int8"})
    other.append({"n": [1]})
    thread = threading.Thread(target=table.append, args=(Blocks(n=[1, 2]),))
    thread.start()
    is_in.wait(SECONDS)
    child = os.fork()
    if not child:
        signal.alarm(SECONDS)
        kind, text = raised(table.query, ROWS)
        is_right = (kind, "forked" in text, table.closed, repr(table)) == ("ValueError", True, True, "<selqumar.Table, closed>")
        table.close()
        os._exit(0 if is_right and other.query(ROWS) == [[1]] and other.append({"n": [2]}) == 1 else 1)
    may_go.set()
    thread.join()
    print(os.waitstatus_to_exitcode(os.waitpid(child, 0)[1]), table.query(ROWS), other.query(ROWS))


def run_pool(selqumar):
    """Children that are forked beside threads that ask."""
    table = selqumar.Table({"n": "int64"})
    table.append({"n": range(100000)})
    is_over = threading.Event()

    def ask():
        while not is_over.is_set():
            table.query(ROWS)

    threads = [threading.Thread(target=ask) for _ in range(3)]
    for thread in threads:
        thread.start()
    with multiprocessing.get_context("fork").Pool(4) as pool:
        found = pool.map(asked_in_child, range(20))
    is_over.set()
    for thread in threads:
        thread.join()
    print(set(found) == {3}, table.query(ROWS))


def asked_in_child(_):
    import selqumar
    with selqumar.Table({"n": "int8"}) as table:
        table.append({"n": [1, 2, 3]})
        return table.query(ROWS)[0][0]


def run_interrupt(selqumar):
    """Ctrl-C ends a stream without an end, between two batches. Those before stay."""
    from arrow_producer import Column, Exporter, Producer
    columns = [Column("n", "int8", [1])]
    producer = Producer()
    source = endless(producer, columns, lambda _: None)
    table = selqumar.Table({"n": "int8"})
    folder = os.path.dirname(selqumar.__file__)

    def interrupt(_, frame):
        """As Ctrl-C. What is raised in a producer of ctypes, or where a part is let go of, is lost there, so that it waits for other lines of the module."""
        if os.path.dirname(frame.f_code.co_filename) == folder and frame.f_code.co_name not in ("let_go", "__del__"):
            signal.setitimer(signal.ITIMER_REAL, 0)
            raise KeyboardInterrupt

    signal.signal(signal.SIGALRM, interrupt)
    signal.setitimer(signal.ITIMER_REAL, 0.5, 0.001)
    began = time.monotonic()
    kind, _ = raised(table.append, Exporter(stream=source))
    rows = table.query(ROWS)[0][0]
    released = producer.released
    print(kind, time.monotonic() - began < 5, rows > 0, rows == table.stats().batches, released["array"] - rows in (0, 1), released["schema"], released["stream"])


def endless(producer, columns, before):
    """A stream without an end, in which this is called before each batch."""
    from arrow_producer import GET_NEXT, GET_SCHEMA, LAST_ERROR, Array, Schema, Stream

    def get_schema(_, out):
        ctypes.memmove(out, ctypes.byref(producer.schema(columns)), ctypes.sizeof(Schema))
        return 0

    def get_next(_, out):
        code = before(out) or 0
        if not code:
            ctypes.memmove(out, ctypes.byref(producer.batch(columns, columns[0].length)), ctypes.sizeof(Array))
        return code

    made = Stream(GET_SCHEMA(get_schema), GET_NEXT(get_next), LAST_ERROR(lambda _: b"the disk\nis on /fire column=3"), producer._on_stream)
    producer.kept.append(made)
    return made


def memory():
    """The bytes that the process has in memory."""
    with open("/proc/self/statm", encoding="ascii") as file:
        return int(file.read().split()[1]) * os.sysconf("SC_PAGE_SIZE")


def run_slices(selqumar):
    """A column in slices takes as much memory as all of it at once."""
    from arrow_producer import Column, Exporter, Producer
    rows, slices = 100000, 100
    for kind, values in (("utf8", ["0123456789"] * rows), ("largeutf8", ["0123456789"] * rows), ("list<int8>", [[1] * 10] * rows), ("list<list<int8>>", [[[1] * 10]] * rows),
                         ("dictionary<int32>", [f"word {number}" for number in range(rows)])):
        producer = Producer()
        column = Column("v", kind, values)
        schema, taken = producer.schema([column]), []
        for count in (slices, 1):
            before, began = memory(), time.process_time()
            with selqumar.Table(Exporter(schema)) as table:
                for number in range(count):
                    table.append(Exporter(schema, producer.batch([column], rows // count, number * rows // count)))
                taken.append((memory() - before, time.process_time() - began))
                if table.query(ROWS) != [[rows]]:
                    print(f"{kind}: other rows")
        more = [one - other for one, other in zip(*taken)]
        if more[0] > 16 << 20:
            print(f"{kind}: {taken}")
    print("slices")


ALONE = {
    "changing": (run_changing, "changed True\n"),
    "capsule_name": (run_capsule_name, "arrow_array_stream 10000\n"),
    "shared_prototypes": (run_shared_prototypes, "2 0\n"),
    "fork": (run_fork, "0 [[2]] [[1]]\n"),
    "pool": (run_pool, "True [[100000]]\n"),
    "interrupt": (run_interrupt, "KeyboardInterrupt True True True True 1 1\n"),
    "slices": (run_slices, "slices\n"),
}


def alone_cases(library):
    env = {**os.environ, "PYTHONPATH": os.path.join(TOP, "python"), "SELQUMAR_LIBRARY": library}
    for name, (_, wanted) in ALONE.items():
        ran = subprocess.run([sys.executable, os.path.abspath(__file__), name], env=env, capture_output=True, text=True, timeout=2 * SECONDS)
        yield name.replace("_", " "), difference((ran.returncode, ran.stdout, ran.stderr), (0, wanted, ""))


# ---- what was taken, and what was released


def capsule_cases(selqumar):
    from arrow_producer import Column, Exporter, Producer, capsule
    with selqumar.Table({"n": "int8"}) as table, selqumar.Table({"n": "int8"}) as other:
        table.append({"n": [1, 2, 3]})
        once = table.__arrow_c_stream__()

        class Same:
            def __arrow_c_stream__(self, requested_schema=None):
                return once

        first, second = other.append(Same()), raised(other.append, Same())
        yield "a capsule that is handed in twice", difference((first, second), (3, ("Fault", "arrowtab: E7 Released")))
        before = other.query(ROWS)[0][0]
        for _ in range(200):
            once = table.__arrow_c_stream__()
            together(*[lambda: other.append(Same())] * 3)
        yield "a capsule in three threads, 200 times", difference(other.query(ROWS)[0][0], before + 600)
        columns, producer = [Column("n", "int8", [1])], Producer()
        schema, batch, released = producer.schema(columns), producer.batch(columns, 1), producer.schema(columns)
        released.release = type(released.release)()
        yield "a schema that was released", difference(raised(selqumar.Table, Exporter(released)), ("Fault", "arrowtab: E7 Released column=0"))
        batch.release = type(batch.release)()
        yield "an array that was released", difference(raised(other.append, Exporter(schema, batch)), ("Fault", "arrowtab: E7 Released column=0"))
        swapped = Exporter(schema)
        swapped.__arrow_c_stream__ = lambda requested_schema=None: capsule(schema, b"arrow_schema")
        for what, source in (("another capsule", swapped), ("no capsule", type("Not", (), {"__arrow_c_stream__": lambda self: 3})())):
            yield f"{what} for a stream", difference(raised(other.append, source)[0], "TypeError")


# ---- what stays after a refusal


def refusal_cases(selqumar):
    """Each refusal leaves the table as it was, and the workers too."""
    from arrow_producer import Column, Exporter, Producer
    columns, producer = [Column("n", "int8", [1, None])], Producer()
    schema, batch = producer.schema(columns), producer.batch(columns, 2)
    with selqumar.Table({"n": selqumar.Field("int8", nullable=False)}) as table:
        table.append({"n": [1]}, worker=1)
        before = table.stats_text(), table.export()
        calls = {
            "a null that may not be": lambda: table.append({"n": [None]}, worker=7),
            "another column": lambda: table.append({"m": [1]}, worker=7),
            "a number past its type": lambda: table.append({"n": [1000]}, worker=7),
            "a batch": lambda: table.append(Exporter(schema, batch), worker=7),
            "a stream": lambda: table.append(Exporter(stream=producer.stream(lambda: producer.schema(columns), [lambda: producer.batch(columns, 2)])), worker=7),
            "a stream that fails": lambda: table.append(Exporter(stream=producer.stream(lambda: producer.schema(columns), [], 5)), worker=7),
            "a worker past all": lambda: table.append({"n": [1]}, worker=64),
            "a worker below 0": lambda: table.append({"n": [1]}, worker=-1),
            "a worker that is no number": lambda: table.append({"n": [1]}, worker="1"),
            "a number of rows past its type": lambda: table.compact(2 ** 32),
            "a number of rows below 0": lambda: table.compact(-1),
            "a number of rows that is none": lambda: table.compact(1.5),
            "a column that may not be null": lambda: table.add_column("m", selqumar.Field("int8", nullable=False)),
            "a column of no type": lambda: table.add_column("m", "date"),
            "a query": lambda: table.answer({"by": ["m"]}),
        }
        for what, call in calls.items():
            kind = raised(call)[0]
            yield f"{what} is refused", difference((kind in ("Fault", "ValueError", "TypeError", "OverflowError"), table.stats_text(), table.export()), (True, *before))
        kinds = [raised(calls[f"a number of rows {it}"])[0] for it in ("past its type", "below 0", "that is none")]
        yield "numbers that a call can't hold", difference(kinds, ["ValueError", "ValueError", "TypeError"])


# ---- streams


def stream_cases(selqumar):
    """Streams that are driven batch by batch: others ask meanwhile."""
    from arrow_producer import Column, Exporter, Producer
    columns, producer = [Column("n", "int8", [1, None, 3])], Producer()

    def source(before):
        return Exporter(stream=endless(producer, columns, before))

    with selqumar.Table({"n": "int8"}) as table:
        seen = []

        def ask(out):
            """Asks the table from a thread of the producer's own, three times, and fails."""
            seen.append(together(lambda: table.query(ROWS))[0])
            return 5 if len(seen) == 3 else 0

        told = []
        try:
            table.append(source(ask), progress=told.append)
        except selqumar.Fault as fault:
            found = str(fault), fault.code, fault.batch, fault.column, fault.path
        wanted = "arrowtab: E6 Stream code=5: the disk is on /fire column=3", "E6", 2, None, None
        yield "a producer that asks the table, and fails", difference((found, seen, told), (wanted, [[[0]], [[3]], [[6]]], [3, 6]))
        is_in, may_go = threading.Event(), threading.Event()

        def block(out):
            is_in.set()
            may_go.wait(SECONDS)
            return 5

        thread = threading.Thread(target=lambda: raised(table.append, source(block)))
        thread.start()
        is_in.wait(SECONDS)
        found = together(lambda: table.query(ROWS), lambda: repr(table), lambda: table.snapshot().query(ROWS), lambda: table.append({"n": [4]}))
        yield "a table while a stream blocks", difference(found, [[[6]], "<selqumar.Table of 6 rows: n>", [[6]], 1] if found[0] == [[6]] else None)
        may_go.set()
        thread.join()

        def stop(rows):
            raise KeyboardInterrupt

        before = table.query(ROWS)[0][0]
        yield "a progress that stops", difference((raised(table.append, source(lambda out: 0), progress=stop)[0], table.query(ROWS)[0][0]), ("KeyboardInterrupt", before + 3))
        yield "want of memory in a stream", difference(raised(table.append, source(lambda out: 12))[0], "MemoryError")
        with selqumar.Table.of(table, progress=told.append) as copy:
            yield "a table of a table", difference((copy.query(ROWS), told[-1]), (table.query(ROWS), before + 3))


def thread_cases(selqumar):
    """Fifteen threads on three tables append, ask, hand on and compact for some seconds: each sum is that of the rows."""
    tables = [selqumar.Table({"n": "int64"}) for _ in range(3)]
    appended, faults = [[0] * 15 for _ in tables], []
    is_over = threading.Event()

    def work(number):
        chance = random.Random(number)
        while not is_over.is_set():
            place = chance.randrange(3)
            table, kind = tables[place], chance.randrange(6)
            try:
                if kind == 0:
                    appended[place][number] += table.append({"n": [7] * chance.randrange(1, 9)}, worker=number)
                elif kind == 1:
                    rows, total = table.query(SUMS)[0]
                    if (total or 0) != 7 * rows:
                        faults.append(f"{rows} rows have the sum {total}")
                elif kind == 2:
                    with table.snapshot() as snapshot, snapshot.answer(SUMS) as answer:
                        answer.stats()
                elif kind == 3:
                    with selqumar.Table.of(table) as copy:
                        if 7 * copy.query(ROWS)[0][0] != (copy.query(SUMS)[0][1] or 0):
                            faults.append("a copy has another sum")
                elif kind == 4:
                    table.compact(chance.randrange(1000))
                else:
                    table.__arrow_c_stream__()
            except BaseException as fault:
                faults.append(f"{type(fault).__name__}: {fault}")

    before = sys.getswitchinterval()
    sys.setswitchinterval(1e-5)
    threads = [threading.Thread(target=work, args=(number,)) for number in range(15)]
    for thread in threads:
        thread.start()
    time.sleep(8)
    is_over.set()
    for thread in threads:
        thread.join()
    sys.setswitchinterval(before)
    rows = [table.query(ROWS)[0][0] for table in tables]
    yield "fifteen threads on three tables", difference((faults[:3], rows), ([], [sum(it) for it in appended]))


# ---- what is handed in


class Frame:
    """A frame as newer pandas have it: it has a stream too, which isn't to be asked."""

    def __init__(self, columns):
        self.columns, self._of = list(columns), columns

    def __getitem__(self, name):
        return self._of[name]

    def to_numpy(self):
        raise AssertionError("nobody wants all of it")

    def __arrow_c_stream__(self, requested_schema=None):
        raise ImportError("pyarrow isn't here")


def value_cases(selqumar):
    """Values that a column takes, and those that it refuses."""
    with selqumar.Table({"i": "int32", "b": "bool"}) as table:
        table.append(Frame({"i": [1, 2.0, float("nan"), None], "b": [True, False, None, True]}))
        yield "a frame with a stream", difference(table.query({"by": ["i", "b"]}), [[1, True], [2, False], [None, None], [None, True]])
        for what, kind, data in [("a part of a number", "TypeError", {"i": [1.5], "b": [True]}), ("no end", "TypeError", {"i": [float("inf")], "b": [True]}),
                                 ("a number for a truth value", "TypeError", {"i": [1], "b": [7]}), ("no list", "TypeError", {"i": 3, "b": [True]}),
                                 ("an iterator that raises", "TypeError", {"i": broken(), "b": [True]}), ("names of another kind", "ValueError", {3: [1], "b": [True]})]:
            yield f"{what} is refused", difference(raised(table.append, data)[0], kind)
    yield "a snapshot by hand", difference(raised(selqumar.Snapshot)[0], "TypeError")
    for what, call in {"a dict": lambda: selqumar.Table.of({"a": [1]}), "a number": lambda: selqumar.Table.of(3), "None": lambda: selqumar.Table(None)}.items():
        yield f"a table of {what}", difference(raised(call)[0], "TypeError")
    for what, schema in {"a number for a name": {1: "int8"}, "a number for a type": {"a": 1}, "no type": {"a": "string"}}.items():
        yield f"{what} in a schema", difference(raised(selqumar.Table, schema)[0], "TypeError")
    with selqumar.Table({"a\nb\0": "int8", "é": "bool"}) as table:
        yield "repr of odd names", difference(repr(table), "<selqumar.Table of 0 rows: a\\nb\\x00, é>")
    yield "a closed table for a notebook", difference(table._repr_html_(), "&lt;selqumar.Table, closed&gt;")
    yield "what a fault is", difference((selqumar.Fault.__module__, issubclass(selqumar.Fault, ValueError)), ("selqumar", True))
    with tempfile.TemporaryDirectory() as room:
        path = os.path.join(room, "a\nb.json")
        with open(path, "w", encoding="ascii") as file:
            file.write("{")
        try:
            selqumar.stats([b'{"schema":{"fields":[]},"batches":[]}', path])
            yield "the path of a file", "it is no fault"
        except selqumar.Fault as fault:
            wanted = f"arrowtab: {room}/a\\u000ab.json: J1 NotJson", 1, path, "J1"
            yield "the path of a file", difference((str(fault), fault.file, fault.filename, fault.code), wanted)


def broken():
    raise TypeError
    yield


def pandas_cases(selqumar):
    """Columns, arrays and indices of pandas, and what is no number of theirs."""
    try:
        pandas, numpy = importlib.import_module("pandas"), importlib.import_module("numpy")
    except ImportError:
        print("not tried: pandas", flush=True)
        return
    with selqumar.Table({"n": "int64"}) as table:
        kinds = {"an array": pandas.array([1, None, 3], dtype="Int64"), "an index": pandas.Index([1, 2, 3]), "a series": pandas.Series([1, 2, 3]),
                 "a series' array": pandas.Series([1, 2, 3]).array, "floats": pandas.Series([1.0, None, 3.0]), "floats of numpy": numpy.array([1.0, numpy.nan]),
                 "objects": pandas.Series([1, None], dtype=object), "a masked array of floats": numpy.ma.array([1.0, 1.5], mask=[False, True])}
        for what, values in kinds.items():
            count = table.append({"n": values})
            yield f"{what} of pandas", difference(count, len(values))
        sums = table.query(SUMS)[0]
        yield "their sum", difference(sums, [sum(map(len, kinds.values())), 4 + 6 + 6 + 6 + 4 + 1 + 1 + 1])
        for what, values in {"dates": numpy.array(["2026-01-01"], dtype="datetime64[ns]"), "spans": numpy.array([1], dtype="timedelta64[s]"),
                             "dates of pandas": pandas.Series(pandas.to_datetime(["2026-01-01", None])), "zones": pandas.Series(pandas.to_datetime(["2026-01-01"], utc=True)),
                             "parts": numpy.array([1.5]), "two dimensions": numpy.ones((2, 2))}.items():
            yield f"{what} are refused", difference(raised(table.append, {"n": values})[0], "TypeError")
    with selqumar.Table({"b": "bool", "l": "list<int8>"}) as table:
        lists = numpy.ma.array([[1, 2], [3, 4]], mask=[[True, False], [False, False]])
        table.append({"b": pandas.array([True, None], dtype="boolean"), "l": lists})
        yield "truth values and lists", difference(json.loads(table.export())["batches"][0]["columns"][0]["VALIDITY"], [1, 0])
        yield "numbers for truth values", difference(raised(table.append, {"b": numpy.array([1, 0]), "l": [[], []]})[0], "TypeError")


def type_cases():
    """The module's types, by mypy."""
    command = [sys.executable, "-m", "mypy", "--strict", os.path.join(TOP, "python", "selqumar")]
    with tempfile.TemporaryDirectory() as room:
        if subprocess.run([*command[:3], "--version"], cwd=room, capture_output=True, timeout=SECONDS).returncode:
            print("not tried: mypy", flush=True)
            return
        ran = subprocess.run(command, cwd=room, capture_output=True, text=True, timeout=SECONDS)
    yield "mypy", difference(ran.returncode, 0) and ran.stdout


def cases(selqumar, library):
    yield from capsule_cases(selqumar)
    yield from refusal_cases(selqumar)
    yield from stream_cases(selqumar)
    yield from value_cases(selqumar)
    yield from pandas_cases(selqumar)
    yield from thread_cases(selqumar)
    yield from type_cases()
    yield from alone_cases(library)


if __name__ == "__main__":
    import selqumar as module
    ALONE[sys.argv[1]][0](module)
