"""What Python's module takes and raises, and what its tables keep. Each case is a name and its fault, none where it is as it should be."""
import array
import ctypes
import gc
import json
import mmap
import os
import pathlib
import re
import shutil
import signal
import subprocess
import sys
import typing
import weakref

from refusals import TOP

SECONDS = 120
ROWS = {"aggs": [{"agg": "rows"}]}


def difference(found, wanted):
    return None if found == wanted else f"{found!r:.300} and not {wanted!r:.300}"


def raised(run, *words):
    """The name and the text of what a call raises, none where it answers."""
    try:
        run(*words)
    except Exception as fault:
        return type(fault).__name__, str(fault)
    return None


def name_of(run, *words):
    """The name of what a call raises."""
    return (raised(run, *words) or ("nothing",))[0]


def padded(file, length):
    """The file, with so many spaces behind it."""
    return file + b" " * length


# ---- what is handed in


def input_cases(selqumar, path):
    """Each kind of file gives what its bytes give, one alone and among several; whatever else is handed in is refused."""
    with open(path, "rb") as file:
        data = file.read()
    wanted, wanted_twice = selqumar.stats_text([data]), selqumar.stats_text([data, data])
    with open(path, "rb") as file, mmap.mmap(file.fileno(), 0, access=mmap.ACCESS_READ) as mapped:
        kinds = {"bytes": data, "bytearray": bytearray(data), "memoryview": memoryview(data), "a part of a memoryview": memoryview(b"{" + data)[1:],
                 "mmap": mapped, "a path": pathlib.Path(path), "a path as a text": path}
        for name, one in kinds.items():
            yield f"{name} alone", difference(selqumar.stats_text(one), wanted)
            yield f"{name} among several", difference(selqumar.stats_text([one, data]), wanted_twice)
            with selqumar.Table.of_files(one) as table:
                yield f"a table of {name}", difference(table.stats_text(), wanted)
    yield "an iterator", difference(selqumar.stats_text(iter([data, data])), wanted_twice)
    numbers = array.array("i", [1, 2, 3])
    with open(path, "rb") as opened:
        others = {"a number": 3, "numbers": [3], "None": None, "a dict": {"a": data}, "an open file": opened, "an array of numbers": numbers,
                  "a memoryview of numbers": memoryview(numbers), "every second byte": memoryview(data)[::2], "a list in a list": [[data]]}
        for name, other in others.items():
            yield f"{name} for files", difference((name_of(selqumar.stats, other), name_of(selqumar.Table.of_files, other)), ("TypeError", "TypeError"))
    yield "a path that isn't there", difference(name_of(selqumar.stats, pathlib.Path(path + ".none")), "FileNotFoundError")
    held = bytearray(data)
    selqumar.stats(held)
    held.append(32)
    yield "a bytearray is let go", None


def query_cases(selqumar, data):
    for member, query in [
        ("filters", {"filters": None}),
        ("colum", {"aggs": [{"agg": "sum", "colum": "people"}]}),
        ("colum", {"filter": {"op": "not", "args": [{"op": "is_null", "args": [{"colum": "city"}]}]}}),
    ]:
        fault = raised(selqumar.query, data, query) or ("nothing", "")
        yield f"{json.dumps(query)} is refused by name", difference((fault[0], repr(member) in fault[1]), ("ValueError", True))
    for query in (3, ["city"], None):
        yield f"{query!r} for a query", difference(name_of(selqumar.query, data, query), "TypeError")
    yield "a query as bytes", difference(selqumar.query(data, json.dumps(ROWS).encode()), selqumar.query(data, ROWS))


# ---- what comes back


def fault_cases(selqumar, data, other):
    """A fault's fields."""
    for what, files, query, wanted in [
        ("a member", [data, b'{"schema":{"fields":[]},"batches":[{"count":-1}]}'], ROWS, ("J3", "/batches/0/count", 1, None)),
        ("a number", [numbers_file(3).replace(b"[0, 1, 2]", b'[0, "x", 2]')], ROWS, ("J5", "/batches/0/columns/0/DATA/1", 0, None)),
        ("no JSON", [b"{"], ROWS, ("J1", None, 0, None)),
        ("a batch", [data, other], ROWS, ("A1", None, 1, 0)),
        ("a query's member", [data], {"by": 3}, ("J3", "/by", None, None)),
        ("a query", [data], {"by": ["town"]}, ("Q1", None, None, None)),
        ("a query's member before a file's", [b"{"], {"by": 3}, ("J3", "/by", None, None)),
        ("a file before the query's names", [b"{"], {"by": ["town"]}, ("J1", None, 0, None)),
        ("an earlier file", [data, b"[", b"{"], ROWS, ("J1", None, 1, None)),
    ]:
        try:
            selqumar.query(files, query)
            yield f"the fault of {what}", "there is none"
        except selqumar.Fault as fault:
            yield f"the fault of {what}", difference((fault.code, fault.path, fault.file, fault.batch), wanted)
    yield "no column of that name", difference(raised(selqumar.stats(data).column, "town"), ("KeyError", "'town'"))


def form_cases(selqumar, data):
    """What tools look at."""
    with open(os.path.join(TOP, "include", "selqumar.h"), encoding="utf-8") as file:
        version = re.search(r"^#define SELQUMAR_VERSION (\d+)$", file.read(), re.M)[1]
    yield "the library's number", difference(selqumar.LIBRARY, f"libselqumar.so.{version}")
    functions = [value for name in selqumar.__all__ for value in [getattr(selqumar, name)] if not isinstance(value, type)]
    functions += [getattr(selqumar.Table, name) for name in ("__init__", "of", "of_files", "append", "add_column", "compact", "stats", "query", "export", "stats_text",
                                                             "query_text", "close")]
    bare = [it.__name__ for it in functions if "return" not in typing.get_type_hints(it)]
    yield "type hints", difference((len(functions), bare), (18, []))
    table = selqumar.Table.of_files([data, data])
    shown = repr(table)
    table.close()
    yield "repr", difference((shown, repr(table)), ("<selqumar.Table of 10 rows: city, capital, people>", "<selqumar.Table, closed>"))


def import_cases(library, room):
    """Where the module looks for the library, and what it says where there is none."""
    for folder in ("python", "build"):
        os.mkdir(os.path.join(room, folder))
    package = os.path.join(room, "python", "selqumar")
    shutil.copytree(os.path.join(TOP, "python", "selqumar"), package, ignore=shutil.ignore_patterns("__pycache__"))
    env = {name: it for name, it in os.environ.items() if name != "SELQUMAR_LIBRARY"}
    env["PYTHONPATH"] = os.path.join(room, "python")

    def imported(**more):
        ran = subprocess.run([sys.executable, "-c", "import selqumar"], env={**env, **more}, capture_output=True, text=True, timeout=SECONDS)
        last = (ran.stderr.splitlines() or [""])[-1]
        return last.partition(":")[0], "tools/library build" in last

    yield "there is no library", difference(imported(), ("ImportError", True))
    yield "it is no library", difference(imported(SELQUMAR_LIBRARY=os.path.join(TOP, "README.md")), ("ImportError", True))
    yield "it is another library", difference(imported(SELQUMAR_LIBRARY="libc.so.6"), ("ImportError", True))
    os.symlink(library, os.path.join(room, "build", "libselqumar.so.2"))
    yield "the library of the tree", difference(imported(), ("", False))
    os.symlink(library, os.path.join(package, "libselqumar.so.2"))
    os.remove(os.path.join(room, "build", "libselqumar.so.2"))
    yield "the library beside the module", difference(imported(), ("", False))


# ---- what is kept


def room_cases(selqumar, data):
    """A buffer is as long as the answer, however long the files are."""
    rooms = []
    make = ctypes.create_string_buffer

    def noted(room, *more):
        rooms.append(room)
        return make(room, *more)

    file = padded(data, 1 << 20)
    long = {"by": ["n"], "aggs": [{"agg": "rows"}]}
    numbers = numbers_file(4000)
    ctypes.create_string_buffer = noted
    try:
        with selqumar.Table.of_files(file) as table, selqumar.Table.of_files(numbers) as other:
            rooms.clear()
            table.query(ROWS)
            table.stats()
            selqumar.query(file, ROWS)
            yield "a short answer over a long file", difference(rooms, [4096, 4096, 4096])
            rooms.clear()
            text = other.query_text(long)
            other.query_text(long)
            yield "a long answer", difference(rooms, [4096, len(text), len(text)])
            rooms.clear()
            table.export()
            yield "an export", difference(rooms, [len(file)])
    finally:
        ctypes.create_string_buffer = make


def numbers_file(rows):
    """A file of a column of numbers, each another."""
    field = {"name": "n", "nullable": True, "type": {"name": "int", "bitWidth": 32, "isSigned": True}, "children": []}
    column = {"name": "n", "count": rows, "VALIDITY": [1] * rows, "DATA": list(range(rows))}
    return json.dumps({"schema": {"fields": [field]}, "batches": [{"count": rows, "columns": [column]}]}).encode()


class Noted:
    """In a `with`, the handles of all tables that are made."""

    def __init__(self, selqumar):
        self.library, self.real, self.handles = selqumar._library, selqumar._library.Handle, []

    def __enter__(self):
        self.library.Handle = self.made
        return self.handles

    def __exit__(self, *_):
        self.library.Handle = self.real

    def made(self):
        self.handles.append(self.real())
        return self.handles[-1]


def table_cases(selqumar, data):
    """What was opened is closed, also where nobody says so."""
    with Noted(selqumar) as handles:
        table = selqumar.Table.of_files(data)
        was_open = handles[0].is_open
        del table
        gc.collect()
        yield "a table that nobody closes", difference((was_open, handles[0].is_open), (True, False))
        table = selqumar.Table.of_files(data)
        table.close()
        table.close()
        yield "a table that is closed", difference((handles[1].is_open, name_of(table.query, ROWS)), (False, "ValueError"))
    file = padded(numbers_file(200000), 1 << 25)
    with Noted(selqumar) as handles:
        ended = [interrupted(selqumar, file, delay) for delay in (0.005, 0.02, 0.05, 0.1, 0.2)]
        gc.collect()
        yield "opens that are interrupted", difference((any(ended), [handle.is_open for handle in handles].count(True)), (True, 0))


def interrupted(selqumar, file, delay):
    """Whether an open is interrupted after so many seconds. What it opened, nobody has."""
    def interrupt(_, frame):
        # Python passes over what is raised while a finalizer runs, and the finalizer ends there: a table stays open then until the process ends.
        if is_in_finalizer(frame):
            signal.setitimer(signal.ITIMER_REAL, 0.001)
        else:
            raise KeyboardInterrupt

    before = signal.signal(signal.SIGALRM, interrupt)
    signal.setitimer(signal.ITIMER_REAL, delay)
    try:
        try:
            selqumar.Table.of_files([file])
        finally:
            signal.setitimer(signal.ITIMER_REAL, 0)
    except KeyboardInterrupt:
        return True
    finally:
        signal.signal(signal.SIGALRM, before)
    return False


def is_in_finalizer(frame):
    """Whether a frame, or one that called it, is of Python's finalizers."""
    while frame is not None and frame.f_code.co_filename != weakref.__file__:
        frame = frame.f_back
    return frame is not None


def thread_cases(library):
    """Many threads share tables that others close: see `library_threads.py`."""
    words = [sys.executable, os.path.join(TOP, "tools", "library_threads.py"), "30"]
    env = {**os.environ, "PYTHONPATH": os.path.join(TOP, "python"), "SELQUMAR_LIBRARY": library}
    ran = subprocess.run(words, env=env, capture_output=True, text=True, timeout=SECONDS)
    yield "threads", difference((ran.returncode, ran.stdout + ran.stderr), (0, ""))


def cases(selqumar, library, room):
    path, other = (os.path.join(TOP, "examples", name) for name in ("mixed.json", "lists.json"))
    with open(path, "rb") as file, open(other, "rb") as lists:
        data, second = file.read(), lists.read()
    yield from input_cases(selqumar, path)
    yield from query_cases(selqumar, data)
    yield from fault_cases(selqumar, data, second)
    yield from form_cases(selqumar, data)
    yield from import_cases(library, room)
    yield from room_cases(selqumar, data)
    yield from table_cases(selqumar, data)
    yield from thread_cases(library)
