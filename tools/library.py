#!/usr/bin/env python3
"""Builds the library for C, Rust and Python, and compares what it gives with what the program prints.

    tools/library.py PROGRAM [FOLDER]

Without a folder the library is built in `build`; where one is named, that which stands there is taken. Each case is a call over some files; the program
gets the same files under the names `0`, `1` and so on, since the library names them by their numbers. `library_build.py`, `library_python.py`, `library_table.py`,
`library_hostile.py` and `library_edges.py` have further cases. The last line is 'N passed, M failed'."""
import ctypes
import json
import os
import re
import shutil
import subprocess
import sys
import tempfile

import library_build
from refusals import TOP, built, compiler

QUERY = b'{"by":["city"],"aggs":[{"agg":"rows"},{"agg":"sum","column":"people"}]}'
WANTED_OF_NONE = {"stats": "rows 0\nworker 0 calls 0 rows 0\n", "validate": ""}
CALLS = ("stats", "export", "query", "validate")
# Those on a table that is open.
OPEN_CALLS = ("stats", "export", "query")
SECONDS = 600

passed = failed = 0


def check(what, fault):
    """Counts a case, and tells it where it has a fault."""
    global passed, failed
    if fault:
        failed += 1
        print(f"{what}: {fault}", flush=True)
    else:
        passed += 1


def example(name):
    with open(os.path.join(TOP, "examples", name), "rb") as file:
        return file.read()


def shipped():
    return {name: example(name) for name in sorted(os.listdir(os.path.join(TOP, "examples"))) if name.endswith(".json")}


def cases():
    """What each case is called, and its files."""
    files = shipped()
    for name, file in files.items():
        yield name, [file]
        yield f"{name} twice", [file, file]
        for part in (2, 3, 10):
            yield f"{name}, cut to a {part}th", [file[:len(file) // part]]
    mixed, lists = files["mixed.json"], files["lists.json"]
    yield "two schemas", [mixed, lists]
    yield "three files, the last of another schema", [mixed, mixed, lists]
    yield "a file behind one that is none", [b"{", mixed]
    yield "no bytes", [b""]
    yield "no text", [b"\xff\xfe"]
    yield "a text", [b'"x"']
    yield "no members", [b"{}"]
    yield "nested", [b"[" * 100000]
    yield "counts that are only stated", [mixed.replace(b'"count":', b'"count":2147483647,"c":', 1)]


def written(room, files):
    """The names of the files in a folder: their numbers."""
    for number, file in enumerate(files):
        with open(os.path.join(room, str(number)), "wb") as out:
            out.write(file)
    return [str(number) for number in range(len(files))]


def printed(program, room, call, files, query=QUERY):
    """What the program gives for a call: whether it is an answer, and the text."""
    words = {"stats": ["stats"], "validate": ["stats"], "export": ["export"], "query": ["query", "--query", query.decode()]}[call]
    ran = subprocess.run([program, *words, *written(room, files)], cwd=room, stdin=subprocess.DEVNULL, capture_output=True, timeout=SECONDS)
    if ran.returncode == 0:
        return True, "" if call == "validate" else ran.stdout.decode()
    return False, ran.stderr.decode()


def given(selqumar, call, files, query=QUERY):
    """The same of the library, through Python."""
    run = {"stats": selqumar.stats_text, "export": selqumar.export, "validate": lambda files: selqumar.validate(files) or "",
           "query": lambda files: selqumar.query_text(files, query)}[call]
    try:
        return True, run(files)
    except selqumar.Fault as fault:
        return False, f"{fault}\n"


def opened(selqumar, call, files, query=QUERY):
    """The same of a table that is opened over the files, asked twice."""
    try:
        with selqumar.Table.of_files(files) as table:
            run = {"stats": table.stats_text, "export": table.export, "query": lambda: table.query_text(query)}[call]
            run()
            return True, run()
    except selqumar.Fault as fault:
        return False, f"{fault}\n"


def difference(one, other):
    return None if one == other else f"{one!r:.300} is not {other!r:.300}"


def check_cases(program, selqumar, room):
    for what, files in cases():
        for call in CALLS:
            wanted = printed(program, room, call, files)
            check(f"{call} of {what}", difference(given(selqumar, call, files), wanted))
            if call in OPEN_CALLS:
                check(f"{call} of a table of {what}", difference(opened(selqumar, call, files), wanted))
    for call, wanted in WANTED_OF_NONE.items():
        check(f"{call} of no files", difference(given(selqumar, call, []), (True, wanted)))
    none = selqumar.export([])
    check("export of no files", difference(selqumar.export([none.encode()]), none))


def batch(*values):
    """A batch of numbers, of which None is null."""
    column = {"name": "n", "count": len(values), "VALIDITY": [int(it is not None) for it in values], "DATA": [it or 0 for it in values]}
    return {"count": len(values), "columns": [column]}


def numbers(nullable, *batches):
    """A file of one column of numbers."""
    field = {"name": "n", "nullable": nullable, "type": {"name": "int", "bitWidth": 8, "isSigned": True}, "children": []}
    return json.dumps({"schema": {"fields": [field]}, "batches": list(batches)}).encode()


def check_refused_batch(program, selqumar, room):
    """No call passes over a batch that is refused: each reports it, where the same files without the batch have an answer."""
    query = b'{"aggs":[{"agg":"rows"},{"agg":"sum","column":"n"}]}'
    good, refused, last = batch(1, 2), batch(3, None), batch(4)
    for place, batches in enumerate([(refused, good, last), (good, refused, last), (good, last, refused)]):
        for front in ([], [numbers(False, good)]):
            files = [*front, numbers(False, *batches), numbers(False, last)]
            without = [*front, numbers(False, *(it for it in batches if it is not refused)), numbers(False, last)]
            line = f"arrowtab: {len(front)}: batch {place}: A2 NullInNonNullable column=0 row=1\n"
            for call in CALLS:
                what = f"{call}, batch {place} of file {len(front)} is refused"
                check(what, difference((given(selqumar, call, files, query), printed(program, room, call, files, query)), ((False, line),) * 2))
                check(f"{what}: without it", difference(given(selqumar, call, without, query), printed(program, room, call, without, query)))
                if call in OPEN_CALLS:
                    check(f"{what}: a table", difference(opened(selqumar, call, files, query), (False, line)))


def check_values(selqumar):
    """The values of Python, from the outputs that README shows."""
    files = [example("mixed.json")]
    people = selqumar.stats(files).column("people")
    check("stats as values", difference((people.type, people.rows), ("int64", selqumar.stats(files).rows)))
    groups = selqumar.query(files, QUERY)
    check("query as values", difference(sum(group[1] for group in groups), selqumar.stats(files).rows))
    lines = selqumar.query_text(files, QUERY).count("\n")
    check("query as a value", difference(selqumar.query(files, {"aggs": [{"agg": "rows"}]}), [[people.rows]]))
    check("groups as values", difference(len(groups), lines))
    table = selqumar.Table.of_files(files)
    check("a table as values", difference((table.stats(), table.query(QUERY)), (selqumar.stats(files), groups)))
    table.close()
    number = {"name": "n", "nullable": True, "type": {"name": "int", "bitWidth": 8, "isSigned": True}, "children": []}
    twice = json.dumps({"schema": {"fields": [number, number]}, "batches": []}).encode()
    check("columns of one name", difference([column.name for column in selqumar.stats([twice]).columns], ["n", "n"]))


# ---- buffers


class Raw:
    """A function of the library, called with a buffer of any length."""

    def __init__(self, library, call):
        self.function = getattr(library, f"selqumar_{call}")
        self.function.restype = ctypes.c_uint32
        self.middle = [ctypes.c_char_p(QUERY), ctypes.c_size_t(len(QUERY))] if call == "query" else []

    def over(self, file, room, more=8):
        """The status, what is needed, and the buffer with what lies behind it."""
        class Bytes(ctypes.Structure):
            _fields_ = [("data", ctypes.c_char_p), ("length", ctypes.c_size_t)]
        out = ctypes.create_string_buffer(b"\xa5" * (room + more), room + more)
        needed = ctypes.c_size_t(12345)
        files = (Bytes * 1)(Bytes(file, len(file)))
        status = self.function(files, ctypes.c_size_t(1), *self.middle, out, ctypes.c_size_t(room), ctypes.byref(needed))
        return status, needed.value, out.raw


def buffer_fault(raw, file, status, text):
    for room in [*range(len(text)), len(text), len(text) + 1, len(text) + 100]:
        got = raw.over(file, room)
        if room < len(text):
            wanted = 2, len(text), b"\xa5" * (room + 8)
        else:
            wanted = status, len(text), text + b"\xa5" * (room + 8 - len(text))
        if got != wanted:
            return f"with room for {room} of {len(text)}: {got!r:.200}"
    return None


def check_buffers(program, library, room):
    for what, file in (("mixed.json", example("mixed.json")), ("a file that is none", b'{"schema":3}')):
        for call in CALLS:
            is_answer, text = printed(program, room, call, [file])
            check(f"buffers of {call} of {what}", buffer_fault(Raw(library, call), file, 0 if is_answer else 1, text.encode()))


# ---- C and Rust


def both(program, room, query, files):
    """What the program prints of files and of a query, or the first fault."""
    is_answer, text = printed(program, room, "stats", files)
    is_last, last = printed(program, room, "query", files, query) if is_answer else (False, text)
    return is_last, text + last if is_last else last


def check_example(what, example_program, program, room):
    """The program of an example prints of each file what the program does."""
    others = [b'{"by":["town"]}', b"{", b'{"aggs":[{"agg":"rows"}]}']
    for name, file in shipped().items():
        for files in ([file], [file, file], [file[:100]], [file] * 70):
            for query in (others if len(files) == 1 else others[2:]):
                wanted = both(program, room, query, files)
                ran = subprocess.run([example_program, query.decode(), *written(room, files)], cwd=room, capture_output=True, timeout=SECONDS)
                got = (ran.returncode == 0, (ran.stdout if ran.returncode == 0 else ran.stderr).decode())
                check(f"{what} over {name}", difference(got, wanted))
    for name in ("not-there", "."):
        ran = subprocess.run([example_program, "{}", name], cwd=room, capture_output=True, timeout=SECONDS)
        check(f"{what} over {name}", difference((ran.returncode, ran.stdout, ran.stderr.count(b"\n"), name.encode() in ran.stderr), (2, b"", 1, True)))
    ran = subprocess.run(f"cat 0 | {example_program} '{{}}' /dev/stdin", shell=True, cwd=room, capture_output=True, timeout=SECONDS)
    check(f"{what} over a pipe", difference(ran.returncode, 0))


HEADER = """#include "selqumar_arrow.h"
int main(void) { size_t needed = 0; selqumar_close(NULL); return selqumar_stats(NULL, 0, NULL, 0, &needed) != SELQUMAR_SHORT || SELQUMAR_VERSION < 1; }
"""


def check_header(archive, folder):
    """The header is C of each standard and C++, without a warning."""
    for name, words in (("h.c", ["cc", "-std=c99"]), ("h.c", ["cc", "-std=c17"]), ("h.cc", ["c++", "-std=c++11"]), ("h.cc", ["c++", "-std=c++20"])):
        if not shutil.which(words[0]):
            print(f"not tried: {words[0]}", flush=True)
            continue
        with open(os.path.join(folder, name), "w", encoding="utf-8") as file:
            file.write(HEADER)
        words = [*words, "-Wall", "-Wextra", "-Wpedantic", "-Werror", f"-I{TOP}/include", name, archive, "-o", "h"]
        ran = subprocess.run(words, cwd=folder, capture_output=True, timeout=SECONDS)
        check(f"the header by {words[0]} {words[1]}", difference((ran.returncode, ran.stderr), (0, b"")) or
              difference(subprocess.run([os.path.join(folder, "h")], timeout=SECONDS).returncode, 0))


TABLE = b"""\"Lisbon\" 1091846
\"Braga\" 386648
null 2
rows 6
worker 0 calls 1 rows 3
worker 1 calls 1 rows 3
\"city\" dictionary rows=6 nulls=2 sum=- least=\"Braga\" greatest=\"Lisbon\"
\"people\" int64 rows=6 nulls=0 sum=1478496 least=1 greatest=545923
"""


def check_table(archive, folder):
    """The table of a program in C, also where each access to memory is looked at."""
    source = os.path.join(TOP, "examples", "table.c")
    for what, more, before in [("as it is", [], []), ("with sanitizers", ["-fsanitize=address,undefined", "-fno-sanitize-recover"], []),
                               ("below valgrind", ["-g"], ["valgrind", "-q", "--leak-check=full", "--error-exitcode=9"])]:
        if before and not shutil.which(before[0]):
            print(f"not tried: {before[0]}", flush=True)
            continue
        out = os.path.join(folder, "table")
        built = subprocess.run([*compiler(), "-O1", *more, f"-I{TOP}/include", source, archive, "-o", out], capture_output=True, check=False)
        if built.returncode and what == "with sanitizers":
            print("not tried: sanitizers", flush=True)
            continue
        ran = subprocess.run([*before, out], capture_output=True, timeout=SECONDS)
        check(f"a table in C {what}", difference((ran.returncode, ran.stdout, ran.stderr.count(b"OffsetDecreases")), (0, TABLE, 1)))


def check_c_and_rust(program, archive, folder, room):
    for source in ("examples/embed.c", "tools/library.c"):
        out = os.path.join(folder, os.path.basename(source)[:-2])
        words = [*compiler(), "-O1", "-Wall", "-Wextra", "-Wpedantic", "-Werror", "-pthread", f"-I{TOP}/include", os.path.join(TOP, source), archive, "-o", out]
        subprocess.run(words, check=True)
    check_example("C", os.path.join(folder, "embed"), program, room)
    check_table(archive, folder)
    check_header(archive, folder)
    if not shutil.which("rustc"):
        print("not tried: Rust", flush=True)
        return
    out = os.path.join(folder, "embed_rs")
    subprocess.run(["rustc", "-O", os.path.join(TOP, "examples", "embed.rs"), "-C", f"link-arg={archive}", "-o", out], check=True)
    check_example("Rust", out, program, room)


def nested():
    """A file and a filter that are as deep as any."""
    kind = {"name": "n", "nullable": True, "type": {"name": "int", "bitWidth": 8, "isSigned": True}, "children": []}
    column = {"name": "n", "count": 0, "VALIDITY": [], "DATA": []}
    for _ in range(8):
        kind = {"name": "n", "nullable": True, "type": {"name": "list"}, "children": [kind]}
        column = {"name": "n", "count": 0, "VALIDITY": [], "OFFSET": [], "children": [column]}
    file = {"schema": {"fields": [kind]}, "batches": [{"count": 0, "columns": [column]}], "x": "arrays"}
    text = json.dumps(file).replace('"arrays"', "[" * 126 + "]" * 126)
    filter_ = {"op": "is_null", "args": [{"column": "n"}]}
    for _ in range(30):
        filter_ = {"op": "not", "args": [filter_]}
    return text.encode(), json.dumps({"filter": filter_, "aggs": [{"agg": "rows"}]})


def check_memory(program, folder, room):
    """A thousand calls keep no more memory than one, and each gives its answer or says that memory ran out, whichever request is refused. Each has
    stack enough in a thread of 128 kB, and takes null where there is nothing."""
    deep, query = nested()
    with open(os.path.join(room, "deep"), "wb") as file:
        file.write(deep)
    check("the deepest file and filter", difference(printed(program, room, "query", [deep], query.encode()), (True, "0\n")))
    loaded = {"LD_PRELOAD": built(room)}
    mixed = os.path.join(TOP, "examples", "mixed.json")
    for call in [*CALLS, *(f"open_{call}" for call in OPEN_CALLS), *(f"{front}{call}_to" for front in ("", "open_", "snapshot_") for call in OPEN_CALLS)]:
        for how, more, files in (("repeated", loaded, [mixed]), ("refused", loaded, [mixed]), ("nulls", {}, [mixed, mixed]), ("stack", {}, [mixed]),
                                 ("stack", {"QUERY": query}, [os.path.join(room, "deep")])):
            words = [os.path.join(folder, "library"), how, call, *files]
            ran = subprocess.run(words, env={**os.environ, "QUERY": QUERY.decode(), **more}, capture_output=True, timeout=SECONDS)
            check(f"{how} {call} of {os.path.basename(files[0])}", None if ran.returncode == 0 else f"status {ran.returncode} {ran.stdout!r:.200}")
    for how, more in (("repeated", loaded), ("refused", loaded), ("stack", {})):
        ran = subprocess.run([os.path.join(folder, "library"), how, "nodes"], env={**os.environ, **more}, capture_output=True, timeout=SECONDS)
        check(f"{how} calls on nodes", None if ran.returncode == 0 else f"status {ran.returncode} {ran.stdout!r:.200}")


LINES = [
    "arrowtab: 0: J1 NotJson", "arrowtab: 12: J10 Layout V5 OffsetDecreases row=1 at /batches/0/columns/1", "arrowtab: query: J3 WrongMember at /aggs/0/agg column=1",
    "arrowtab: 3: batch 7: A2 NullInNonNullable column=2 row=18446744073709551614", "arrowtab: A4 ColumnLength column=0", "arrowtab: column: N1 NotNullable",
    "arrowtab: E6 Stream code=5", "arrowtab: 0: cannot be read", "arrowtab: no memory", "arrowtab: ", "error: 1",
]


def check_lines(selqumar, folder):
    """A line says the same in C as in Python."""
    for line in LINES:
        told = selqumar.Fault(line)
        wanted = ["1", told.code, *("-" if it is None else str(it) for it in (told.file, told.batch, told.column, told.row))] if told.code else ["0", "-0"]
        ran = subprocess.run([os.path.join(folder, "library"), "fault", line], capture_output=True, text=True, timeout=SECONDS)
        check(f"the line {line!r}", difference(ran.stdout.split()[:len(wanted)], wanted))


def check_version(selqumar, library):
    """The library tells its version, and has all that the headers declare."""
    declared = set()
    for name in ("selqumar.h", "selqumar_arrow.h"):
        with open(os.path.join(TOP, "include", name), encoding="utf-8") as file:
            text = re.sub(r"/\*.*?\*/", "", file.read(), flags=re.S)
        declared |= {*re.findall(r"^(?!typedef)(?:[a-z][\w ]*[ *])(selqumar_\w+)[(\[]", text, re.M)}
    found = ctypes.CDLL(library)
    check("the version of the library", difference(f"{selqumar.LIBRARY}", f"libselqumar.so.{found.selqumar_version()}"))
    check("what the headers declare", difference([name for name in sorted(declared) if not hasattr(found, name)], []) or (None if len(declared) > 40 else f"only {len(declared)}"))


def library_in(words):
    """The folder that has the library, which is built where none is named."""
    if words:
        return os.path.abspath(words[0])
    folder = os.path.join(TOP, "build")
    subprocess.run([os.path.join(TOP, "tools", "library"), folder], check=True)
    return folder


def main():
    program = os.path.abspath(sys.argv[1])
    place = library_in(sys.argv[2:])
    library = os.environ["SELQUMAR_LIBRARY"] = os.path.join(place, "libselqumar.so")
    sys.path.insert(0, os.path.join(TOP, "python"))
    import library_edges
    import library_hostile
    import library_python
    import library_table
    import selqumar
    with tempfile.TemporaryDirectory() as folder, tempfile.TemporaryDirectory() as room, tempfile.TemporaryDirectory() as other:
        check_cases(program, selqumar, room)
        check_refused_batch(program, selqumar, room)
        check_values(selqumar)
        check_buffers(program, ctypes.CDLL(library), room)
        check_c_and_rust(program, os.path.join(place, "libselqumar.a"), folder, room)
        check_memory(program, folder, room)
        check_lines(selqumar, folder)
        archive = os.path.join(place, "libselqumar.a")
        check_version(selqumar, library)
        for what, fault in [*library_build.cases(folder), *library_hostile.cases(archive, folder), *library_python.cases(selqumar, library, other),
                            *library_table.cases(selqumar), *library_edges.cases(selqumar, library)]:
            check(what, fault)
    print(f"{passed} passed, {failed} failed")
    return failed > 0


sys.exit(main())
