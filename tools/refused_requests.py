#!/usr/bin/env python3
"""Refuses each request for memory that `arrowtab` makes, one in each run, and then all from one on.

    tools/refused_requests.py PROGRAM

Each run gives exactly the answer of a run that nothing was refused in, be it an output or the line of a fault, or `arrowtab: no memory` with
status 1 and nothing on standard output. On standard input each has the file `mixed.json`. With several workers the runs are of one file, or print statistics or a fault, which don't depend on
who was first. The last line is 'N passed, M failed', of cases."""
import concurrent.futures
import os
import subprocess
import sys
import tempfile

from refusals import TOP, built

WANTED = (1, b"", b"arrowtab: no memory\n")
# A run that takes longer waits for something that never comes.
SECONDS = 20


def example(name):
    return os.path.join(TOP, "examples", name)


def field(name, nullable=True):
    """The text of a field of texts."""
    return f'{{"name":"{name}","nullable":{str(nullable).lower()},"type":{{"name":"utf8"}}}}'


# A file of which the second number is none.
BAD_FILE = """{"schema":{"fields":[{"name":"n","nullable":true,"type":{"name":"int","bitWidth":8,"isSigned":true},"children":[]}]},
"batches":[{"count":2,"columns":[{"name":"n","count":2,"VALIDITY":[1,1],"DATA":[1,128]}]}]}"""

# A query of the file `mixed.json`.
QUERY = '{"filter":{"op":"lt","args":[{"column":"people"},{"int":200000}]},"by":["city"],"aggs":[{"agg":"rows"},{"agg":"sum","column":"people"}]}'


def cases(bad_file, query_file):
    """The words of each case, and what stands on standard error in the end."""
    for words in answered(query_file):
        yield words, ""
    yield from refused(bad_file, query_file)


def answered(query_file):
    """The words of runs that end with an output."""
    yield ["--help"]
    yield ["--version"]
    yield ["schema", example("lists.json")]
    yield ["validate", example("mixed.json"), example("mixed.json")]
    for name in ("mixed.json", "lists.json"):
        yield ["head", "-n", "3", example(name)]
    for output in ("json", "csv"):
        yield ["query", "--output", output, "--query", QUERY, example("mixed.json")]
    for name in ("primitive.json", "mixed.json", "lists.json", "dictionaries.json", "large.json"):
        yield ["stats", example(name)]
        yield ["export", example(name)]
    lists = '{"name":"l","nullable":true,"type":{"name":"list"},"children":[{"name":"item","nullable":true,"type":{"name":"utf8"}}]}'
    texts = field("m")
    yield ["export", "--add-column", lists, example("mixed.json")]
    yield ["stats", "-"]
    yield ["query", "--query-file", query_file, "-"]
    yield ["query", "--query-file", "-", example("mixed.json")]
    for workers in ("1", "2", "4"):
        yield ["query", "--workers", workers, "--query", '{"by":["m"],"aggs":[{"agg":"rows"}]}', "--add-column", texts, example("mixed.json")]
        yield ["stats", "--workers", workers, example("mixed.json"), example("mixed.json")]
        yield ["export", "--workers", workers, example("dictionaries.json")]
        yield ["query", "--workers", workers, "--query", QUERY, example("mixed.json")]


def refused(bad_file, query_file):
    """The words of runs that end with a fault, and what is said of it: of the command line, a file, a batch, the query or a column."""
    mixed, lists, none = example("mixed.json"), example("lists.json"), bad_file + ".none"
    overflow = '{"filter":{"op":"lt","args":[{"op":"add","args":[{"column":"people"},{"int":9223372036854775000}]},{"int":0}]},"by":["city"]}'
    yield ["stats"], "error: "
    yield ["stats", "--workers", "65", mixed], "error: "
    yield ["query", "--output", "xml", "--query", "{}", mixed], "arrowtab: --output is lines, json or csv\n"
    yield ["query", mixed], "arrowtab: query wants --query or --query-file\n"
    yield ["query", "--query", "{}", "--query-file", query_file, mixed], "arrowtab: --query and --query-file are two queries\n"
    yield ["query", "--query-file", "-", "-"], "arrowtab: - is standard input, which is read once\n"
    yield ["query", "--query-file", none, mixed], f"arrowtab: {none}: cannot be read\n"
    yield ["query", "--query-file", bad_file, "-", none], f"arrowtab: {none}: cannot be read\n"
    for workers in (["--workers", "1"], ["--workers", "2"]):
        yield ["stats", *workers, none], f"arrowtab: {none}: cannot be read\n"
        yield ["stats", *workers, mixed, bad_file], f"arrowtab: {bad_file}: J5 BadNumber at /batches/0/columns/0/DATA/1\n"
        yield ["validate", *workers, mixed, bad_file], f"arrowtab: {bad_file}: J5 BadNumber at /batches/0/columns/0/DATA/1\n"
        yield ["export", *workers, mixed, lists], f"arrowtab: {lists}: batch 0: A1 SchemaDiffers column=0\n"
        yield ["query", *workers, "--query", '{"by":[1]}', mixed], "arrowtab: query: J3 WrongMember at /by/0\n"
        yield ["query", *workers, "--query", '{"by":["town"]}', mixed], "arrowtab: query: Q1 NoColumn\n"
        yield ["query", *workers, "--output", "csv", "--query", '{"by":["town"]}', mixed], "arrowtab: query: Q1 NoColumn\n"
        yield ["head", *workers, mixed, bad_file], f"arrowtab: {bad_file}: J5 BadNumber at /batches/0/columns/0/DATA/1\n"
        yield ["query", *workers, "--query", overflow, mixed], "arrowtab: query: Q4 Overflow row=0\n"
        yield ["stats", *workers, "--add-column", '{"name":"m"}', mixed], "arrowtab: column: J2 MissingMember at /nullable\n"
        yield ["stats", *workers, "--add-column", field("m", nullable=False), mixed], "arrowtab: column: N1 NotNullable\n"


class Sweep:
    def __init__(self, program, library):
        self.program, self.library = program, library

    def run(self, words, number, on):
        """What a run gives in which this request is refused, and whether it was."""
        read, write = os.pipe()
        os.set_blocking(read, False)
        names = {"LD_PRELOAD": self.library, "REFUSED": str(number), "REFUSED_REPORT": str(write)}
        if on:
            names["REFUSED_ON"] = "1"
        try:
            with open(example("mixed.json"), "rb") as file:
                done = subprocess.run([self.program, *words], env={**os.environ, **names}, pass_fds=[write], stdin=file, stdout=subprocess.PIPE,
                                      stderr=subprocess.PIPE, timeout=SECONDS)
            given = (done.returncode, done.stdout, done.stderr)
        except subprocess.TimeoutExpired:
            given = (None, b"", b"it didn't end")
        finally:
            os.close(write)
            try:
                met = os.read(read, 1) == b"!"
            except BlockingIOError:
                met = False
            os.close(read)
        return given, met

    def fault(self, words, said, on):
        """Why a case isn't as it should be, and how many requests were refused in it."""
        answer, _ = self.run(words, 0, False)
        if bool(said) != bool(answer[0]) or said.encode() not in answer[2] or said and answer[1]:
            return f"{answer[0]} {answer[2][:200]!r} where nothing was refused", 1
        number = 1
        while True:
            given, met = self.run(words, number, on)
            if given not in (answer, WANTED):
                return f"request {number}: {given[0]} {given[2][:200]!r} {given[1][:60]!r}", number
            if not met:
                return (f"request {number} was not met, and the answer is another" if given != answer else None), number - 1
            number += 1


def main():
    program = os.path.abspath(sys.argv[1])
    failed, refused, count = 0, 0, 0
    with tempfile.TemporaryDirectory() as room, concurrent.futures.ThreadPoolExecutor(os.cpu_count()) as pool:
        sweep = Sweep(program, built(room))
        bad_file, query_file = os.path.join(room, "bad.json"), os.path.join(room, "query.json")
        for name, text in ((bad_file, BAD_FILE), (query_file, QUERY)):
            with open(name, "w", encoding="utf-8") as file:
                file.write(text)
        tasks = [(words, on, pool.submit(sweep.fault, words, said, on)) for words, said in cases(bad_file, query_file) for on in (False, True)]
        for words, on, task in tasks:
            found, number = task.result()
            count += 1
            refused += number
            if number == 0:
                found = found or "nothing was refused: the library wasn't loaded"
            if found:
                failed += 1
                print(f"{' '.join(words)}{', all from there on' if on else ''}: {found}", flush=True)
    print(f"{refused} requests for memory were refused, one in each run or all from one on")
    print(f"{count - failed} passed, {failed} failed")
    return 1 if failed else 0


sys.exit(main())
