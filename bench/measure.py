#!/usr/bin/env python3
"""Measures `arrowtab stats` beside another program, on a file of integers, one of integers, texts and truth values, or one of
small batches: without columns, or with one number each; or `arrowtab export` on the second.

    bench/measure.py ints|mixed|export|empty|single [MEGABYTES] [PEER..]

PEER is a program with its first arguments, to which the file's name is added; it has to print the same.
The runs alternate; printed are the medians of wall time, the peak memory, and their ratios. Only ratios of
one run on one machine mean anything.
"""
import itertools
import os
import random
import resource
import statistics
import subprocess
import sys
import tempfile
import time

TOP = os.path.dirname(os.path.dirname(os.path.abspath(__file__)))
ARROWTAB = os.path.join(TOP, "build", "arrowtab")
INTS = [("small", "int", 16, True), ("flags", "int", 8, False), ("middle", "int", 32, True), ("large", "int", 64, True)]
MIXED = INTS[2:] + [("word", "utf8"), ("truth", "bool")]
# the columns and the rows of each batch
MIXES = {"ints": (INTS, 50_000), "mixed": (MIXED, 50_000), "export": (MIXED, 50_000), "empty": ([], 0), "single": (INTS[3:], 1)}
WORDS = [f"word-{number}" for number in range(1000)]


def field(name, kind, bits=None, signed=None):
    width = f',"bitWidth":{bits},"isSigned":{"true" if signed else "false"}' if kind == "int" else ""
    return f'{{"name":"{name}","nullable":true,"type":{{"name":"{kind}"{width}}},"children":[]}}'


def int_values(draw, rows, bits, signed):
    low, high = (-(1 << bits - 1), (1 << bits - 1) - 1) if signed else (0, (1 << bits) - 1)
    quote = '"' if bits == 64 else ""
    return f'"DATA":[{",".join(f"{quote}{draw.randint(low, high)}{quote}" for _ in range(rows))}]'


def text_values(draw, rows):
    texts = [draw.choice(WORDS) for _ in range(rows)]
    offsets = itertools.accumulate((len(text) for text in texts), initial=0)
    quoted = ",".join(f'"{text}"' for text in texts)
    return f'"OFFSET":[{",".join(map(str, offsets))}],"DATA":[{quoted}]'


def values(draw, rows, kind, *width):
    if kind == "int":
        return int_values(draw, rows, *width)
    if kind == "utf8":
        return text_values(draw, rows)
    return f'"DATA":[{",".join(draw.choice("01") for _ in range(rows))}]'


def column(draw, rows, name, *kind):
    flags = ",".join("0" if draw.random() < 0.05 else "1" for _ in range(rows))
    return f'{{"name":"{name}","count":{rows},"VALIDITY":[{flags}],{values(draw, rows, *kind)}}}'


def write(path, columns, rows, size):
    draw = random.Random(1)
    with open(path, "w") as out:
        out.write('{"schema":{"fields":[' + ",".join(field(*it) for it in columns) + ']},"batches":[')
        between = ""
        while out.tell() < size:
            batch = ",".join(column(draw, rows, *it) for it in columns)
            out.write(f'{between}{{"count":{rows},"columns":[{batch}]}}')
            between = ","
        out.write("]}\n")


def run(words):
    """Returns the seconds, the peak memory in bytes and the output."""
    reader, writer = os.pipe()
    begin = time.monotonic()
    child = os.fork()
    if child == 0:
        os.close(reader)
        done = subprocess.run(words, stdout=subprocess.PIPE, check=True)
        peak = resource.getrusage(resource.RUSAGE_CHILDREN).ru_maxrss * 1024
        os.write(writer, f"{peak}\n".encode() + done.stdout)
        os._exit(0)
    os.close(writer)
    with open(reader, "rb") as told:
        peak, _, text = told.read().partition(b"\n")
    os.waitpid(child, 0)
    return time.monotonic() - begin, int(peak), text


def main():
    if len(sys.argv) < 2 or sys.argv[1] not in MIXES:
        sys.exit(__doc__)
    size = float(sys.argv[2] if len(sys.argv) > 2 else 100) * 1_000_000
    ours = [ARROWTAB, "export" if sys.argv[1] == "export" else "stats"]
    programs = [ours] + ([sys.argv[3:]] if len(sys.argv) > 3 else [])
    with tempfile.TemporaryDirectory() as room:
        path = os.path.join(room, "columns.json")
        write(path, *MIXES[sys.argv[1]], size)
        size = os.path.getsize(path)
        runs = [[run([*words, path]) for words in programs] for _ in range(5)]
    if len({it[2] for turn in runs for it in turn}) != 1:
        sys.exit("the outputs differ")
    seconds = [statistics.median(turn[k][0] for turn in runs) for k in range(len(programs))]
    peaks = [max(turn[k][1] for turn in runs) for k in range(len(programs))]
    for words, took, peak in zip(programs, seconds, peaks):
        print(f"{os.path.basename(words[0])}: {took:.3f} s, {peak / size:.1f} times the file in memory")
    if len(programs) > 1:
        print(f"of the other program's: time {seconds[0] / seconds[1]:.2f}, memory {peaks[0] / peaks[1]:.2f}")


if __name__ == "__main__":
    main()
