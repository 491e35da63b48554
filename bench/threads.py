#!/usr/bin/env python3
"""Measures threads that only compute, started as a query starts its pieces: how long 64 of them take beside 4.

    bench/threads.py [RUNS]

Builds bench/threads.rs by rustc in a folder of its own. The runs alternate; told are the medians of the rounds of all.
"""
import os
import statistics
import subprocess
import sys
import tempfile

TOP = os.path.dirname(os.path.dirname(os.path.abspath(__file__)))
ROUNDS = 40

# pieces, KiB of stack, how they are started, turns
KINDS = [
    ("4", "8192", "tree", "1"),
    ("64", "8192", "tree", "1"),
    ("64", "8192", "tree", "0"),
    ("64", "8192", "flat", "1"),
    ("64", "8192", "flat", "0"),
    ("64", "512", "tree", "1"),
    ("16", "8192", "tree", "1"),
]


def rounds(program, kind):
    """The milliseconds of each round but the first three."""
    pieces, *others = kind
    words = [program, pieces, str(ROUNDS + 3), *others]
    told = subprocess.run(words, check=True, capture_output=True, text=True).stdout
    return [int(line) / 1000 for line in told.split()][3:]


def main():
    runs = int(sys.argv[1]) if len(sys.argv) > 1 else 3
    with tempfile.TemporaryDirectory() as folder:
        program = os.path.join(folder, "threads")
        subprocess.run(["rustc", "-O", "--edition", "2021", os.path.join(TOP, "bench", "threads.rs"), "-o", program], check=True)
        took = {kind: [] for kind in KINDS}
        for _ in range(runs):
            for kind in KINDS:
                took[kind] += rounds(program, kind)
    four = statistics.median(took[KINDS[0]])
    for (pieces, stack, start, turns), times in took.items():
        median = statistics.median(times)
        others = "with turns" if turns == "1" else "without turns"
        print(f"{pieces} pieces, {stack} KiB of stack, {start}, {others}: {median:.1f} ms, {median / four:.2f} times 4 pieces", flush=True)


main()
