#!/usr/bin/env python3
"""Measures kernels, selections and pools beside plain Rust loops with the same checks.

    bench/kernels.py [RUNS [KERNEL..]]

Builds `crates/bench`, and bench/kernels.rs by cargo in a folder of its own; where VENDORED names a folder of vendored
crates, cargo takes indexmap from there. The runs alternate. Printed are, for each kernel, the medians of the
milliseconds of one call and their ratio: what a process takes for many calls less what it takes for one, so that
making the columns doesn't count.
"""
import statistics
import subprocess
import sys
import tempfile
import time

import programs

KERNELS = [("add", 8_000_000, 10), ("less", 8_000_000, 40), ("add-number", 8_000_000, 10), ("greater-number", 8_000_000, 40), ("equal", 1_000_000, 40),
           ("and", 64_000_000, 60), ("filter", 8_000_000, 20), ("take", 8_000_000, 5), ("take-texts", 1_000_000, 8), ("recode-few", 1_000_000, 20),
           ("recode-many", 1_000_000, 5)]


def seconds(program, kernel, rows, times):
    begin = time.monotonic()
    out = subprocess.run([*program, kernel, str(rows), str(times)], stdout=subprocess.PIPE, check=True).stdout
    return time.monotonic() - begin, out


def one_call(program, kernel, rows, times):
    once, first = seconds(program, kernel, rows, 1)
    often, last = seconds(program, kernel, rows, times + 1)
    assert first == last
    return 1000 * (often - once) / times, first


def main():
    runs = int(sys.argv[1]) if len(sys.argv) > 1 else 5
    with tempfile.TemporaryDirectory() as folder:
        ours_words, peer_words = programs.ours("kernels"), [programs.plain("kernels", folder)]
        for kernel, rows, times in KERNELS:
            if sys.argv[2:] and kernel not in sys.argv[2:]:
                continue
            pairs = []
            for _ in range(runs):
                ours, said = one_call(ours_words, kernel, rows, times)
                theirs, told = one_call(peer_words, kernel, rows, times)
                assert said == told, (kernel, said, told)
                pairs.append((ours, theirs))
            ours = statistics.median(pair[0] for pair in pairs)
            theirs = statistics.median(pair[1] for pair in pairs)
            print(f"{kernel} of {rows} rows: {ours:.2f} ms beside {theirs:.2f} ms, {ours / theirs:.2f}", flush=True)


main()
