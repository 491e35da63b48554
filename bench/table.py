#!/usr/bin/env python3
"""Measures a table that batches are admitted to, one by one.

    bench/table.py [RUNS]

Builds `crates/bench`. For batches of 1,000 rows that bring no new text after the first one, and for batches with 10 new texts each,
it prints how many rows are admitted in a second, and the time of the last hundred of 1,000 batches beside that of the first hundred.
Then it prints what a batch of one row takes whose text is new to a table of so many texts, beside a copy of the memory of that many
texts, and beside a batch whose text isn't new. All are differences of whole runs in processor time, each the least of many.
"""
import os
import subprocess
import sys
import time

import programs

APPENDS = 100


def seconds(*words):
    """The processor time of a run that admits a batch of so many rows, and so many of so many rows with so many new texts."""
    run = subprocess.Popen([*programs.ours("table"), *map(str, words), "0"], stdout=subprocess.DEVNULL)
    _, status, used = os.wait4(run.pid, 0)
    if status:
        sys.exit(f"bench: status {status}")
    return used.ru_utime + used.ru_stime


def least(runs, *cases):
    """Of each case the least of many runs in turn."""
    times = {case: [] for case in cases}
    for _ in range(runs):
        for case in cases:
            times[case].append(seconds(*case))
    return [min(times[case]) for case in cases]


def copy(texts):
    """What a copy to new memory takes of the bytes and offsets of so many texts."""
    memory = bytes(sum(len(str(number)) for number in range(texts)) + 4 * (texts + 1))
    times = []
    for _ in range(100):
        begin = time.process_time()
        bytearray(memory)
        times.append(time.process_time() - begin)
    return min(times)


def main():
    runs = int(sys.argv[1]) if len(sys.argv) > 1 else 20
    for fresh in (0, 10):
        none, first, most, last = least(runs, *((1000, batches, 1000, fresh) for batches in (0, 100, 900, 1000)))
        print(f"{fresh} new texts a batch: {1_000_000 / (last - none):,.0f} rows a second, "
              f"the last hundred batches {1000 * (last - most):.1f} ms, the first {1000 * (first - none):.1f} ms, {(last - most) / (first - none):.2f}")
    for texts in (100, 1000, 10000, 100000, 1000000):
        none, new, old = least(runs, (texts, 0, 1, 1), (texts, APPENDS, 1, 1), (texts, APPENDS, 1, 0))
        each, without, beside = (new - none) / APPENDS, (old - none) / APPENDS, copy(texts)
        print(f"{texts:,} texts: a new one {1_000_000 * each:.1f} µs, no new one {1_000_000 * without:.1f} µs, a copy {1_000_000 * beside:.1f} µs, {each / beside:.2f}")


if __name__ == "__main__":
    main()
