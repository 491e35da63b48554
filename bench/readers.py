#!/usr/bin/env python3
"""Measures what an append beside a reader takes more than one without: a version of the table.

    bench/readers.py [RUNS]

Builds `crates/bench`. It prints the time of a version of so many batches of one row, beside a copy of a list of as many batches in `Arc`s,
and of one of 100 batches after so many appends, beside one after 100. All are differences of whole runs in processor time, each the least of many.
"""
import os
import subprocess
import sys

import programs


def seconds(subject, *words):
    """The processor time of a run."""
    run = subprocess.Popen([*programs.ours(subject), *map(str, words)], stdout=subprocess.DEVNULL)
    _, status, used = os.wait4(run.pid, 0)
    if status:
        sys.exit(f"bench: status {status}")
    return used.ru_utime + used.ru_stime


def each(runs, times, *words):
    """The microseconds of one of so many times."""
    none = min(seconds(*words, 1) for _ in range(runs))
    many = min(seconds(*words, times + 1) for _ in range(runs))
    return 1_000_000 * (many - none) / times


def main():
    runs = int(sys.argv[1]) if len(sys.argv) > 1 else 5
    for batches in (100, 1_000, 10_000, 100_000):
        times = 10_000_000 // batches
        one, copy = each(runs, times, "versions", batches, 1), each(runs, times, "arcs", batches)
        print(f"{batches:,} batches: {one:.2f} µs, a copy of as many Arcs {copy:.2f} µs, {one / copy:.2f}")
    least = None
    for entries in (100, 10_000, 1_000_000):
        one = each(runs, 100_000, "versions", entries, entries // 100)
        least = least or one
        print(f"100 batches after {entries:,} appends: {one:.2f} µs, {one / least:.2f}")


if __name__ == "__main__":
    main()
