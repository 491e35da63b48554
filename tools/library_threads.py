#!/usr/bin/env python3
"""Sixteen threads ask tables that four others open and close, for so many seconds.

    tools/library_threads.py SECONDS

It prints each fault: another answer, a table that is refused though nobody closes it, one that is open once it was closed, memory that stays
taken. Without one it prints nothing, and ends with status 0."""
import os
import random
import sys
import threading
import time

import selqumar

ASK, OPEN = 16, 4
QUERY = {"by": ["city"], "aggs": [{"agg": "rows"}, {"agg": "sum", "column": "people"}]}
# Tables that are closed, of which calls may still come to an end.
LATELY = 200
MOST_GROWTH = 32 << 20


class Slot:
    """A table, and whether it is being closed."""

    def __init__(self, files):
        self.table, self.is_closing = selqumar.Table.of_files(files), False


class Run:
    def __init__(self, files):
        self.files, self.faults, self.is_over = files, [], False
        self.slots = [Slot(files) for _ in range(OPEN)]
        self.wanted = self.slots[0].table.query(QUERY)

    def ask(self):
        """Asks tables, until it is over."""
        chance = random.Random()
        while not self.is_over:
            slot = chance.choice(self.slots)
            try:
                if slot.table.query(QUERY) != self.wanted:
                    self.faults.append("another answer")
            except ValueError as fault:
                if not slot.is_closing:
                    self.faults.append(f"a table that nobody closes: {fault}")

    def reopen(self, place):
        """Puts a new table in place of another, and closes that, until it is over."""
        lately = []
        while not self.is_over:
            old, self.slots[place] = self.slots[place], Slot(self.files)
            old.is_closing = True
            old.table.close()
            lately.append(old.table._handle)
            if len(lately) > LATELY:
                self.look_at(lately.pop(0))
        time.sleep(1)
        for handle in lately:
            self.look_at(handle)

    def look_at(self, handle):
        if handle.is_open:
            self.faults.append("a table that was closed is open")


def memory():
    """The bytes that the process has in memory."""
    with open("/proc/self/statm", encoding="ascii") as file:
        return int(file.read().split()[1]) * os.sysconf("SC_PAGE_SIZE")


def main():
    seconds = float(sys.argv[1])
    path = os.path.join(os.path.dirname(os.path.dirname(os.path.abspath(__file__))), "examples", "mixed.json")
    with open(path, "rb") as file:
        run = Run([file.read() + b" " * 100000])
    threads = [threading.Thread(target=run.ask) for _ in range(ASK)]
    threads += [threading.Thread(target=run.reopen, args=(place,)) for place in range(OPEN)]
    for thread in threads:
        thread.start()
    time.sleep(seconds / 5)
    before = memory()
    time.sleep(seconds * 4 / 5)
    run.is_over = True
    for thread in threads:
        thread.join()
    if memory() > before + MOST_GROWTH:
        run.faults.append(f"{memory() - before} bytes more are taken")
    for fault in sorted({*run.faults}):
        print(f"{run.faults.count(fault)} times: {fault}")
    return 1 if run.faults else 0


if __name__ == "__main__":
    sys.exit(main())
