#!/usr/bin/env python3
"""Refuses each request for memory of the calls that `test_growths` makes, one in each run of a call, and then all from one on.

    tools/refused_calls.py PROGRAM

The program says itself which requests are refused, and looks at what came of it: see `refusals.c`. It prints a line for each call; its last
line is 'N passed, M failed', of calls."""
import os
import subprocess
import sys
import tempfile

from refusals import built

# All calls together take seconds; what takes longer waits for something that never comes.
SECONDS = 600


def main():
    program = os.path.abspath(sys.argv[1])
    with tempfile.TemporaryDirectory() as room:
        names = {**os.environ, "LD_PRELOAD": built(room)}
        try:
            return subprocess.run([program], env=names, stdin=subprocess.DEVNULL, timeout=SECONDS).returncode
        except subprocess.TimeoutExpired:
            print(f"{program} didn't end")
            return 1


sys.exit(main())
