#!/usr/bin/env python3
"""Runs `arrowtab stats` on files that are changed by chance: the shipped ones with bytes flipped, parts cut out, copied, moved or repeated,
numbers and literals put for others. Whatever is in a file, a run ends with status 0 and an output, or with status 1 and one line of a fault.

    tools/changed_files.py PROGRAM [FILES [SEED]]

The changes follow from the seed alone. The last line is 'N passed, M failed'."""
import concurrent.futures
import os
import random
import resource
import subprocess
import sys
import tempfile

TOP = os.path.dirname(os.path.dirname(os.path.abspath(__file__)))
WORDS = [b"null", b"true", b"-1", b"0", b"1e400", b"2147483647", b"2147483648", b"-9223372036854775809", b'"x"', b"[]", b"{}", b"[", b"}", b",", b'"', b"\\", b"\xff", b"\0"]
SECONDS = 10


def shipped():
    folder = os.path.join(TOP, "examples")
    for name in sorted(name for name in os.listdir(folder) if name.endswith(".json")):
        with open(os.path.join(folder, name), "rb") as file:
            yield file.read()


def span(chance, data):
    """A part of the data, mostly a short one."""
    first = chance.randrange(len(data) + 1)
    return first, min(len(data), first + chance.choice((1, 4, 16, 64, 1024)))


def change(chance, data, others):
    """The data, changed in one place."""
    first, last = span(chance, data)
    kind = chance.randrange(6)
    if kind == 0 and data:
        flipped = bytearray(data)
        flipped[first % len(data)] ^= 1 << chance.randrange(8)
        return bytes(flipped)
    if kind == 1:
        return data[:first] + data[last:]
    if kind == 2:
        return data[:last] + data[first:]
    if kind == 3:
        return data[:first] + chance.choice(WORDS) + data[last:]
    if kind == 4:
        other = chance.choice(others)
        start, end = span(chance, other)
        return data[:first] + other[start:end] + data[last:]
    return number_changed(chance, data, first)


def number_changed(chance, data, first):
    """The data with the first digit behind a place, and those right behind it, put for another number."""
    at = next((at for at in range(first, len(data)) if data[at:at + 1].isdigit()), None)
    if at is None:
        return data
    end = at
    while data[end:end + 1].isdigit():
        end += 1
    return data[:at] + chance.choice([b"0", b"1", b"2", b"7", b"255", b"2147483647", b"4294967296", b"-1"]) + data[end:]


def limited():
    resource.setrlimit(resource.RLIMIT_AS, (1 << 28,) * 2)
    resource.setrlimit(resource.RLIMIT_CPU, (SECONDS,) * 2)
    resource.setrlimit(resource.RLIMIT_CORE, (0, 0))


def fault(program, room, number, data):
    """Why the run isn't as it should be, none where it is."""
    path = os.path.join(room, str(number))
    with open(path, "wb") as file:
        file.write(data)
    try:
        run = subprocess.run([program, "stats", path], stdin=subprocess.DEVNULL, stdout=subprocess.PIPE, stderr=subprocess.PIPE, preexec_fn=limited, timeout=6 * SECONDS)
    except subprocess.TimeoutExpired:
        return "it didn't end"
    finally:
        os.remove(path)
    one_line = run.stderr.startswith(f"arrowtab: {path}: ".encode()) and run.stderr.count(b"\n") == 1 and run.stderr.endswith(b"\n")
    if run.returncode == 0 and run.stdout.startswith(b"rows ") and not run.stderr:
        return None
    if run.returncode == 1 and not run.stdout and one_line:
        return None
    return f"status {run.returncode}, {run.stdout[:80]!r}, {run.stderr[:200]!r}"


def main():
    program = os.path.abspath(sys.argv[1])
    count = int(sys.argv[2]) if len(sys.argv) > 2 else 2000
    chance = random.Random(int(sys.argv[3]) if len(sys.argv) > 3 else 1)
    files = list(shipped())
    changed = []
    for _ in range(count):
        data = chance.choice(files)
        for _ in range(chance.choice((1, 1, 2, 4, 8))):
            data = change(chance, data, files)
        changed.append(data)
    failed = 0
    with tempfile.TemporaryDirectory() as room, concurrent.futures.ThreadPoolExecutor(os.cpu_count()) as pool:
        for number, found in enumerate(pool.map(lambda it: fault(program, room, *it), enumerate(changed))):
            if found:
                failed += 1
                print(f"file {number}: {found}", flush=True)
    print(f"{count - failed} passed, {failed} failed")
    return 1 if failed else 0


sys.exit(main())
