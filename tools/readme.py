#!/usr/bin/env python3
"""Runs each command of README.md, docs/QUERIES.md and docs/FAULTS.md, and README's Python, and compares what they print; and looks for README's Rust in
the crate that the gate runs.

    tools/readme.py PROGRAM

A command begins with `$ `, and what it prints stands below it, standard error behind standard output; what Python prints stands behind its last line.
docs/help has what the program prints of itself.
The commands of a document run one behind the other in a new folder with the shipped files, where the program is built, and the library that
`tools/library build` left. The last line is 'N passed, M failed', of commands and blocks."""
import os
import re
import shutil
import subprocess
import sys
import tempfile

TOP = os.path.dirname(os.path.dirname(os.path.abspath(__file__)))
DOCUMENTS = ("README.md", "docs/QUERIES.md", "docs/FAULTS.md")
SHIPPED = ("examples", "crates/program/data", "tools", "python")
# What asks the program about itself, and the file that has what it says.
HELP = ((["--help"], "arrowtab"), (["help", "stats"], "stats"), (["help", "schema"], "schema"), (["help", "validate"], "validate"), (["help", "head"], "head"), (["help", "export"], "export"), (["help", "query"], "query"), (["--version"], "version"))
LIBRARY = os.path.join(TOP, "build", "libselqumar.so.2")
# A command that takes longer waits for something that never comes.
SECONDS = 60


def text_of(name):
    with open(os.path.join(TOP, name)) as file:
        return file.read()


def blocks(text):
    """The language and the lines of each block."""
    return re.findall(r"^```(\w*)\n(.*?)^```$", text, re.M | re.S)


def commands(block):
    """Each command, and what is to be printed."""
    for part in ("\n" + block).split("\n$ ")[1:]:
        command, _, printed = part.partition("\n")
        yield command, printed.rstrip("\n")


def room_for(program, room):
    """A folder with the shipped files, the program and the library."""
    for name in SHIPPED:
        shutil.copytree(os.path.join(TOP, name), os.path.join(room, name), ignore=shutil.ignore_patterns("__pycache__"))
    os.mkdir(os.path.join(room, "build"))
    os.symlink(program, os.path.join(room, "arrowtab"))
    os.symlink(program, os.path.join(room, "build", "arrowtab"))
    os.symlink(LIBRARY, os.path.join(room, "build", os.path.basename(LIBRARY)))


def fault_of(words, printed, room):
    """What a command printed, where that is something else."""
    names = {name: value for name, value in os.environ.items() if name != "SELQUMAR_LIBRARY"}
    run = subprocess.run(words, cwd=room, env={**names, "PYTHONPATH": "python"}, stdin=subprocess.DEVNULL, capture_output=True, text=True, timeout=SECONDS)
    given = (run.stdout + run.stderr).rstrip("\n")
    return None if given == printed else f"$ {words[-1]}\n{given}"


def python_fault(block, room):
    """The same of lines of Python: what they print stands behind the last one."""
    return fault_of([sys.executable, "-c", block], block.rstrip("\n").rpartition("  # ")[2], room)


def is_run(block):
    """Whether the lines stand in the tour, one behind the other, however far to the right."""

    def flush(text):
        return "\n".join(line.strip() for line in text.strip("\n").split("\n"))

    folder = os.path.join("crates", "tour", "src")
    return any(f"\n{flush(block)}\n" in flush(text_of(os.path.join(folder, name))) for name in os.listdir(os.path.join(TOP, folder)))


def checks_of(name, room):
    """What each command and block of a document printed, where that is something else, else none."""
    for language, block in blocks(text_of(name)):
        for command, printed in commands(block):
            yield fault_of(["bash", "-c", command], printed, room)
        if language == "rust":
            yield None if is_run(block) else f"no lines of the tour: {block}"
        if language == "python":
            yield python_fault(block, room)


def main():
    program = os.path.abspath(sys.argv[1])
    checks = []
    for name in DOCUMENTS:
        with tempfile.TemporaryDirectory() as room:
            room_for(program, room)
            checks += checks_of(name, room)
            if name == "README.md":
                checks += [fault_of(["./arrowtab", *words], text_of(f"docs/help/{file}.txt").rstrip("\n"), room) for words, file in HELP]
    faults = list(filter(None, checks))
    print("\n".join(faults), end="\n" if faults else "")
    print(f"{len(checks) - len(faults)} passed, {len(faults)} failed")
    return 1 if faults else 0


sys.exit(main())
