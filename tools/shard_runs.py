"""Runs shards and tells their outcomes. A shard is a script of `sh`, which it is handed by standard input, so that no shell reads a name or a
query as words of its own: in threads here, by GNU parallel, or as tasks of Dask. Whatever ends a run here, none of its processes is left."""
import logging
import os
import re
import shlex
import signal
import subprocess
import tempfile
import threading
import time
from concurrent.futures import ThreadPoolExecutor

# How often a shard is run before it is lost.
TRIES = 3
# The seconds in which what is told to end may do so by itself.
GRACE = 5
# With these GNU parallel shows on standard error how far it is.
SHOWING = {"--progress", "--verbose", "-v", "-t"}
# Runs the program on the arguments, and ends its output by a line with its status and the first line of its fault. What no program of this kind says
# is another's, such as that of a shell which can't fork: the shard is lost, and GNU parallel is told so by the status.
SCRIPT = """{folder}
set -- {words}
exec 3>&1
fault=$("$@" 2>&1 >&3 3>&- {given}
)
status=$?
fault=${{fault%%
*}}
case "$status $fault" in
  "0 "* | "1 arrowtab: "* | "2 arrowtab: "* | "2 error: "*) end=status ;;
  *) end=lost; echo ;;
esac
printf '%s %s %s\\n' "$end" "$status" "$fault"
[ "$end" = status ]
"""


class Lost(Exception):
    """A shard that gave no answer, and why."""


def script_of(words, files, schema="", folder=None):
    """The script of a shard: the words of the program, the files' names, a file that stands before them, none where it is empty, and the folder that
    the names are of, else the one here."""
    given = "< /dev/null" if not schema else f"<< 'end of schema'\n{schema}\nend of schema"
    names = ["/dev/stdin", *files] if schema else files
    # Elsewhere a name is to be of the same folder.
    is_relative = any(not name.startswith("/") for name in files)
    there = f"cd {shlex.quote(folder or os.getcwd())} || exit" if is_relative else ""
    return os.fsencode(SCRIPT.format(folder=there, words=shlex.join([*words, "--", *names]), given=given))


def outcome(output, why):
    """The lines of a shard, its status and its fault. Where it is lost, why: what it said of itself, or else this."""
    *lines, end = output.split(b"\n")
    found = re.fullmatch(rb"(status|lost) (\d+) (.*)", lines.pop()) if lines and not end else None
    if not found:
        raise Lost(why or "it gave no answer")
    status, fault = int(found[2]), os.fsdecode(found[3])
    if found[1] == b"lost":
        raise Lost(f"status {status}" + (f", {fault}" if fault else ""))
    return lines, status, fault


def is_lost(output):
    try:
        outcome(output, "")
    except Lost:
        return True
    return False


class Processes:
    """Processes that are begun here, each in a session of its own. At the end of a `with` those that still run are ended, with all they began."""

    def __init__(self):
        self.lock, self.running, self.is_over = threading.Lock(), set(), False

    def __enter__(self):
        return self

    def run(self, words, given=None, **how):
        """What a process gives that gets these bytes."""
        with self.lock:
            if self.is_over:
                raise Lost("it was not begun")
            process = subprocess.Popen(words, stdin=subprocess.PIPE, start_new_session=True, **how)
            self.running.add(process)
        try:
            out, fault = process.communicate(given)
        finally:
            with self.lock:
                self.running.discard(process)
        return subprocess.CompletedProcess(words, process.returncode, out, fault)

    def __exit__(self, *_):
        with self.lock:
            self.is_over, left = True, list(self.running)
        try:
            for process in left:
                process.terminate()
            end = time.monotonic() + GRACE
            while time.monotonic() < end and any(process.poll() is None for process in left):
                time.sleep(0.02)
        finally:  # A signal may come while they are waited for.
            for process in left:
                kill_session(process.pid)


def kill_session(leader):
    """Kills all processes of the session that this one leads or led."""
    for name in filter(str.isdigit, os.listdir("/proc")):
        try:
            if os.getsid(int(name)) == leader:
                os.kill(int(name), signal.SIGKILL)
        except OSError:
            pass  # It has ended by itself.


def run_all(run, tasks, at_once):
    """What `run` gives of each task, so many of them at once."""
    with ThreadPoolExecutor(at_once) as pool, Processes() as processes:
        return list(pool.map(lambda task: run(processes, task), tasks))


def again_where_lost(run, scripts):
    """What `run` gives of the scripts: of each its output, and why it has none. It gets those that are lost again."""
    given = run(scripts)
    for _ in range(TRIES - 1):
        lost = [place for place, (output, _) in enumerate(given) if is_lost(output)]
        for place, once_more in zip(lost, run([scripts[place] for place in lost]) if lost else []):
            given[place] = once_more
    return given


def by_threads(scripts, at_once):
    """Runs scripts on this machine, so many at once."""

    def run(processes, script):
        ran = processes.run(["sh"], script, stdout=subprocess.PIPE, stderr=subprocess.PIPE)
        return ran.stdout, last_line(ran.stderr) or f"status {ran.returncode}"

    return again_where_lost(lambda some: run_all(run, some, at_once), scripts)


def by_parallel(scripts, options, room):
    """The same by GNU parallel, with these options: each script is a record of its standard input, ended by a zero byte. Neither the caller's shell nor
    options from elsewhere have a say."""
    if "{" in room:
        raise Lost(f"GNU parallel reads words of its own in {room!r}: another TMPDIR has to be set")
    folder = tempfile.mkdtemp(dir=room)
    size = str(max(map(len, scripts)) + 1)
    words = ["parallel", "--plain", "--will-cite", "--pipe", "-N1", "--recend", "\\0", "--rrs", "--block", size, "--retries", str(TRIES)]
    words += ["--results", f"{folder}/{{#}}", *options, "sh"]
    others = {name: it for name, it in os.environ.items() if not name.upper().startswith("PARALLEL")}
    names = {**others, "PARALLEL_SHELL": "/bin/sh", "TMPDIR": folder}
    fault = None if SHOWING & {*options} else subprocess.PIPE

    def run(processes, given):
        return processes.run(words, given, env=names, stdout=subprocess.DEVNULL, stderr=fault)

    try:
        ran = run_all(run, [b"".join(script + b"\0" for script in scripts)], 1)[0]
    except FileNotFoundError:
        raise Lost("GNU parallel isn't here (package parallel)") from None
    # It names the command, which says nothing.
    told = re.sub(rb"(?m)^parallel: (Warning|Error): (sh$)?", b"", ran.stderr or b"")
    why = last_line(told).rstrip(":") or f"status {ran.returncode} of GNU parallel"
    return [(bytes_of(f"{folder}/{number}"), why) for number in range(1, len(scripts) + 1)]


def by_dask(scripts, address):
    """The same as tasks of a scheduler of Dask."""
    try:
        from distributed import Client
    except ImportError:
        raise Lost("Dask isn't here (package python3-distributed)") from None
    logging.getLogger("distributed").setLevel(logging.CRITICAL + 1)

    def run(some):
        tasks = [client.submit(subprocess.run, ["sh"], input=script, capture_output=True, pure=False) for script in some]
        faults = [task.exception() for task in tasks]
        return [(b"", first_line(fault)) if fault else (task.result().stdout, last_line(task.result().stderr)) for task, fault in zip(tasks, faults)]

    try:
        with Client(address, set_as_default=False) as client:
            return again_where_lost(run, scripts)
    except Exception as fault:  # Whatever Dask raises, there is no answer.
        raise Lost(first_line(fault)) from None


def bytes_of(name):
    """The bytes of a file, none where there is none."""
    try:
        with open(name, "rb") as file:
            return file.read()
    except FileNotFoundError:
        return b""


def first_line(fault):
    return (str(fault).splitlines() or [type(fault).__name__])[0]


def last_line(text):
    lines = text.decode(errors="replace").split("\n")
    return next((line.strip() for line in reversed(lines) if line.strip()), "")
