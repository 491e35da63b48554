"""How tools/shards is used, case by case: from other shells, with what is set elsewhere, at real sizes, with words and programs that are wrong,
ended by a signal, and over a scheduler of Dask. Each case is a name and its fault, none where it is as it should be."""
import contextlib
import json
import os
import shutil
import signal
import socket
import subprocess
import sys
import time

SHARDS = os.path.join(os.path.dirname(os.path.abspath(__file__)), "shards")
SECONDS = 120
ROWS = '{"by":["t"],"aggs":[{"agg":"rows"}]}'
BACKSLASH = json.dumps({"filter": {"op": "eq", "args": [{"column": "t"}, {"text": "a\\b"}]}, "aggs": [{"agg": "rows"}]})
# A shell that reads it as words of its own runs a command.
UNFRIENDLY = "\\'\";touch pwned #"
PARALLEL = "--parallel=--jobs 2"


def given(words, room, env=None, **how):
    """The status of a command in a folder, and both its outputs."""
    how = how if "input" in how else {"stdin": subprocess.DEVNULL, **how}
    run = subprocess.run(words, cwd=room, env={**os.environ, **(env or {})}, capture_output=True, timeout=SECONDS, **how)
    return run.returncode, run.stdout, run.stderr


def difference(found, wanted):
    return None if found == wanted else f"{found!r:.400} and not {wanted!r:.400}"


def same(program, room, query, names, *options, env=None, python=()):
    """Whether shards give what one machine gives."""
    wanted = given([program, "query", "--query", query, "--", *names], room)
    return difference(given([*python, SHARDS, "--arrowtab", program, *options, "--", query, *names], room, env), wanted)


def refusal(words, room, told, **how):
    """Whether words are refused by a line that has this."""
    status, out, fault = given(words, room, **how)
    return difference((status, out, told in fault.decode(), b"Traceback" in fault), (2, b"", True, False))


def texts_file(*texts):
    """A file of one column of texts."""
    offsets = [0]
    for text in texts:
        offsets.append(offsets[-1] + len(text.encode()))
    field = {"name": "t", "nullable": True, "type": {"name": "utf8"}, "children": []}
    made = {"name": "t", "count": len(texts), "VALIDITY": [1] * len(texts), "OFFSET": offsets, "DATA": list(texts)}
    return {"schema": {"fields": [field]}, "batches": [{"count": len(texts), "columns": [made]}]}


def numbers_file(columns):
    """A file of one row, with so many columns of numbers."""
    kind = {"name": "int", "bitWidth": 32, "isSigned": True}
    fields = [{"name": f"c{place}", "nullable": True, "type": kind, "children": []} for place in range(columns)]
    made = [{"name": f"c{place}", "count": 1, "VALIDITY": [1], "DATA": [place]} for place in range(columns)]
    return {"schema": {"fields": fields}, "batches": [{"count": 1, "columns": made}]}


def folder(room, name, files=None):
    """A new folder with these files, each a text or a value of JSON."""
    made = os.path.join(room, name)
    os.mkdir(made)
    for file, value in (files or {}).items():
        with open(os.path.join(made, file), "w", encoding="utf-8") as out:
            out.write(value if isinstance(value, str) else json.dumps(value))
    return made


def executable(room, name, body):
    path = os.path.join(room, name)
    with open(path, "w", encoding="utf-8") as file:
        file.write(f"#!/bin/sh\n{body}\n")
    os.chmod(path, 0o755)
    return path


# ---- shells

# Stands in for ssh: its last word goes to the shell of a host, as ssh has a login shell read it.
HOST = """while :; do case $1 in -*) shift ;; *) break ;; esac; done
shift
[ "$1" != -- ] || shift
exec env -u PARALLEL_SHELL "$SHELL_OF_HOST" -c "$*" """


def shell_cases(program, room):
    """Whatever shell is in between, no name and no query is read by it."""
    at = folder(room, "shells", {"a.json": texts_file("a\\b", "a\\b", "b"), UNFRIENDLY: texts_file("a\\b", "a\\b")})
    names = ["a.json", UNFRIENDLY]
    wanted = given([program, "query", "--query", BACKSLASH, "--", *names], at)
    ssh = executable(at, "ssh-stand-in", HOST)
    options = ["--arrowtab", program, "--shards", "2"]
    for shell in ("sh", "bash", "fish", "tcsh"):
        if not shutil.which(shell):
            print(f"not tried: {shell}", flush=True)
            continue
        for what, way, env in [
            ("started from", [], {}),
            ("GNU parallel, started from", [PARALLEL], {}),
            ("GNU parallel, PARALLEL_SHELL is", [PARALLEL], {"PARALLEL_SHELL": shell}),
            ("GNU parallel, a host with", [f"--parallel=-S '2/{ssh} host'"], {"SHELL_OF_HOST": shutil.which(shell), "SHELL": shutil.which(shell)}),
        ]:
            with open(os.path.join(at, "words.json"), "w", encoding="utf-8") as file:
                json.dump([SHARDS, *options, *way, "--", BACKSLASH, *names], file)
            begin = executable(at, "begin", f"exec {sys.executable} -c 'import json, os; words = json.load(open(\"words.json\")); os.execv(words[0], words)'")
            # The shell waits for it, since a command comes behind.
            found = given([shell, "-c", f"{begin} ; true"], at, env)
            yield f"{what} {shell}", difference(found[1:], wanted[1:]) or difference(os.path.exists(os.path.join(at, "pwned")), False)
            with contextlib.suppress(OSError):
                os.remove(os.path.join(at, "pwned"))


def elsewhere_cases(program, room):
    """What is set elsewhere, for GNU parallel or for Python, has no say."""
    at = folder(room, "elsewhere", {"a.json": texts_file("a", "b"), "b.json": texts_file("b"), "é.json": texts_file("é")})
    for options in ("-v", "--colsep ,", "-q", "-n 2", "--tmux"):
        yield f"$PARALLEL is {options}", same(program, at, ROWS, ["a.json", "b.json"], PARALLEL, env={"PARALLEL": options})
    os.mkdir(os.path.join(at, ".parallel"))
    with open(os.path.join(at, ".parallel", "config"), "w", encoding="utf-8") as file:
        file.write("-v --colsep ,\n")
    for name in ("PARALLEL_ENV", "parallel_bash_environment"):
        yield f"${name}", same(program, at, ROWS, ["a.json", "b.json"], PARALLEL, env={name: "touch pwned"}) or difference(os.path.exists(f"{at}/pwned"), False)
    braces = folder(at, "{= touch =}")
    found = given([SHARDS, "--arrowtab", program, PARALLEL, ROWS, "a.json"], at, {"TMPDIR": braces})
    yield "a TMPDIR that GNU parallel reads", difference((found[0], found[2].count(b"\n"), b"TMPDIR" in found[2]), (3, 1, True))
    for name, python, env in [
        ("PYTHONSAFEPATH", [], {"PYTHONSAFEPATH": "1"}),
        ("python3 -I", [sys.executable, "-I"], {}),
        ("a locale of ASCII", [], {"LC_ALL": "C", "PYTHONCOERCECLOCALE": "0", "PYTHONUTF8": "0"}),
    ]:
        yield name, same(program, at, ROWS, ["a.json", "é.json"], env=env, python=python)
    # Where a stack has more than there is, no thread begins.
    words = ["sh", "-c", 'ulimit -s 4000000 && ulimit -v 2000000 && exec "$@"', "sh", SHARDS, "--arrowtab", program, ROWS, "a.json"]
    yield "no threads", difference(given(words, at), (3, b"", b"shards: can't start new thread\n"))
    yield "a file of options at home", same(program, at, ROWS, ["a.json", "b.json"], PARALLEL, env={"HOME": at, "PARALLEL_HOME": os.path.join(at, ".parallel")})


# ---- sizes

WAYS = {"threads": "--jobs=2", "GNU parallel": PARALLEL}


def size_cases(program, room):
    at = folder(room, "sizes", {"wide.json": numbers_file(600), "tall.json": texts_file("a", "b"), "few.json": numbers_file(3)})
    sums = json.dumps({"aggs": [{"agg": "sum", "column": f"c{place % 3}"} for place in range(3200)]})
    text = json.dumps({"filter": {"op": "eq", "args": [{"column": "t"}, {"text": "x" * 70000}]}, "aggs": [{"agg": "rows"}]})
    many = folder(at, "many")
    for place in range(25000):
        os.link(os.path.join(at, "tall.json"), os.path.join(many, f"a file of many, of which each has a long name, {place:05}.json"))
    with open(os.path.join(at, "names"), "w", encoding="utf-8") as file:
        file.write("".join(f"many/{name}\n" for name in sorted(os.listdir(many))))
    for what, way in WAYS.items():
        every = {"by": [f"c{place}" for place in range(600)], "aggs": [{"agg": "rows"}]}
        yield f"600 columns, {what}", same(program, at, json.dumps(every), ["wide.json"] * 4, way, "--shards=4")
        yield f"a query of {len(sums)} bytes, {what}", same(program, at, sums, ["few.json"] * 4, way, "--shards=4")
        yield f"a query of {len(text)} bytes, {what}", same(program, at, text, ["tall.json"] * 2, way)
        found = given([SHARDS, "--arrowtab", program, way, "--files-from=names", ROWS], at)
        yield f"25,000 files, {what}", difference(found, (0, b'"a" 25000\n"b" 25000\n', b""))
    with open(os.path.join(at, "zeros"), "w", encoding="utf-8") as file:
        file.write("tall.json\0tall.json\0")
    found = given([SHARDS, "--arrowtab", program, "--files-from=zeros", ROWS, "tall.json"], at)
    yield "names that end by a zero byte", difference(found, (0, b'"a" 3\n"b" 3\n', b""))


# ---- faults and losses


def stage_cases(program, room):
    """Of several faults the one of one machine is reported, whatever the files are called."""
    good, other, none = texts_file("a", "b"), numbers_file(1), "{"
    names = ["query", "query: J1 NotJson", "query: Q1 NoColumn", "x: batch 0: A1 y", "x: batch 0: A1 SchemaDiffers", "x: J1 NotJson", "a\\b\n.json"]
    at = folder(room, "stages", {"a.json": good, "other.json": other, **{name: none for name in names}})
    bare = folder(room, "stages without", {"a.json": good, "other.json": other})
    for name in names:
        for files in (["a.json", "other.json", name], ["a.json", name, "other.json"]):
            yield f"faults of {files}", same(program, at, ROWS, files, "--shards=3")
            yield f"faults of {files}, of which one isn't there", same(program, bare, ROWS, files, "--shards=3")
        yield f"a fault of {name!r} and of the query", same(program, at, '{"by":["w"]}', ["a.json", name], "--shards=2")
        yield f"a fault of {name!r} and a query that is none", same(program, at, "[", [name, name], "--shards=2")
    yield "each file is called query", same(program, at, ROWS, ["query", "query"], "--shards=2")


def loss_cases(program, room):
    """Why there is no answer is told in a line."""
    at = folder(room, "losses", {"a.json": texts_file("a", "b"), "b.json": texts_file("b")})
    of = ["a.json", "b.json"]
    none = json.dumps({"aggs": [{"agg": "rows"}]})
    ended = executable(at, "ended", "echo 'no more of this' >&2; exit 7")
    silent = executable(at, "silent", "exit 0")
    half = executable(at, "half", "printf '\"a\" 1\\n\"b'")
    words = executable(at, "words", "echo some words")
    forks = executable(at, "forks", "echo 'sh: 0: Cannot fork' >&2; exit 2")
    once = executable(at, "once", f'mkdir "$0 $HOME" 2> /dev/null && exec ./forks\nexec "{program}" "$@"')
    lost = b"shards: shard 1 of 2 is lost: "
    for what, way in WAYS.items():
        for name, stands, query, told in [
            ("ends with status 7", ended, ROWS, lost + b"status 7, no more of this\n"),
            ("prints nothing where a line has to be", silent, none, lost + b"its lines are no groups\n"),
            ("prints half a line", half, ROWS, lost),
            ("ends with another's status 2", forks, ROWS, lost + b"status 2, sh: 0: Cannot fork\n"),
            ("prints what is no group", words, ROWS, lost + b"its lines are no groups\n"),
        ]:
            found = given([SHARDS, "--arrowtab", stands, "--shards=2", way, query, *of], at)
            yield f"a program that {name}, {what}", difference((found[0], found[1], found[2][:len(told)], found[2].count(b"\n")), (3, b"", told, 1))
        found = given([SHARDS, "--arrowtab", once, "--shards=2", way, ROWS, *of], at, {"HOME": what})
        yield f"another's status 2, once, {what}", difference(found, given([program, "query", "--query", ROWS, *of], at))
    slow = executable(at, "slow", "sleep 60")
    for option, stands, told in [("--jbos", program, b"jbos"), ("--timeout x", program, b"--timeout"), ("-S host.invalid", program, b"host.invalid"), ("--timeout 1", slow, b"timed out")]:
        found = given([SHARDS, "--arrowtab", stands, "--parallel", option, ROWS, *of], at)
        yield f"GNU parallel, {option}", difference((found[0], found[1], told in found[2], found[2].count(b"\n")), (3, b"", True, 1))
    bare = folder(at, "bin")
    for name in ("env", "sh", "python3"):
        os.symlink(sys.executable if name == "python3" else shutil.which(name), os.path.join(bare, name))
    found = given([SHARDS, "--arrowtab", program, "--parallel=", ROWS, *of], at, {"PATH": bare})
    yield "no GNU parallel", difference(found, (3, b"", b"shards: GNU parallel isn't here (package parallel)\n"))
    found = given([SHARDS, "--arrowtab", program, ROWS, *of], at, {"PATH": bare})
    yield "threads need none", difference(found, given([program, "query", "--query", ROWS, *of], at))
    found = given([sys.executable, "-S", SHARDS, "--arrowtab", program, "--dask=tcp://127.0.0.1:1", ROWS, *of], at, {"PYTHONPATH": ""})
    yield "no Dask", difference(found, (3, b"", b"shards: Dask isn't here (package python3-distributed)\n"))


def word_cases(program, room):
    """Words that are wrong are refused, and those behind `--` are names."""
    at = folder(room, "words", {"a.json": texts_file("a", "b"), "-x.json": texts_file("b"), "--dask=host:8786": texts_file("b"), "names": "a.json\n"})
    for name, words, told in [
        ("--shards 0", ["--shards", "0", ROWS, "a.json"], "'0' is no number from 1 on"),
        ("--shards -3", ["--shards=-3", ROWS, "a.json"], "'-3' is no number from 1 on"),
        ("no file", [ROWS], "a query and a file have to be there"),
        ("no query", ["--files-from=names"], "a query and a file have to be there"),
        ("a program that isn't there", ["--arrowtab", "./nothing", ROWS, "a.json"], "./nothing isn't there, or is no program"),
        ("two ways", ["--dask=host:1", "--parallel=", ROWS, "a.json"], "not allowed with"),
        ("--dask local", ["--dask", "local", ROWS, "a.json"], "'local' is no address"),
        ("names that aren't there", ["--files-from=nothing", ROWS], "nothing"),
    ]:
        yield name, refusal([SHARDS, "--arrowtab", program, *words], at, told)
    tree = folder(at, "tree")
    shutil.copytree(os.path.dirname(SHARDS), os.path.join(tree, "tools"))
    found = given([os.path.join(tree, "tools", "shards"), ROWS, "a.json"], at)
    yield "no program is built", difference((found[0], found[1], f"{tree}/build/arrowtab isn't there" in found[2].decode()), (2, b"", True))
    os.mkdir(os.path.join(tree, "build"))
    os.symlink(program, os.path.join(tree, "build", "arrowtab"))
    found = given([os.path.join(tree, "tools", "shards"), ROWS, "a.json"], at)
    yield "the tree's program", difference(found, (0, b'"a" 1\n"b" 1\n', b""))
    names = ["-x.json", "--dask=host:8786", "a.json"]
    yield "names behind --", same(program, at, ROWS, names)
    os.mkfifo(os.path.join(at, "pipe"))
    yield "a pipe", refusal([SHARDS, "--arrowtab", program, ROWS, "pipe"], at, "pipe can be read only once")
    for where in ("> /dev/full", ">&-"):
        found = given(["sh", "-c", f'"$@" {where}', "sh", SHARDS, "--arrowtab", program, ROWS, "a.json"], at)
        wanted = given(["sh", "-c", f'"$@" {where}', "sh", program, "query", "--query", ROWS, "a.json"], at)
        yield f"standard output {where}", difference(found, wanted)
    name = b"\xff.json"
    wanted = given([program.encode(), b"query", b"--query", ROWS.encode(), b"a.json", name], at)
    yield "a name that is no UTF-8", difference(given([SHARDS.encode(), b"--arrowtab", program.encode(), ROWS.encode(), b"a.json", name], at), wanted)


def name_cases(program, room):
    """Behind the query all are names, whatever they look like; those of what a shard can't read are refused."""
    names = ["--parallel=touch pwned; .json", "--dask=host:8786", "--", "-h", "-x.json"]
    at = folder(room, "names", {"a.json": texts_file("a", "b"), **{name: texts_file("b") for name in names}})
    begin, asked = [SHARDS, "--arrowtab", program], ["query", "--query", ROWS, "--"]
    for words, files in [(["a.json", *names], ["a.json", *names]), (["--", *names], names), (names[:2] * 2, names[:2] * 2)]:
        yield f"files {words}", difference(given([*begin, ROWS, *words], at), given([program, *asked, *files], at)) or difference(os.path.exists(f"{at}/pwned"), False)
    for link, to in (("link", "/dev/stdin"), ("again", "link"), ("fd", "/dev/fd")):
        os.symlink(to, os.path.join(at, link))
    for name in ("-", "/dev/stdin", "/dev/fd/0", "/proc/self/fd/0", "/proc/thread-self/fd/3", "link", "./again", "fd/0"):
        yield f"{name} as a file", refusal([*begin, ROWS, "a.json", name], at, f"{name} can be read by this process alone")
    closed = ["sh", "-c", '"$@" <&-', "sh", *begin, "--files-from", "-", ROWS]
    yield "names of a standard input that is closed", refusal(closed, at, "standard input is closed")
    for what, lines, files in [
        ("all end by CR LF", b"a.json\r\n-x.json\r\n", ["a.json", "-x.json"]),
        ("all but the last end by CR LF", b"a.json\r\n-x.json", ["a.json", "-x.json"]),
        ("one ends by CR LF", b"a.json\n-x.json\r\n", ["a.json", "-x.json\r"]),
    ]:
        found = given([*begin, "--files-from=-", ROWS], at, input=lines)
        yield f"names of which {what}", difference(found, given([program, *asked, *files], at))


# ---- signals


def left_over(mark):
    """The processes that have this text in what they were started with."""
    found = []
    for number in filter(str.isdigit, os.listdir("/proc")):
        with contextlib.suppress(OSError), open(f"/proc/{number}/environ", "rb") as file:
            if mark.encode() in file.read() and int(number) != os.getpid():
                found.append(number)
    return found


def signal_cases(room):
    """What is ended by a signal leaves no process and no folder."""
    at = folder(room, "signals", {"a.json": texts_file("a")})
    slow = executable(at, "slow", "echo >> begun\nsleep 300 &\nsleep 300")
    further = (signal.SIGQUIT, signal.SIGALRM, signal.SIGUSR1, signal.SIGXCPU, signal.SIGIO, signal.SIGRTMIN)
    for what, way in WAYS.items():
        for number in (signal.SIGTERM, signal.SIGINT, signal.SIGHUP, *(further if what == "threads" else ())):
            rest = folder(at, f"rest {what} {number}")
            env = {**os.environ, "TMPDIR": rest, "HOME": at}
            words = [SHARDS, "--arrowtab", slow, way, "--shards=4", ROWS, *["a.json"] * 4]
            begin = subprocess.Popen(words, cwd=at, env=env, stdin=subprocess.DEVNULL, stdout=subprocess.PIPE, stderr=subprocess.PIPE, preexec_fn=heeded)
            end = time.monotonic() + SECONDS
            while not os.path.exists(os.path.join(at, "begun")) and time.monotonic() < end:
                time.sleep(0.02)
            begin.send_signal(number)
            told = begin.communicate(timeout=SECONDS)
            with contextlib.suppress(FileNotFoundError):
                os.remove(os.path.join(at, "begun"))
            found = begin.returncode, told, left_over(rest), os.listdir(rest)
            yield f"{number.name}, {what}", difference(found, (-number, (b"", b""), [], []))


def heeded():
    """A shell that starts something in the background has it ignore these."""
    for number in (signal.SIGINT, signal.SIGHUP, signal.SIGQUIT):
        signal.signal(number, signal.SIG_DFL)


# ---- Dask


def python_with_dask():
    """A Python that has Dask, none where there is none."""
    for python in (sys.executable, "/usr/bin/python3"):
        with contextlib.suppress(OSError):
            if subprocess.run([python, "-c", "import distributed"], capture_output=True).returncode == 0:
                return python
    return None


def keyed(at):
    """What tells Dask of a key that this folder alone has, so that no one else on the machine has a say."""
    key, cert = os.path.join(at, "key"), os.path.join(at, "cert")
    words = ["openssl", "req", "-x509", "-newkey", "rsa:2048", "-nodes", "-keyout", key, "-out", cert, "-days", "2", "-subj", "/CN=shards"]
    subprocess.run(words, check=True, capture_output=True)
    tls = {f"{of}__{what}": value for of in ("SCHEDULER", "WORKER", "CLIENT") for what, value in (("KEY", key), ("CERT", cert))}
    return {"DASK_DISTRIBUTED__COMM__REQUIRE_ENCRYPTION": "True", **{f"DASK_DISTRIBUTED__COMM__TLS__{name}": it for name, it in {"CA_FILE": cert, **tls}.items()}}


def free_port():
    with socket.socket() as it:
        it.bind(("127.0.0.1", 0))
        return it.getsockname()[1]


@contextlib.contextmanager
def scheduler(python, at, env):
    """The address of a scheduler with a worker, on the loopback address."""
    address = f"tls://127.0.0.1:{free_port()}"
    quiet = {"env": {**os.environ, **env}, "cwd": at, "stdin": subprocess.DEVNULL, "stdout": subprocess.DEVNULL, "stderr": subprocess.DEVNULL}
    begin = [python, "-m", "distributed.cli.dask_scheduler", "--host", address, "--no-dashboard", "--no-show"]
    work = [python, "-m", "distributed.cli.dask_worker", address, "--host", "127.0.0.1", "--nworkers", "1", "--nthreads", "2", "--no-dashboard", "--no-nanny"]
    begun = [subprocess.Popen(words, **quiet) for words in (begin, [*work, "--local-directory", at])]
    try:
        yield address
    finally:
        for process in reversed(begun):
            process.terminate()
        for process in begun:
            process.wait(SECONDS)


def dask_cases(program, room):
    python = python_with_dask()
    if not python or not shutil.which("openssl"):
        print("not tried: dask", flush=True)
        return
    elsewhere = folder(room, "worker")
    at = folder(room, "dask", {"a.json": texts_file("a\\b", "b"), "b.json": texts_file("b"), UNFRIENDLY: texts_file("a\\b"), "other.json": numbers_file(1)})
    env = keyed(elsewhere)
    with scheduler(python, elsewhere, env) as address:
        for name, query, files in [
            ("an answer", ROWS, ["a.json", UNFRIENDLY, "b.json"]),
            ("a text", BACKSLASH, ["a.json", UNFRIENDLY, "b.json"]),
            ("a fault", ROWS, ["a.json", "other.json"]),
        ]:
            wanted = given([program, "query", "--query", query, "--", *files], at)
            words = [python, SHARDS, "--arrowtab", program, "--dask", address, "--", query, *files]
            yield f"Dask, {name}", difference(given(words, at, env), wanted)
        ended = executable(at, "ended", "echo 'no more of this' >&2; exit 7")
        found = given([python, SHARDS, "--arrowtab", ended, "--dask", address, ROWS, "a.json"], at, env)
        yield "Dask, a shard is lost", difference(found, (3, b"", b"shards: shard 1 of 1 is lost: status 7, no more of this\n"))
        found = given([python, SHARDS, "--arrowtab", program, "--dask", "tcp://127.0.0.1:1", ROWS, "a.json"], at, {"DASK_DISTRIBUTED__COMM__TIMEOUTS__CONNECT": "1s"})
        yield "Dask, no scheduler", difference((found[0], found[1], found[2].startswith(b"shards: "), found[2].count(b"\n")), (3, b"", True, 1))


def cases(program, room):
    for some in (shell_cases, elsewhere_cases, size_cases, stage_cases, loss_cases, word_cases, name_cases, dask_cases):
        yield from some(program, room)
    yield from signal_cases(room)
