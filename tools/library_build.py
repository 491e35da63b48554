"""Whether `tools/library` and `./arrowtab` build what stands, over a kit that stands in for the real one: it proves nothing, and what it builds has
the text of one source. Each case is a name and its fault, none where it is as it should be."""
import contextlib
import os
import re
import shutil
import subprocess
import time

from refusals import TOP, compiler
from shard_use import left_over

SECONDS = 120
# The folder of all: no word of it is to be read by a shell.
FOLDER = "-of 'a' \"name\"\n$(touch pwned) `touch pwned` %s \\ *"
CRATES = """# NAME: what it uses.
colbits:
reports: colbits thiserror
embed: colbits reports
selqumar staticlib: embed reports
program: reports
tour: colbits
"""
# Writes what it is asked for; of each crate it leaves the text of its first module, and of programs one that prints it.
RT = """#!/bin/sh
case $1 in doc) echo "$KIT/START-HERE.md" && exit ;; esac
echo run >> "$KIT/runs"
[ ! -e "$KIT/rt hangs" ] || exec sleep 300
for crate in $(sed -n 's/^\\([a-z][a-z_0-9]*\\).*/\\1/p' crates.txt); do
  [ ! -e "crates/$crate/must-fail" ] && [ ! -e "crates/$crate/out" ] || { echo "rt: $crate has more than its sources"; exit 1; }
  grep -q 'cannot be proved' "crates/$crate/src/"*.rt && { echo "rt: $crate is not proved"; exit 1; }
  mkdir -p "crates/$crate/out/rlib/$crate.rlib"
  cat "crates/$crate/src/"*.rt > "crates/$crate/out/rlib/$crate.rlib/format"
  echo "rt: $crate proved"
  [ ! -e "$KIT/slow" ] || sleep "$(cat "$KIT/slow")"
done
[ ! -d crates/program ] || { printf '#!/bin/sh\\necho "$1"; grep marker <<E\\n%s\\nE\\n' "$(grep -h marker crates/reports/src/*.rt)" > crates/program/out/program && chmod +x crates/program/out/program; }
"""
# Stands in for what runs the steps of the gate.
PYTHON = """#!/bin/sh
echo "$PWD" >> "$KIT/steps"
echo "1 passed, 0 failed"
"""
RATTLE = """#!/bin/sh
[ ! -e "$KIT/rattle hangs" ] || { echo run >> "$KIT/runs" && exec sleep 300; }
for word in "$@"; do
  case $word in reports=*) reports=${word#*=}/format ;; esac
  [ "$before" != -o ] || out=$word
  before=$word
done
room=$(mktemp -d)
{
  for name in stats export query validate open new append add_column compact stats_of open_stats open_export open_query close snapshot snapshot_share snapshot_stats snapshot_export snapshot_query snapshot_close batch_count lend lend_fields answer; do echo "void selqumar_$name(void) {}"; done
  echo "void other(void) {}"
  echo "const char selqumar_text[] = \\"$(cat "$reports" | grep -o 'marker [0-9]*')\\";"
} > "$room/all.c"
"$CC" -c -fPIC "$room/all.c" -o "$room/all.o" && ar rcs "$out" "$room/all.o"
rm -r "$room"
"""


def write(path, text):
    os.makedirs(os.path.dirname(path), exist_ok=True)
    with open(path, "w", encoding="utf-8") as file:
        file.write(text)


def executable(path, text):
    write(path, text)
    os.chmod(path, 0o755)


class Tree:
    """A few crates, and a copy of what builds them."""

    def __init__(self, room):
        self.top, self.kit, self.rest = (os.path.join(room, name) for name in ("tree", "kit", "rest"))
        for name in ("tools", "include", "c"):
            shutil.copytree(os.path.join(TOP, name), os.path.join(self.top, name), ignore=shutil.ignore_patterns("__pycache__"))
        os.mkdir(os.path.join(self.top, ".ci"))
        for name in ("HANDLES", "arrowtab", "gate", ".ci/run"):
            shutil.copy(os.path.join(TOP, name), os.path.join(self.top, name))
        write(os.path.join(self.top, "crates.txt"), CRATES)
        for crate in re.findall(r"^[a-z]+", CRATES, re.M):
            write(os.path.join(self.top, "crates", crate, "src", "lib.rt"), "// A source.\n")
            write(os.path.join(self.top, "crates", crate, "must-fail", "it.edit"), "// None.\n")
        executable(os.path.join(self.kit, "bin", "rt"), RT)
        executable(os.path.join(self.kit, "bin", "rattle"), RATTLE)
        for name in ("python3", "parallel", "fish", "tcsh"):
            executable(os.path.join(self.kit, "of the gate", name), PYTHON)
        os.makedirs(os.path.join(self.kit, "c"))
        os.makedirs(self.rest)
        subprocess.run([*compiler(), "-c", "-fPIC", "-x", "c", "/dev/null", "-o", "none.o"], cwd=room, check=True)
        subprocess.run(["ar", "rcs", os.path.join(self.kit, "c", "liblibc_c.a"), "none.o"], cwd=room, check=True)
        self.env = {**os.environ, "KIT": self.kit, "CC": compiler()[0], "PATH": os.path.join(self.kit, "bin") + os.pathsep + os.environ["PATH"], "TMPDIR": self.rest}
        self.mark(1)

    def mark(self, number, more=""):
        """Changes a source, as an editor does."""
        time.sleep(0.02)
        write(os.path.join(self.top, "crates", "reports", "src", "lib.rt"), f"// marker {number} {more}\n")

    def run(self, *words, cwd=None, **env):
        return self.ended(self.begun(*words, cwd=cwd, **env))

    def begun(self, *words, cwd=None, **env):
        pipe = subprocess.PIPE
        return subprocess.Popen(words, cwd=cwd or self.top, env={**self.env, **env}, stdin=subprocess.DEVNULL, stdout=pipe, stderr=pipe, text=True)

    def ended(self, begun):
        out, fault = begun.communicate(timeout=SECONDS)
        return subprocess.CompletedProcess(begun.args, begun.returncode, out, fault)

    def runs(self):
        """How often something was proved."""
        with contextlib.suppress(FileNotFoundError), open(os.path.join(self.kit, "runs"), encoding="utf-8") as file:
            return len(file.read().splitlines())
        return 0

    def temporary(self):
        """What is in the folder of what is built, and is to be there only while something is."""
        return [name for name in os.listdir(os.path.join(self.top, "build")) if ".building" in name or ".new" in name]

    def marked(self):
        """The numbers of the sources that both libraries were built of."""
        found = []
        for name in ("libselqumar.a", "libselqumar.so"):
            with contextlib.suppress(OSError), open(os.path.join(self.top, "build", name), "rb") as file:
                found += re.findall(rb"marker (\d+)", file.read())
        return [int(number) for number in found]


def given(ran):
    return ran.returncode, ran.stdout, ran.stderr


def difference(found, wanted):
    return None if found == wanted else f"{found!r:.400} and not {wanted!r:.400}"


def cases(room):
    tree = Tree(os.path.join(room, FOLDER))
    for crate in ("colbits", "reports", "embed"):
        write(os.path.join(tree.top, "crates", crate, "out", "rlib", f"{crate}.rlib", "format"), "// marker 0\n")

    def built():
        ran = tree.run("tools/library", "build")
        told = re.sub(r"^library: .*\n", "", ran.stderr.replace(tree.top, ""), flags=re.M)
        return ran.returncode or told, tree.marked(), tree.runs()

    write(os.path.join(tree.kit, "slow"), "1.5")
    told = tree.run("tools/library", "build")
    os.remove(os.path.join(tree.kit, "slow"))
    yield "the first build, beside libraries of other sources", difference((told.returncode, tree.marked(), tree.runs()), (0, [1, 1], 1))
    far = re.findall(r"^library: (\d of 3) crates proved, 0 minutes spent", told.stderr, re.M)
    yield "it says how far it is", difference((told.stdout, len(far) > 1 and far[-1]), ("", "3 of 3"))
    yield "nothing is new", difference(built(), ("", [1, 1], 1))
    tree.mark(2)
    yield "a source below is newer", difference(built(), ("", [2, 2], 2))
    sources = ("crates/selqumar/src/lib.rt", "include/selqumar.h", "crates.txt", "tools/library", "tools/proved.sh", "c/null.c")
    for count, name in enumerate(sources, 3):
        os.utime(os.path.join(tree.top, name))
        told = tree.run("tools/library", "--check", "build")
        yield f"{name} is newer", difference((told.returncode, told.stderr.count("missing or older"), built()), (1, 1, ("", [2, 2], count)))
    os.utime(os.path.join(tree.top, "crates", "tour", "src", "lib.rt"))
    yield "what it doesn't stand on is newer", difference(built(), ("", [2, 2], tree.runs()))
    yield "a check of what is new", difference(given(tree.run("tools/library", "--check", "build")), (0, "", ""))
    runs = tree.runs()
    tree.mark(3, "cannot be proved")
    ran = tree.run("tools/library", "build")
    yield "a source isn't proved", difference((ran.returncode, "rt: reports is not proved\nlibrary: it was not built\n" in ran.stderr, tree.marked()), (1, True, [2, 2]))
    tree.mark(4)
    yield "the next that is", difference(built(), ("", [4, 4], runs + 2))
    yield from form_cases(tree)
    yield from program_cases(tree)
    yield from caller_cases(tree, os.path.join(room, "elsewhere"))
    yield from lock_cases(tree)
    yield "no folder is left", difference((os.listdir(tree.rest), tree.temporary()), ([], []))
    yield from ended_cases(tree)
    yield "no word of a name was read", difference([name for _, _, names in os.walk(room) for name in names if name == "pwned"], [])


def form_cases(tree):
    """What both libraries are called, and what they export."""
    with open(os.path.join(TOP, "include", "selqumar.h"), encoding="utf-8") as file:
        version = re.search(r"^#define SELQUMAR_VERSION (\d+)$", file.read(), re.M)[1]
    shared = os.path.join(tree.top, "build", "libselqumar.so")
    told = tree.run("readelf", "-d", shared).stdout
    yield "the soname", difference(re.findall(r"soname: \[(.*)\]", told), [f"libselqumar.so.{version}"])
    yield "the file of that name", difference(os.readlink(shared), f"libselqumar.so.{version}")
    names = re.findall(r" (?:T|R) (\w+)", tree.run("nm", "-D", "--defined-only", shared).stdout)
    yield "what is exported", difference([name for name in names if not name.startswith("selqumar_")] or len(names), 45)


def program_cases(tree):
    """The program, which is built in the same way."""
    before = tree.runs()
    ran = tree.run("./arrowtab", "stats")
    yield "the program is built", difference((ran.returncode, ran.stdout, tree.runs()), (0, "stats\n// marker 4 \n", before + 1))
    tree.run("./arrowtab", "stats")
    yield "it is not built again", difference(tree.runs(), before + 1)
    tree.mark(5)
    ran = tree.run("./arrowtab", "stats")
    yield "a source of it is newer", difference((ran.stdout, tree.runs()), ("stats\n// marker 5 \n", before + 2))


def caller_cases(tree, elsewhere):
    """Whatever they are called by, in whatever folder, with whatever CDPATH, scripts find their repository, and change nothing else."""
    ways = {"tools/library": ("--check", os.path.join(tree.top, "build")), "arrowtab": ("stats",), "gate": (), ".ci/run": ()}
    for name in ("build", "tools", "crates", ".ci"):
        os.makedirs(os.path.join(elsewhere, name))
    before = sorted(os.walk(elsewhere))
    tree.run("tools/library", "build")
    links = os.path.join(os.path.dirname(elsewhere), "links of it")
    os.makedirs(links)
    bare = os.path.join(tree.kit, "of the gate") + os.pathsep + tree.env["PATH"]
    cdpath = os.pathsep.join([elsewhere, ".", os.path.dirname(elsewhere)])
    for name, words in ways.items():
        script, link = os.path.join(tree.top, name), os.path.join(links, f"-{os.path.basename(name)}")
        os.symlink(os.path.relpath(script, links), link)
        wanted = {"arrowtab": "stats\n// marker 5 \n", "tools/library": ""}.get(name)
        for cwd, called in [(tree.top, name), (os.path.dirname(script), f"./{os.path.basename(name)}"), (elsewhere, script), (links, link), (links, os.path.relpath(link, links))]:
            called = called if "/" in called else f"./{called}"
            for begin in ([], ["sh"]) if words else ([],):
                with contextlib.suppress(FileNotFoundError):
                    os.remove(os.path.join(tree.kit, "steps"))
                ran = tree.run(*begin, called, *words, cwd=cwd, CDPATH=cdpath, **({} if words else {"PATH": bare}))
                found = ran.stdout if words else steps_elsewhere(tree)
                yield f"{begin} {name} called {called!r}", difference((ran.returncode, found, sorted(os.walk(elsewhere))), (0, wanted or "", before)) and f"{ran}"
    ran = tree.run("tools/library", "build", CDPATH=cdpath)
    yield "a folder that CDPATH has too", difference((given(ran), sorted(os.walk(elsewhere))), ((0, "", ""), before))


def steps_elsewhere(tree):
    """The folders in which steps of the gate ran, but the tree's own."""
    with open(os.path.join(tree.kit, "steps"), encoding="utf-8") as file:
        return file.read().replace(f"{tree.top}\n", "")


def lock_cases(tree):
    """Of two builds in a folder one waits for the other, says so once, and has nothing left to do."""
    for number, (words, told) in enumerate([(("tools/library", "build"), "library"), (("./arrowtab", "stats"), "arrowtab")], 20):
        tree.mark(number)
        runs = tree.runs()
        write(os.path.join(tree.kit, "slow"), "0.4")
        several = [tree.begun(*words) for _ in range(3 if number == 20 else 2)]
        ended = [tree.ended(it) for it in several]
        os.remove(os.path.join(tree.kit, "slow"))
        waits = "".join(it.stderr for it in ended).count(f"{told}: waiting for another build")
        yield f"{len(several)} of {told} at once", difference(({it.returncode for it in ended}, tree.runs(), waits, tree.temporary()), ({0}, runs + 1, len(several) - 1, []))
    lock = os.path.join(tree.top, "build", ".building")
    with open(f"/proc/{os.getpid()}/stat", encoding="utf-8") as file:
        mine = f"{os.getpid()}-{file.read().rpartition(') ')[2].split()[19]}"
    for number, (name, what) in enumerate([("", "no process"), ("4194305-1", "a process that is gone"), (f"{os.getpid()}-1", "a number that another has now")], 30):
        write(os.path.join(lock, name or "none"), "")
        if not name:
            os.remove(os.path.join(lock, "none"))
        write(os.path.join(tree.top, "build", f"libselqumar.a.new.{name.partition('-')[0]}"), "")
        tree.mark(number)
        ran = tree.run("tools/library", "build")
        yield f"a build of {what}", difference((ran.returncode, "waiting" in ran.stderr, tree.marked(), [it for it in tree.temporary() if name]), (0, False, [number] * 2, []))
        with contextlib.suppress(FileNotFoundError):
            os.remove(os.path.join(tree.top, "build", "libselqumar.a.new."))
    write(os.path.join(lock, mine), "")
    tree.mark(40)
    begun = [tree.begun("tools/library", "build") for _ in range(2)]
    time.sleep(1.2)
    begun[0].terminate()
    ended = [tree.ended(begun[0])]
    yield "one that is ended while it waits", difference((ended[0].returncode, ended[0].stderr.count("waiting"), os.listdir(lock)), (1, 1, [mine]))
    os.remove(os.path.join(lock, mine))
    last = tree.ended(begun[1])
    yield "one that waits for long", difference((last.returncode, last.stderr.count("waiting"), tree.marked(), tree.temporary()), (0, 1, [40, 40], []))


def ended_cases(tree):
    """What is ended leaves no process and no folder."""
    for number, name in enumerate(("rt", "rattle"), 50):
        hangs = os.path.join(tree.kit, f"{name} hangs")
        write(hangs, "")
        tree.mark(number)
        runs = tree.runs() + number - 49
        begun = subprocess.Popen(["tools/library", "build"], cwd=tree.top, env=tree.env, stdin=subprocess.DEVNULL, stdout=subprocess.DEVNULL, stderr=subprocess.DEVNULL)
        end = time.monotonic() + SECONDS
        while tree.runs() < runs and time.monotonic() < end:
            time.sleep(0.02)
        begun.terminate()
        status = begun.wait(SECONDS)
        # What only waits for the next line to say ends by itself.
        end = time.monotonic() + 5
        while left_over(tree.rest) and time.monotonic() < end:
            time.sleep(0.02)
        yield f"a build that is ended in {name}", difference((status != 0, left_over(tree.rest), os.listdir(tree.rest), tree.temporary()), (True, [], [], []))
        os.remove(hangs)
