#!/usr/bin/env python3
"""Installs what was built into new folders, and uses it from there: the program, its page and completions, the library by pkg-config, and a wheel.

    tools/install_cases.py PROGRAM

The library is what `tools/library build` left. What isn't on this machine is told, as `not tried: pkg-config`. The last line is 'N passed, M failed'."""
import glob
import hashlib
import os
import re
import shlex
import shutil
import subprocess
import sys
import tempfile
import zipfile

from refusals import TOP, compiler

SECONDS = 120
MIXED = os.path.join(TOP, "examples", "mixed.json")
QUERY = '{"by":["city"],"aggs":[{"agg":"rows"}]}'
INSTALLED = """bin/arrowtab bin/arrowtab-shards include/selqumar.h include/selqumar_arrow.h lib/libselqumar.a lib/libselqumar.so lib/libselqumar.so.2 lib/pkgconfig/selqumar.pc
share/bash-completion/completions/arrowtab share/doc/selqumar/CHANGELOG.md share/doc/selqumar/FAULTS.md share/doc/selqumar/NOTICE
share/doc/selqumar/QUERIES.md share/doc/selqumar/README.md share/doc/selqumar/SECURITY.md share/doc/selqumar/SHARDS.md share/man/man1/arrowtab.1
share/selqumar/selqumar/__init__.py share/selqumar/selqumar/_arrow.py share/selqumar/selqumar/_asked.py share/selqumar/selqumar/_columns.py share/selqumar/selqumar/_files.py share/selqumar/selqumar/_library.py
share/selqumar/selqumar/_memory.py share/selqumar/selqumar/_table.py share/selqumar/selqumar/_values.py share/selqumar/selqumar/py.typed share/selqumar/shard_groups.py share/selqumar/shard_runs.py share/selqumar/shards""".split()
# Where the version stands, and how.
VERSIONS = {
    "include/selqumar.h": r'^#define SELQUMAR_RELEASE "(.*)"$',
    "python/selqumar/__init__.py": r'^__version__ = "(.*)"$',
    "python/pyproject.toml": r'^version = "(.*)"$',
    "CITATION.cff": r"^version: (.*)$",
    "CHANGELOG.md": r"^## (\S+), \d{4}-\d\d-\d\d$",
    "docs/help/version.txt": r"^arrowtab (\S+) \(",
}


def text_of(*names):
    with open(os.path.join(TOP, *names), encoding="utf-8") as file:
        return file.read()


def shared_library():
    """The name of the shared library, which the header counts."""
    return "libselqumar.so." + re.search(r"^#define SELQUMAR_VERSION (\d+)$", text_of("include", "selqumar.h"), re.M)[1]


def run(*words, cwd=TOP, **env):
    names = {name: it for name, it in os.environ.items() if name not in ("SELQUMAR_LIBRARY", "SOURCE_DATE_EPOCH")}
    return subprocess.run(words, cwd=cwd, env={**names, **env}, stdin=subprocess.DEVNULL, capture_output=True, text=True, timeout=SECONDS)


def difference(found, wanted):
    return None if found == wanted else f"{found!r:.600} and not {wanted!r:.600}"


def version_cases(version):
    """One version stands in all files that have one."""
    for name, pattern in VERSIONS.items():
        found = re.search(pattern, text_of(name), re.M)
        yield f"the version in {name}", difference(found and found[1], version)


def files_below(folder):
    return sorted(os.path.relpath(os.path.join(at, name), folder) for at, _, names in os.walk(folder) for name in names)


def program_cases(program, room):
    """What stands in bin and share."""
    printed = run(program, "stats", MIXED).stdout
    yield "the program", difference(run(f"{room}/bin/arrowtab", "stats", MIXED, cwd=room).stdout, printed)
    yield "shards", difference(run(f"{room}/bin/arrowtab-shards", QUERY, MIXED, cwd=room).stdout, run(program, "query", "--query", QUERY, MIXED).stdout)
    with open(f"{room}/share/man/man1/arrowtab.1", encoding="utf-8") as file:
        page = file.read().replace("\\-", "-").replace("\\&", "").replace("\\e", "\\")
    for command in ("arrowtab", "stats", "schema", "validate", "head", "export", "query"):
        yield f"the page has the help of {command}", None if text_of("docs", "help", f"{command}.txt") in page else page
    complete = f". {room}/share/bash-completion/completions/arrowtab; COMP_WORDS=(arrowtab $1); COMP_CWORD=$(($# ? ${{#COMP_WORDS[@]}} - 1 : 1)); _arrowtab; echo ${{COMPREPLY[@]}}"
    for words, wanted in (("ex", "export"), ("stats --w", "--workers"), ("query --q", "--query --query-file"), ("query --output j", "json"), ("help q", "query")):
        yield f"completions of {words}", difference(run("bash", "-c", complete, "bash", words).stdout.strip(), wanted)


def package_cases(room, version):
    """A program in C by the lines that pkg-config gives."""
    if not shutil.which("pkg-config"):
        print("not tried: pkg-config")
        return
    found = {"PKG_CONFIG_PATH": f"{room}/lib/pkgconfig"}
    yield "the version of the package", difference(run("pkg-config", "--modversion", "selqumar", **found).stdout.strip(), version)
    flags = shlex.split(run("pkg-config", "--cflags", "--libs", "selqumar", **found).stdout)
    built = run(*compiler(), os.path.join(TOP, "examples", "embed.c"), *flags, f"-Wl,-rpath,{room}/lib", "-o", f"{room}/embed")
    yield "a program in C", difference((built.returncode, built.stderr), (0, ""))
    printed = run(f"{room}/embed", QUERY, MIXED).stdout
    yield "what it prints", None if printed.startswith("rows 5\n") else printed


def prefix_cases(program, room):
    """No word of a folder is read by a shell or by pkg-config."""
    prefix, elsewhere = f"{room}/-it's `touch pwned` \"$(touch pwned)\" #%s \\ {{}}", f"{room}/elsewhere"
    for folder in ("tools", "build"):
        os.makedirs(f"{elsewhere}/{folder}")
    os.symlink(os.path.join(TOP, "tools", "install"), f"{elsewhere}/-link")
    ran = run("./-link", os.path.relpath(prefix, elsewhere), cwd=elsewhere, ARROWTAB=program, CDPATH=f".:{elsewhere}:{TOP}")
    yield "an odd prefix", difference((ran.returncode, ran.stdout, ran.stderr), (0, "", ""))
    yield "its files", difference(files_below(prefix), sorted(INSTALLED))
    ran = run(f"{prefix}/bin/arrowtab-shards", QUERY, MIXED, cwd=elsewhere)
    yield "its shards", difference((ran.stdout, ran.stderr), (run(program, "query", "--query", QUERY, MIXED).stdout, ""))
    if shutil.which("pkg-config"):
        flags = run("pkg-config", "--cflags", "--libs", "selqumar", PKG_CONFIG_PATH=f"{prefix}/lib/pkgconfig").stdout
        whole = f"{elsewhere}/../{os.path.basename(prefix)}"
        yield "its flags", difference(shlex.split(flags), [f"-I{whole}/include", f"-L{whole}/lib", "-lselqumar"])
    yield from python_cases("an odd prefix", f"{prefix}/share/selqumar", elsewhere)
    for name in ("of two\nlines", "that ends in a blank "):
        ran = run("tools/install", f"{room}/{name}", ARROWTAB=program)
        yield f"a prefix {name}", difference((ran.returncode, ran.stderr.count("\n"), os.path.exists(f"{room}/{name}")), (2, 1, False))
    yield "no word of a prefix was read", difference([name for name in files_below(room) if "pwned" in os.path.basename(name)], [])


def python_cases(what, place, room):
    """The module from a place."""
    script = "import selqumar, sys; print(selqumar.__version__, selqumar.stats(sys.argv[1]).rows, selqumar.__file__)"
    ran = run(sys.executable, "-c", script, MIXED, cwd=room, PYTHONPATH=place)
    yield f"Python from {what}", difference(ran.stdout.strip(), f"{text_of('VERSION').strip()} 5 {place}/selqumar/__init__.py") and ran.stdout + ran.stderr


def wheel_of(python, to):
    """A wheel that a folder makes."""
    os.makedirs(to, exist_ok=True)
    return run(sys.executable, "-c", "import sys, wheel_of_selqumar; print(wheel_of_selqumar.build_wheel(sys.argv[1]))", to, cwd=python)


def wheel_cases(room):
    """A wheel, and what pip makes of it."""
    wheel = wheel_of(os.path.join(TOP, "python"), room).stdout.strip()
    version = text_of("VERSION").strip()
    yield "its name", difference(wheel, f"selqumar-{version}-py3-none-manylinux_2_17_x86_64.whl")
    with zipfile.ZipFile(os.path.join(room, wheel)) as file:
        file.extractall(f"{room}/wheel")
        told = file.read(f"selqumar-{version}.dist-info/METADATA").decode().partition("\n\n")
    yield "what it tells", difference(("Description-Content-Type: text/markdown" in told[0].split("\n"), told[2]), (True, text_of("README.md")))
    needed = re.findall(r"Name: GLIBC_([0-9.]+)", run("readelf", "--version-info", os.path.join(TOP, "build", shared_library())).stdout)
    newest = max([tuple(map(int, it.split("."))) for it in needed], default=None)
    yield "the newest version of glibc that it needs", None if newest and newest <= (2, 17) else f"{newest}"
    places = {"a wheel": f"{room}/wheel"}
    if run(sys.executable, "-m", "pip", "--version").returncode == 0:
        pip = [sys.executable, "-m", "pip", "install", "--no-index", "--no-deps", "--disable-pip-version-check", "--root-user-action=ignore", "--ignore-installed"]
        installed = run(*pip, "--target", f"{room}/site", os.path.join(TOP, "python"))
        yield "pip installs it", difference(installed.returncode, 0) and installed.stderr
        places["pip"] = f"{room}/site"
        installed = run(*pip, "--prefix", f"{room}/edited", "-e", os.path.join(TOP, "python"))
        yield "pip installs it to be edited", difference(installed.returncode, 0) and installed.stderr
        leads = glob.glob(f"{room}/edited/**/selqumar.pth", recursive=True)
        yield "it leads to the tree", difference([open(name, encoding="utf-8").read() for name in leads], [os.path.join(TOP, "python") + "\n"])
        places["the tree"] = os.path.join(TOP, "python")
    else:
        print("not tried: pip")
    for what, place in places.items():
        yield from python_cases(what, place, room)
    yield from tree_cases(room, f"{room}/{wheel}")


def tree_cases(room, wheel):
    """Another tree makes the same wheel, and none of a library that is older than its sources."""
    tree = f"{room}/tree"
    for name in ("tools", "python", "include", "c"):
        shutil.copytree(os.path.join(TOP, name), f"{tree}/{name}", ignore=shutil.ignore_patterns("__pycache__"))
    for name in ("README.md", "crates.txt", "HANDLES"):
        shutil.copyfile(os.path.join(TOP, name), f"{tree}/{name}")
    for name in ("crates", "build"):
        os.mkdir(f"{tree}/{name}")
    for name in ("libselqumar.a", shared_library()):
        shutil.copyfile(os.path.join(TOP, "build", name), f"{tree}/build/{name}")
    os.chmod(f"{tree}/python/selqumar/_table.py", 0o600)
    same = wheel_of(f"{tree}/python", f"{tree}/wheels").stdout.strip()
    yield "a wheel of another tree", difference(same and sum_of(f"{tree}/wheels/{same}"), sum_of(wheel))
    os.utime(f"{tree}/include/selqumar.h")
    refused = wheel_of(f"{tree}/python", f"{tree}/none")
    yield "a wheel of an old library", difference((refused.returncode, refused.stderr.count("\n"), "tools/library" in refused.stderr, os.listdir(f"{tree}/none")), (1, 1, True, []))


def sum_of(name):
    with open(name, "rb") as file:
        return hashlib.sha256(file.read()).hexdigest()


def cases(program, room):
    version = text_of("VERSION").strip()
    yield from version_cases(version)
    ran = run("tools/install", f"{room}/here", ARROWTAB=program)
    yield "the install", difference((ran.returncode, ran.stdout, ran.stderr), (0, "", ""))
    yield "its files", difference(files_below(f"{room}/here"), sorted(INSTALLED))
    yield from program_cases(program, f"{room}/here")
    yield from package_cases(f"{room}/here", version)
    ran = run("tools/install", "/usr/local", ARROWTAB=program, DESTDIR=f"{room}/package")
    yield "an install for a package", difference((ran.returncode, files_below(f"{room}/package/usr/local")), (0, sorted(INSTALLED)))
    with open(glob.glob(f"{room}/package/**/selqumar.pc", recursive=True)[0], encoding="utf-8") as file:
        yield "its prefix", difference(file.readline(), "prefix=/usr/local\n")
    yield from python_cases("what was installed", f"{room}/here/share/selqumar", room)
    yield from python_cases("a package", f"{room}/package/usr/local/share/selqumar", room)
    yield from prefix_cases(program, f"{room}/prefix")
    os.mkdir(f"{room}/python")
    yield from wheel_cases(f"{room}/python")


def main():
    passed = failed = 0
    with tempfile.TemporaryDirectory() as room:
        for name, fault in cases(os.path.abspath(sys.argv[1]), room):
            passed += not fault
            failed += bool(fault)
            print(f"{name}: {fault}\n" if fault else "", end="", flush=True)
    print(f"{passed} passed, {failed} failed")
    return 1 if failed else 0


if __name__ == "__main__":
    sys.exit(main())
