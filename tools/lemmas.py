#!/usr/bin/env python3
"""Looks for lemmas that stand in a higher crate than their words: those whose statement names no word of their own crate.

    tools/lemmas.py [all]

A lemma is what a file crates/NAME/proofs/*.antt states, at its margin or in a `module`, and not what a `where` adds to a proof. A word belongs to the crate
that defines it, in specs/, as a declared type or in a file of lemmas, whichever crate passes it on. What is printed, by `all` or where there are
more than were left, has the crates whose words it names behind it, lowest first: it can stand in the last of them. A lemma of std's words alone isn't printed, nor one that joins crates of which none sees the rest.

The last line is 'N passed, M failed', where M is how many more there are than the number below says."""
import functools
import os
import re
import sys

TOP = os.path.dirname(os.path.dirname(os.path.abspath(__file__)))
# So many were left when this was last lowered.
LEFT = 574

USE = re.compile(r"^(?:unfoldable )?(pub )?use ([^\s{]+)\.\{([^}]*)\}", re.M)
PASSED = re.compile(r"^pub use (\S+)$", re.M)
ALIAS = re.compile(r"^use ([^\s{]+) as (\S+)$", re.M)
DEFINED = re.compile(r"^\s*(?:pub )?(?:abbrev (?:pub )?|record |data |unfoldable (?:pub )?)([^\s:({]+)", re.M)
STATED = re.compile(r"^(\s*)(?:pub )?([^\s:=(){}]+) : ")
NAME = r"[^\s(){}\[\],;:.`\"λ]+"
WORD = re.compile(rf"(?<!\.)({NAME})(?:\.({NAME}))?")
BOUND = re.compile(r"[({]([^(){}:]+) :|λ ([^.():]+)[.:]|λ \(([^():]+) :")


def read(path):
    with open(os.path.join(TOP, path), encoding="utf-8") as file:
        return file.read()


def crates():
    """Of each crate those that it can name, lowest first."""
    below = {}
    for line in read("crates.txt").splitlines():
        name, _, used = line.split("#")[0].partition(":")
        if name.strip():
            known = [it for it in used.split() if it in below]
            below[name.split()[0]] = set(known).union(*(below[it] for it in known))
    return below


def names_in(group):
    """Each name of a group of imports: as it is called there, and as it is called here."""
    for item in filter(None, (item.strip() for item in group.split(","))):
        there, _, here = item.partition(" as ")
        yield there.strip(), here.strip() or there.strip()


@functools.lru_cache(maxsize=None)
def text_of(module):
    """The text of a module of ours, none of any other."""
    root, *parts = module.split(".")
    path = os.path.join("crates", *parts) + ".antt"
    return read(path) if root == "Rattle" and os.path.isfile(os.path.join(TOP, path)) else ""


@functools.lru_cache(maxsize=None)
def modules_passed_on(folder):
    """Of each module that a folder's list passes on, which it is."""
    return {module.rpartition(".")[2]: module for module in PASSED.findall(text_of(f"{folder}.Lib"))}


@functools.lru_cache(maxsize=None)
def names_passed_on(module):
    """Of each name that a module passes on, the module and the name that it has it from."""
    return {here: (origin, there) for pub, origin, group in USE.findall(text_of(module)) if pub for there, here in names_in(group)}


def owner(module, name):
    """The crate that defines a module's name."""
    while True:
        folder, _, last = module.rpartition(".")
        if last in modules_passed_on(folder):
            module = modules_passed_on(folder)[last]
        elif name in names_passed_on(module):
            module, name = names_passed_on(module)[name]
        else:
            return module.split(".")[1] if module.startswith("Rattle.") else "std"


def owners(text, crate):
    """Of a file's text a function from a word, and what stands behind its dot, to the crate that it belongs to, or none."""
    origins = {here: (module, there) for _, module, group in USE.findall(text) for there, here in names_in(group)}
    modules = {alias: module for module, alias in ALIAS.findall(text)}
    defined = {*DEFINED.findall(text), *(name for _, name, _ in statements(text.splitlines()))}

    def of(word, member):
        if word in defined:
            return crate
        if word in modules:
            return owner(modules[word], member)
        return owner(*origins[word]) if word in origins else None

    return of


def statements(lines):
    """Each lemma of a file: its line, its name, and what it states, with the head of the module that it is in."""
    head, depth, at = "", 0, 0
    while at < len(lines):
        line = lines[at]
        if line.startswith(("module ", "mutual")):
            head, depth = line, 2
        elif line[:1].strip() and not line.startswith("--"):
            head, depth = "", 0
        stated = STATED.match(line)
        end = at + 1
        if stated and len(stated[1]) in (0, depth):
            while end < len(lines) and len(lines[end]) - len(lines[end].lstrip()) > len(stated[1]):
                end += 1
            whole = " ".join([head, *lines[at:end]])
            if "→" in whole or "≡" in whole:
                yield at + 1, stated[2], whole
        at = end


def named(whole, lemma, of):
    """The crates whose words a statement names."""
    bound = {word for groups in BOUND.findall(whole) for group in groups for word in group.split()}
    return {of(word, member) for word, member in WORD.findall(whole) if word not in bound and word != lemma}


def lemmas():
    """Each lemma: its place and name, its crate, and the crates whose words it names."""
    for crate in crates():
        folder = os.path.join("crates", crate, "proofs")
        names = sorted(os.listdir(os.path.join(TOP, folder))) if os.path.isdir(os.path.join(TOP, folder)) else []
        for path in (os.path.join(folder, name) for name in names if name.endswith(".antt") and name != "Lib.antt"):
            text = read(path)
            of = owners(text, crate)
            for line, lemma, whole in statements(text.splitlines()):
                yield f"{path}:{line}: {lemma}", crate, named(whole, lemma, of)


def main():
    below, count, found = crates(), 0, []
    for place, crate, words in lemmas():
        count += 1
        others = [it for it in below if it in words]
        if others and crate not in others and set(others[:-1]) <= below[others[-1]]:
            found.append(f"{place}: {' '.join(others)}")
    failed = max(0, len(found) - LEFT)
    if failed or sys.argv[1:] == ["all"]:
        print("\n".join(found))
    print(f"{len(found)} stand above their words, and {LEFT} did when they were last counted")
    print(f"{count - failed} passed, {failed} failed")
    return 1 if failed else 0


if __name__ == "__main__":
    raise SystemExit(main())
