#!/usr/bin/env python3
"""Renames crates, modules and identifiers by a table, where they stand in the language: in code, specs and proofs, in the names of files, and between backticks of comments and documents.

    dev/rename.py [--to FOLDER] TABLE

A line of the table is one of these; `#` begins a comment.

    crate OLD NEW
    module CRATE OLD NEW           a module, or a file of specs/ or proofs/, of a crate by its old name
    text OLD NEW CRATE             any text of a crate's code, before all else
    word OLD NEW [CRATE..]         an identifier, in these crates or in all; `!CRATE` is one in which it is another's, `from:CRATE` stands for the files that
                                   import it from there

Nothing is renamed in running text or in string literals but for paths of crates. With --to the result is put into another folder. The last line says how many files changed."""
import argparse
import collections
import os
import re
import sys

SKIPPED = {".git", "out", "build", "__pycache__"}
PARTS_OF_RUST = re.compile(
    r"(?P<comment>//[^\n]*|/\*.*?\*/)|(?P<string>b?\"(?:\\.|[^\"\\])*\"|b?r(?P<hashes>#*)\".*?\"(?P=hashes))|(?P<char>b?'(?:\\(?:x..|u\{[^}]*\}|.)|[^'\\\n])')", re.S)
PARTS_OF_ANTT = re.compile(r"(?P<comment>--[^\n]*)|(?P<string>\"(?:\\.|[^\"\\])*\")")
WORD = re.compile(r"[A-Za-z_][A-Za-z0-9_]*")
PATH_OF_ANTT = re.compile(r"\bRattle\.([a-z_0-9]+)((?:\.[A-Za-z_0-9-]+)*)")
QUOTED = re.compile(r"`[^`\n]+`")
CRATE_PATH = re.compile(r"\b(crates|bodies)/([a-z_0-9]+)((?:/[A-Za-z_0-9.-]+)*)")


class Table:
    """What is renamed."""

    def __init__(self, file):
        self.crates, self.modules, self.texts, self.words = {}, collections.defaultdict(dict), collections.defaultdict(list), []
        for line in open(file, encoding="utf-8"):
            kind, *rest = line.partition("#")[0].split() or [""]
            if kind == "crate":
                self.crates[rest[0]] = rest[1]
            elif kind == "module":
                self.modules[rest[0]][rest[1]] = rest[2]
            elif kind == "text":
                self.texts[rest[2]].append(rest[:2])
            elif kind == "word":
                self.words.append((rest[0], rest[1], set(it for it in rest[2:] if it[0] != "!"), set(it[1:] for it in rest[2:] if it[0] == "!")))
            elif kind:
                sys.exit(f"rename: {file}: {line.strip()}: no such kind")

    def words_in(self, crate, text=""):
        """The identifiers that are renamed in a crate, or in a file of it."""
        return {old: new for old, new, only, never in self.words
                if crate not in never and (not only or crate in only or any(imports(text, it[5:], old) for it in only if it.startswith("from:")))}


def imports(text, crate, word):
    """Whether a file imports a word from a crate."""
    return re.search(rf"\b{crate}::(?:\{{[^}}]*\b)?{word}\b", text) is not None


class Names:
    """The names of one crate, and of those that it uses."""

    def __init__(self, table, crate, used, text=""):
        self.table, self.crate, self.words, self.modules = table, crate, table.words_in(crate, text), table.modules.get(crate, {})
        self.uses = used
        self.used = {it: table.crates[it] for it in [*used, crate] if it in table.crates}

    def part(self, name, modules):
        """A part of a path, or of a file's name."""
        stem, dot, ending = name.partition(".")
        return modules.get(stem, self.words.get(stem, stem)) + dot + ending

    def antt_path(self, found):
        crate, rest = found[1], found[2]
        modules = self.table.modules.get(crate, {})
        words = self.table.words_in(crate)
        parts = [modules.get(it, words.get(it, self.hyphened(it))) for it in rest.split(".")[1:]]
        return "Rattle." + ".".join([self.table.crates.get(crate, crate), *parts])

    def hyphened(self, name):
        return WORD.sub(lambda it: self.words.get(it[0], it[0]), name)

    def word(self, found):
        return self.words.get(found[0], found[0])

    def first(self, found):
        """The first part of a path: a crate, or a module of this one."""
        return self.used.get(found[1], self.modules.get(found[1], found[1]))

    def own_path(self, found):
        """A path that begins with `crate`, `super` or `self`."""
        return "::".join(self.modules.get(it, it) for it in found[0].split("::"))

    def item(self, found):
        """An item of another crate, by that crate's table."""
        return found[1] + "::" + self.table.words_in(found[1]).get(found[2], found[2])

    def rust(self, text):
        text = re.sub(r"(?<![\w:.])([a-z]\w*)::([A-Za-z_]\w*)", lambda it: self.item(it) if it[1] in self.uses else it[0], text)
        text = re.sub(r"\bmod (\w+)\b", lambda it: f"mod {self.modules.get(it[1], it[1])}", text)
        text = re.sub(r"(?<![\w:.])(?:crate|self|super)(?:::[a-z]\w*)+", self.own_path, text)
        text = re.sub(r"(?<![\w:.])(?!crate::|self::|super::)([a-z]\w*)(?=::)", self.first, text)
        return self.antt(text)

    def antt(self, text):
        for old, new in self.table.texts.get(self.crate, ()):
            text = text.replace(old, new)
        parts, at = [], 0
        for found in PATH_OF_ANTT.finditer(text):
            parts += [WORD.sub(self.word, text[at:found.start()]), self.antt_path(found)]
            at = found.end()
        return "".join([*parts, WORD.sub(self.word, text[at:])])

    def quoted(self, found):
        text = CRATE_PATH.sub(self.crate_path, found[0])
        inside = text[1:-1]
        if inside in self.table.crates and (inside not in self.words):
            return f"`{self.table.crates[inside]}`"
        for old, new in self.table.crates.items():
            inside = re.sub(rf"(?<![\w:./-]){old}(?=::)", new, inside)
        if re.fullmatch(r"[\w:<>(), &\[\]'.*!?{}=|+-]+", inside):
            inside = WORD.sub(self.word, inside)
        return f"`{inside}`"

    def crate_path(self, found):
        folder, crate, rest = found[1], found[2], found[3]
        names = Names(self.table, crate, [])
        modules = names.modules
        return "/".join([folder, self.table.crates.get(crate, crate), *(names.part(it, modules) for it in rest.split("/")[1:])])

    def prose(self, text):
        return CRATE_PATH.sub(self.crate_path, QUOTED.sub(self.quoted, text))

    def parted(self, text, pattern, code):
        """A text whose code is renamed, and whose comments between backticks."""
        parts, at = [], 0
        for found in pattern.finditer(text):
            parts.append(code(text[at:found.start()]))
            parts.append(self.prose(found[0]) if found["comment"] else found[0])
            at = found.end()
        return "".join([*parts, code(text[at:])])

    def edit(self, text):
        """An edit of the gate: the lines of code are those of the file that it names."""
        file = re.search(r"^file: (\S+)", text, re.M)[1]
        pattern, code = (PARTS_OF_ANTT, self.antt) if file.endswith(".antt") else (PARTS_OF_RUST, self.rust)
        lines = []
        for line in text.split("\n"):
            kind, colon, rest = line.partition(": ")
            if kind == "file":
                rest = "/".join(self.part(it, self.modules) for it in rest.split("/"))
            elif kind in ("old", "new"):
                rest = self.parted(rest, pattern, code)
            elif not colon:
                rest = ""
            lines.append(f"{kind}{colon}{rest}")
        return "\n".join(lines)


def uses_of(text):
    """What each crate of crates.txt uses."""
    found = {}
    for line in text.split("\n"):
        line = line.partition("#")[0].strip()
        if line:
            name, _, used = line.partition(":")
            found[name.split()[0]] = used.split()
    return found


def listed(text, crates):
    """The lines of crates.txt with other names."""
    lines = []
    for line in text.split("\n"):
        code, mark, comment = line.partition("#")
        lines.append(WORD.sub(lambda it: crates.get(it[0], it[0]), code) + mark + comment)
    return "\n".join(lines)


def renamed(table, uses, path, text):
    """A file's new path and text."""
    parts = path.split("/")
    if path == "crates.txt":
        return path, listed(text, table.crates)
    if parts[0] in ("crates", "bodies") and len(parts) > 2:
        names = Names(table, parts[1], uses.get(parts[1], []), text)
        modules = names.modules if parts[0] == "crates" else {}
        to = "/".join([parts[0], table.crates.get(parts[1], parts[1]), *(names.part(it, modules) for it in parts[2:])])
        if path.endswith(".rt"):
            return to, names.parted(text, PARTS_OF_RUST, names.rust)
        if path.endswith(".antt"):
            return to, names.parted(text, PARTS_OF_ANTT, names.antt)
        if path.endswith(".edit"):
            return to, names.edit(text)
        return to, names.prose(text)
    names = Names(table, "", table.crates)
    if path.endswith((".rt", ".rs")):
        return path, names.parted(text, PARTS_OF_RUST, names.rust)
    if path.endswith(".md"):
        return path, names.prose(text)
    return path, re.sub(r"\bout/([a-z_0-9]+)", lambda it: "out/" + table.crates.get(it[1], it[1]), CRATE_PATH.sub(names.crate_path, text))


def main():
    parser = argparse.ArgumentParser()
    parser.add_argument("--to")
    parser.add_argument("table")
    given = parser.parse_args()
    top = os.path.dirname(os.path.dirname(os.path.realpath(__file__)))
    table = Table(given.table)
    uses = uses_of(open(f"{top}/crates.txt", encoding="utf-8").read())
    to, changed, made = given.to or top, 0, {}
    for folder, folders, files in os.walk(top):
        folders[:] = sorted(it for it in folders if it not in SKIPPED)
        for name in files:
            path = os.path.relpath(os.path.join(folder, name), top)
            if os.path.islink(f"{top}/{path}") or path.startswith("dev/"):
                continue
            try:
                text = open(f"{top}/{path}", encoding="utf-8", newline="").read()
            except UnicodeDecodeError:
                continue
            new = renamed(table, uses, path, text)
            if new[0] in made:
                sys.exit(f"rename: {path} and {made[new[0]]} become one")
            made[new[0]] = path
            if new != (path, text) or to != top:
                changed += new != (path, text)
                os.makedirs(os.path.dirname(f"{to}/{new[0]}") or to, exist_ok=True)
                if to == top and new[0] != path:
                    os.remove(f"{top}/{path}")
                with open(f"{to}/{new[0]}", "w", encoding="utf-8", newline="") as out:
                    out.write(new[1])
                if to != top or new[0] != path:
                    if os.access(f"{top}/{path}", os.X_OK):
                        os.chmod(f"{to}/{new[0]}", 0o755)
    print(f"{changed} files changed")


if __name__ == "__main__":
    main()
