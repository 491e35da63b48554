#!/usr/bin/env python3
"""Looks up each name that stands in backquotes in README.md, docs/*.md and the like, outside of blocks of code, and whither their links lead.

    tools/names.py

A name is there where one of these holds; of a text of several names, each:

- A path is one of the tree: from its top, from crates/ or from another of its folders; `*` stands for any text, and of a wrong body's name the
  ending may be left out. Files that stand before 'in `FOLDER/`' are files of that folder, and names in brackets right behind a file's name
  stand in such a file.
- Of `A::b` a type or a trait A has b in its blocks, or a crate or a module A has an item b.
- Any other word stands in the code of the tree, in its strings too but not in comments; or it is the name of a file without its ending, or of a
  folder. A word that begins with `_` ends one. Words of capitals alone and single letters stand for others, in paths too.

A link leads to a file of the tree, and to a heading in it where it names one. Words that aren't ours are listed below, each with its reason. What
isn't there is printed with its place; the last line is 'N passed, M failed', of texts in backquotes and of links."""
import fnmatch
import glob
import os
import re
import sys

TOP = os.path.dirname(os.path.dirname(os.path.abspath(__file__)))

# Words that aren't ours, and whose they are.
FOREIGN = {
    "ci": "a command of the kit, which this script's callers run",
    "lemma": "a command of the kit, for whoever looks for one",
    "Arc::ptr_eq": "of Rust's std; the kit's has none",
    "bar": "an option of GNU parallel",
    "eta": "an option of GNU parallel",
    "tsv": "the ending of a table that the gate makes",
    "zcat": "a command of gzip",
    "ulimit": "a command of shells",
    "gz": "the ending of gzip's files",
    "to_pydict": "of pyarrow's tables",
    "to_dict": "of pandas' frames",
}

SKIPPED = ("out", "build", ".git", "__pycache__")
OF_CODE = ("crates", "c", "tools", "include", "python", "bench", "examples")
ENDINGS = (".antt", ".rt", ".py", ".md", ".c", ".h", ".rs", ".txt", ".edit", ".json")
COMMENTS = {".rt": "//", ".antt": "--", ".c": "//", ".h": "//", ".rs": "//", ".py": "#", "": "#"}
SPAN = re.compile(r"`([^`]+)`")
WORD = re.compile(r"\w+(?:-[a-z]\w*)*")
LINK = re.compile(r"\]\(([^()#\s]*)(?:#([^()\s]*))?\)")
VISIBLE = r"(?:pub(?:\(\w+\))? )?"
ITEM = re.compile(rf"^{VISIBLE}(?:fn|struct|enum|trait|const|static|type|mod) (\w+)", re.M)
BLOCK = re.compile(rf"^{VISIBLE}(impl|struct|enum|trait)\b([^;{{}}]*)\{{\n(.*?)^\}}", re.M | re.S)
MEMBER = re.compile(rf"(?:fn|ghost|const|type) (\w+)|^    {VISIBLE}(\w+)(?:[,:({{]| =| \{{|$)|\b(\w+): ", re.M)


def files_below(top):
    """The path of each file that isn't built, in order."""
    found = []
    for folder, folders, names in os.walk(top):
        folders[:] = sorted(name for name in folders if name not in SKIPPED)
        found += [os.path.relpath(os.path.join(folder, name), top) for name in sorted(names)]
    return found


def code_of(path):
    """The text of a file without comments."""
    with open(os.path.join(TOP, path), encoding="utf-8", errors="replace") as file:
        text = file.read()
    ending = os.path.splitext(path)[1]
    if ending in (".c", ".h"):
        text = re.sub(r"/\*.*?\*/", "", text, flags=re.S)
    mark = COMMENTS.get(ending)
    return re.sub(rf"(?:^|(?<=\s)){mark}.*", "", text, flags=re.M) if mark else text


def owner_of(head):
    """The type or the trait that a block of this head belongs to."""
    while re.search(r"<[^<>]*>", head):
        head = re.sub(r"<[^<>]*>", "", head)
    found = re.search(r"\w+", head.split(" for ")[-1])
    return found.group() if found else ""


class Tree:
    """What there is."""

    def __init__(self):
        self.files = files_below(TOP)
        self.folders = {"/".join(path.split("/")[:depth]) for path in self.files for depth in range(1, path.count("/") + 1)}
        self.stems = {os.path.splitext(os.path.basename(path))[0] for path in [*self.files, *self.folders]}
        self.crates = {path.split("/")[1] for path in self.folders if path.startswith("crates/")}
        self.words, self.owned = set(), {}
        for path in self.files:
            if path.split("/")[0] in OF_CODE and not path.endswith(".edit"):
                self.take(path, code_of(path))

    def take(self, path, code):
        """Takes the words of a file, and what its types, its crate and its module have."""
        self.words.update(WORD.findall(code), re.findall(r"\w+", code))
        if not path.endswith(".rt"):
            return
        for _, head, body in BLOCK.findall(code):
            self.own(owner_of(head), (name for names in MEMBER.findall(body) for name in names))
        passed_on = re.findall(r"^pub use ([^;]*);", code, re.M)
        items = ITEM.findall(code) + WORD.findall(" ".join(passed_on))
        self.own(path.split("/")[1], items)
        self.own(os.path.splitext(os.path.basename(path))[0], items)

    def own(self, owner, names):
        self.owned.setdefault(owner, set()).update(names)

    def places(self, path):
        """The files and folders that a path may be."""
        path = re.sub(r"(?<=/)[A-Z]+(?=/)", "*", path.rstrip("/"))
        names = ["*/" + path + ending for ending in ("", ".edit")]
        return [one for one in [*self.files, *self.folders] if any(fnmatch.fnmatch("/" + one, name) for name in names)]

    def is_path(self, token):
        """Whether a token is to be a path."""
        first = token.split("/")[0]
        return "/" in token and (first in self.folders or first in self.crates) or token.endswith(ENDINGS)

    def lacks(self, text):
        """The names of a text that aren't there."""
        return [name for token in text.split() for name in self.lacks_of(token.strip(",;:()[]{}\"'<>=|!&."))]

    def lacks_of(self, token):
        """The names of a token that aren't there."""
        if self.is_path(token) or "*" in token and WORD.search(token):
            return [] if self.places(token) else [token]
        if "::" in token and token not in FOREIGN:
            owner, name = re.sub(r"[<(].*", "", token).split("::")[-2:]
            return [] if name in self.owned.get(owner, ()) else [token]
        return [word for word in WORD.findall(token) if not self.has(word)]

    def lacks_in(self, name, names, folder):
        """What isn't there of a file in a folder, or in any, and of names that stand in it."""
        places = self.places((folder or "") + name)
        if not places:
            return [f"{folder}{name}"]
        words = set().union(*(re.findall(r"[\w-]+", code_of(place)) for place in places))
        return [word for text in names for word in WORD.findall(text) if word not in words]

    def has(self, word):
        """Whether a word is there, or stands for others."""
        if word.startswith("_"):
            return any(one.endswith(word) for one in self.words)
        return word in self.words or word in self.stems or word in FOREIGN or len(word) == 1 or word.isupper() and word.isalpha()


def lines_of(path):
    """Each line of a document outside of blocks of code, with its number."""
    with open(os.path.join(TOP, path), encoding="utf-8") as file:
        lines = file.read().split("\n")
    is_block = False
    for number, line in enumerate(lines, 1):
        if line.startswith("```"):
            is_block = not is_block
        elif not is_block:
            yield number, line


def headings(path):
    """What links call the headings of a document."""
    heads = (line.lstrip("#").strip().lower() for _, line in lines_of(path) if line.startswith("#"))
    return {re.sub(r"[^\w -]", "", head).replace(" ", "-") for head in heads}


def is_led(path, target, heading):
    """Whether a link of a document leads anywhere. What stands elsewhere isn't looked for."""
    if target.startswith(("http:", "https:")):
        return True
    there = os.path.normpath(os.path.join(os.path.dirname(path), target)) if target else path
    return os.path.exists(os.path.join(TOP, there)) and (not heading or heading in headings(there))


def files_named(lines):
    """Each file that is named without its folder: the number of its line, its name, the names in brackets right behind it, and the folder
    before which it stands, if there is one."""
    found, waiting, names, between = [], [], None, ""
    for number, line in lines:
        if not line or line.startswith(("- ", "#", "|")):
            waiting, names, between = [], None, ""
        end = 0
        for span in SPAN.finditer(line):
            text, between = span.group(1), between + line[end : span.start()]
            if ")" in between:
                names = None
            if between != " (" and names is not None and not names:
                names = None
            if names is not None:
                names.append(text)
            elif text.endswith("/") and between.endswith(" in "):
                for one in waiting:
                    one[3] = text
                waiting = []
            elif "/" not in text and text.endswith(ENDINGS[:2]):
                names = []
                waiting.append([number, text, names, None])
                found.append(waiting[-1])
            end, between = span.end(), ""
        between += line[end:] + " "
    return found


def main():
    tree = Tree()
    passed = failed = 0
    for path in ["README.md", "CHANGELOG.md", "SECURITY.md", *sorted(glob.glob("docs/*.md", root_dir=TOP)), "bodies/README.md"]:
        lines = list(lines_of(path))
        looked = [(number, text, tree.lacks(text)) for number, line in lines for text in SPAN.findall(line)]
        looked += [(number, name, tree.lacks_in(name, names, folder)) for number, name, names, folder in files_named(lines)]
        looked += [(number, target, [] if is_led(path, target, heading) else [f"{target}#{heading}"]) for number, line in lines for target, heading in LINK.findall(line)]
        for number, text, missing in looked:
            for name in missing:
                print(f"{path}:{number}: {name} (of `{text}`)")
            failed += bool(missing)
            passed += not missing
    print(f"{passed} passed, {failed} failed")
    return 1 if failed else 0


sys.exit(main())
