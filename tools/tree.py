"""What the tools read of the tree: its crates, their files, and a file's lines without comments."""
import os
import re

ROOT = os.path.dirname(os.path.dirname(os.path.abspath(__file__)))
COMMENT = {".antt": re.compile(r"(^|\s)--(\s.*)?$"), ".rt": re.compile(r"//.*$")}


def crates():
    """The lines of crates.txt: a crate's name, without what stands behind it as `staticlib`, and what it lists, in order."""
    found = {}
    with open(os.path.join(ROOT, "crates.txt"), encoding="utf-8") as f:
        for line in f:
            name, colon, rest = line.split("#")[0].partition(":")
            if colon:
                found[name.split()[0]] = rest.split()
    return found


def files_of(crate):
    """The sources and pages of a crate."""
    for folder, inner, names in os.walk(os.path.join(ROOT, "crates", crate)):
        inner[:] = sorted(name for name in inner if name != "out")
        for name in sorted(names):
            if kind_of(name) in COMMENT:
                yield os.path.join(folder, name)


def edit_files_of(crate):
    """The must-fail edits of a crate."""
    folder = os.path.join(ROOT, "crates", crate, "must-fail")
    return [os.path.join(folder, name) for name in sorted(os.listdir(folder))] if os.path.isdir(folder) else []


def changes_of(edit):
    """What an edit changes: a file of its crate, a text that it has once, and what stands there then."""
    path, old = "", ""
    for line in lines_of(edit):
        word, _, rest = line.partition(": ")
        if word == "file":
            path = rest.strip()
        elif word == "old":
            old = rest
        elif word.rstrip(":") == "new":
            yield path, old, rest


def below(crate, listed):
    """The crates that a crate stands on."""
    found, left = set(), [crate]
    while left:
        more = set(listed[left.pop()]) & set(listed) - found
        found |= more
        left += more
    return found


def kind_of(path):
    return os.path.splitext(path)[1]


def lines_of(path):
    with open(path, encoding="utf-8") as f:
        return [line.rstrip("\n") for line in f]


def code_of(lines, kind):
    """The lines without comments."""
    return [COMMENT[kind].sub("", line) for line in lines]


def shown(path):
    return os.path.relpath(path, ROOT)
