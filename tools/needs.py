"""Which crates a crate must list in crates.txt, read from its files: those that its code names (`CRATE::`), and those that its pages, its
proofs and its `ghost use` lines name (`Rattle.CRATE`). A crate whose types the code only reaches, as the types of fields, needs no mention.

What a `use` line brings under a crate's name, as `use std::io`, is no such crate. A name in a place of no import may be another thing that has a
crate's name, so a crate may be said to need one that it can do without; it is never told to leave out one that it needs.
"""
import re

from tree import code_of, files_of, kind_of, lines_of

BROUGHT = re.compile(r"^ *(?:pub )?use (\w+)(?:::\w+)*::(?:\{([^{}]*)\}|(\w+)(?: as (\w+))?);", re.M)
IN_CODE = re.compile(r"(?<!::)\b(\w+)::")
IN_PAGES = re.compile(r"\bRattle\.(\w+)\.")


def text_of(crate, kind):
    """The files of a kind without comments."""
    return "\n".join("\n".join(code_of(lines_of(path), kind)) for path in files_of(crate) if kind_of(path) == kind)


def brought(code):
    """The names that `use` lines bring from within a crate."""
    found = set()
    for _, items, name, alias in BROUGHT.findall(code):
        found |= {item.split(" as ")[-1].strip() for item in items.split(",")} | {alias or name}
    return found


def needed(crate, known):
    """The crates, of those that are known, that a crate must list."""
    code = text_of(crate, ".rt")
    imported = {found[0] for found in BROUGHT.findall(code)}
    named = (set(IN_CODE.findall(code)) - brought(code)) | imported | set(IN_PAGES.findall(code + text_of(crate, ".antt")))
    return (named & known) - {crate}


def unneeded(listed):
    """For each crate the names in crates.txt that it does not need; a name that is no crate of the repository is a library of the kit's."""
    known = set(listed) | {name for names in listed.values() for name in names}
    return {crate: [name for name in names if name not in needed(crate, known)] for crate, names in listed.items()}
