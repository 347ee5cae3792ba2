"""What the tools read of the calls: each function and what it promises, the calls that a library hands on, and the calls that an edit
breaks."""
import os
import re

from tree import ROOT, code_of, crates, edit_files_of, files_of, kind_of, lines_of

# The libraries under `replay` are the bench's own tools: most promise nothing more than that they are safe and end, and what they
# print is compared with the crate's (docs/DECISIONS.md, "The libraries under `replay`"). What `standard_input` reads of the system, and what
# `failures` says to it, no promise can say.
EXEMPT = ("script_", "standard_input", "failures")

PROMISES = os.path.join(ROOT, "docs", "PROMISES.md")
ITEM = re.compile(r'^impl\b(?:<.*?>)? (?:\S+ for )?(\w+)|^\}|^ *(pub )?(?:const |unsafe |extern "C" )*fn (\w+)', re.M)
# A conversion: `From` promises what its `from_gives` says of the value and the answer.
FROM = re.compile(r"^impl From<(.+)> for (\w+) \{\n    ghost from_gives = \{ λ \w+ r\. (.*) \};", re.M)
CLAUSE = re.compile(r"\b(requires|ensures)(?: \w+)?\s*$")
HANDED_ON = re.compile(r"^pub use (\w+)::(?:(\w+)|\{([^{}]*)\});$", re.M)
EXPORTED = re.compile(r'^pub extern "C" fn (\w+)\((?:(?!^\{$).)*^\{\n    (\w+)::\1\([^;{}]*\)\n\}', re.M | re.S)
BREAKS = re.compile(r"# breaks: (.*)")


def promise_at(text, at):
    """What a function ensures, from behind its name to its body: its clauses' texts, without their names."""
    clauses = []
    while True:
        start = text.index("{", at)
        clause = CLAUSE.search(text[at:start])
        if not clause:
            return " ; ".join(clauses)
        at, depth = start + 1, 1
        while depth:
            depth += {"{": 1, "}": -1}.get(text[at], 0)
            at += 1
        if clause[1] == "ensures":
            clauses.append(" ".join(text[start + 1 : at - 1].split()))


def tells(text, at):
    """Whether a function, from behind its name, answers or changes anything: if not, nothing is to be settled."""
    signature = text[at : text.index("{", at)]
    return "->" in signature or "&mut" in signature


def functions(crate):
    """The functions of a crate: name, with its module's and its type's; whether it is public; what it promises; whether it tells anything."""
    for path in files_of(crate):
        if kind_of(path) != ".rt":
            continue
        text = "\n".join(code_of(lines_of(path), ".rt"))
        module = os.path.basename(path)[: -len(".rt")]
        module = "" if module in ("lib", "main") else module + "::"
        owner = ""
        conversions = {made.start(): made for made in FROM.finditer(text)}
        for item in ITEM.finditer(text):
            if made := conversions.get(item.start()):
                owner = None
                source = "".join(word[0].upper() + word[1:] for word in re.findall(r"\w+", made[1]))
                yield module + "%sFrom%s::from" % (made[2], source), True, re.sub(r"^r ≡", "result ≡", made[3]), True
            elif item[3] and owner is not None:
                yield module + owner + item[3], bool(item[2]), promise_at(text, item.end()), tells(text, item.end())
            elif not item[3]:
                owner = item[1] + "::" if item[1] else ""


def library_of(crate):
    """The lines of src/lib.rt; none in a program."""
    path = os.path.join(ROOT, "crates", crate, "src", "lib.rt")
    return lines_of(path) if os.path.exists(path) else []


def public_calls(telling=False):
    """The public calls of the libraries, in order, and what each promises: (crate, call) to promise. With `telling` those alone that answer or
    change anything."""
    return {
        (crate, name): promise
        for crate in crates()
        if library_of(crate) and not crate.startswith(EXEMPT)
        for name, is_public, promise, tells_any in functions(crate)
        if is_public and (tells_any or not telling)
    }


def handed_on(listed):
    """The calls that a library hands on by `pub use`, and whose they are."""
    found = {}
    for crate in listed:
        for source, single, names in HANDED_ON.findall("\n".join(library_of(crate))):
            for name in filter(None, (one.strip() for one in (single + names).split(","))):
                found[crate, name] = (source, name) if source in listed else (crate, source + "::" + name)
    return found


def exported(public):
    """The calls of libraries for C that do no more than make a call of the same name and promise: whose they are."""
    found = {}
    for crate in dict.fromkeys(crate for crate, _ in public):
        for name, source in EXPORTED.findall("\n".join(library_of(crate))):
            if public.get((source, name)) == public[crate, name]:
                found[crate, name] = (source, name)
    return found


def edits():
    """The must-fail edits: (crate, edit) to file."""
    return {(crate, os.path.basename(path)[: -len(".edit")]): path for crate in crates() for path in edit_files_of(crate)}


def broken_by(path):
    """The calls that an edit says it breaks, by its lines `# breaks: CRATE::CALL CRATE::CALL`."""
    found = []
    for line in lines_of(path):
        if said := BREAKS.fullmatch(line):
            found += [tuple(name.split("::", 1)) if "::" in name else ("", name) for name in said[1].split()]
    return found
