#!/usr/bin/env python3
"""Brings the names that this repository's specs/ and proofs/ define to Rattle's spelling.

usage: respell.py [--list] [FOLDER]

Definitions, lemmas, fields and constructors are in snake case, types and facts in upper camel case.
Names that come from src/ and names that Rattle makes (goals, invariants, measures) keep their spelling, and so does
a name that a file imports from elsewhere. A second run changes nothing. --list prints old and new names and writes
nothing.
"""
import os
import re
import sys

WORD = r"[^\s(){}.;,@\"«»\[\]|]+"
HEAD = re.compile(
    r"^(\s*)((?:(?:pub|abbrev|unfoldable|data|record|ruleset|mutual)\s+)*)(" + WORD + r")((?:\s*[({][^)}]*[)}])*)\s*:(?=\s|$)"
)
USE = re.compile(r"^\s*(?:pub\s+)?use\s+([^\s{;]+?)\.?(?:\{([^}]*)\})?\s*;?\s*$")
GHOST_USE = re.compile(r"^\s*ghost use ([^\s{;]+?)\.?(?:\{([^}]*)\})?;\s*$")
# A line of comment.
QUIET = re.compile(r"^\s*(--|//)")
# Facts and types that were spelled as values.
TYPES = {"shapedObj": "ShapedObj"}
# Lemmas that would have the name of the definition that they speak of.
LEMMAS = (
    "action-bytes",
    "action-len",
    "action-units",
    "action-values",
    "bare-row",
    "content-bytes",
    "content-len",
    "entries-bytes",
    "entries-told",
    "entry-lies",
    "every-pairs",
    "expose-content",
    "fits-row",
    "item-of",
    "joining-sample",
    "keys-told",
    "load-told",
    "mod-at",
    "mod-in",
    "no-entry",
    "object-lies",
    "on-ranks",
    "placed-items",
    "placed-pairs",
    "prop-bytes",
    "prop-len",
    "row-entries",
    "same-obj",
    "scalar-bytes",
    "scalar-len",
    "seek-on",
    "size-told",
    "step-to",
    "target-in",
    "values-in",
)
# Other names that would meet one of their file, of the library or of src/.
APART = {
    "in-turns": "made_in_turns",
    "pathBytes": "bytes_of_path",
    "placedRow": "row_placed",
    "put-over": "put_over_pairs",
    "put-text": "put_text_edit",
    "scalarBytes": "bytes_of_scalar",
    "splice-text": "splice_text_edit",
    "underJK": "under_j_k",
    "units-at": "units_stay",
    "valueBytes": "bytes_of_value",
}


def files(top):
    for crate in sorted(os.listdir(os.path.join(top, "crates"))):
        for part in ("specs", "proofs", "src"):
            for folder, _, names in os.walk(os.path.join(top, "crates", crate, part)):
                for name in sorted(names):
                    if name.endswith((".antt", ".rt")):
                        yield os.path.join(folder, name)


def snake(name):
    """The name in snake case: dashes and humps become underscores, and a part that is a capital stays one."""
    parts = name.split("-")
    out = []
    for part in parts:
        part = part.replace("getD", "get_or")
        out.append(re.sub(r"(?<=[a-z0-9'])([A-Z][a-z]*)", lambda m: "_" + m[1].lower(), part))
    return "_".join(out)


def declarations(text):
    """Name, indent, leading words and type text of each signature."""
    lines = text.split("\n")
    for i, line in enumerate(lines):
        if line.lstrip().startswith("--"):
            continue
        m = HEAD.match(line)
        if not m:
            continue
        kind = line[m.end():]
        j = i + 1
        while j < len(lines) and lines[j].startswith(m[1] + "  ") and not HEAD.match(lines[j]):
            kind += " " + lines[j].strip()
            j += 1
        yield m[3], m[1], m[2], kind.strip()


def table(top):
    """Old and new names, and the fields among them."""
    new, fields = {}, set()
    goals, said = set(), set()
    for path in files(top):
        if not path.endswith(".antt"):
            continue
        text = open(path, encoding="utf-8").read()
        record = None
        for name, indent, words, kind in declarations(text):
            said.add(name)
            if re.match(r"^(goal|need)s?\.", kind):
                goals.add(name)
                continue
            if "record" in words.split():
                record = indent
            elif record is not None and len(indent) > len(record):
                fields.add(name)
            else:
                record = None
            if re.match(r"^[a-z]", name) and not name in TYPES:
                to = snake(name)
                if to != name:
                    new[name] = to
        for m in re.finditer(r" as ([a-z][A-Za-z0-9]*[A-Z]" + WORD + r")(?=[,}])", text):
            new[m[1]] = snake(m[1])
        for m in re.finditer(r"^\s*\|\s*(" + WORD + r")\s*:", text, re.M):
            if re.match(r"^[a-z]", m[1]) and snake(m[1]) != m[1]:
                new[m[1]] = snake(m[1])
    for name in goals:
        new.pop(name, None)
    known = lambda names: {old: to for old, to in names.items() if old in said}
    new.update(known({old: snake(old) + "_lem" for old in LEMMAS}))
    new.update(known(APART))
    new.update(known(TYPES))
    return new, fields


def foreign(text):
    """The names that a file imports from outside the repository."""
    out = set()
    for line in text.split("\n"):
        m = USE.match(line) or GHOST_USE.match(line)
        if m and m[2] and not os.path.isdir(os.path.join(TOP, "crates", (m[1] + ".").split(".")[1])):
            for item in m[2].split(","):
                out.add(item.strip().split(" as ")[-1].strip())
    return out


def turn(text, new, fields, skip):
    """The text with each name of the table turned."""

    def one(m):
        name = m[0]
        bare = name.rstrip("'")
        to = new.get(name) or (new[bare] + name[len(bare):] if bare in new else None)
        if to is None or name in skip:
            return name
        line, at = m.string, m.start()
        if line[at - 1:at] == "." and line[at - 2:at - 1] != " " and name not in fields:
            return name
        return to

    return "\n".join(line if QUIET.match(line) else re.sub(WORD, one, line) for line in text.split("\n"))


TOP = "."


def main():
    global TOP
    args = [a for a in sys.argv[1:] if not a.startswith("--")]
    TOP = args[0] if args else "."
    new, fields = table(TOP)
    if "--list" in sys.argv:
        for name in sorted(new):
            print(name, new[name], "field" if name in fields else "")
        return
    for path in files(TOP):
        text = open(path, encoding="utf-8").read()
        skip = foreign(text)
        out = turn(text, new, fields, skip)
        if out != text:
            open(path, "w", encoding="utf-8").write(out)


main()
