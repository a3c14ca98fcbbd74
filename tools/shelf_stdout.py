"""What the program shelf has to print for its sample, by Python's own means.

    python3 tools/shelf_stdout.py > crates/shelf/stdout

With the word 'records' it writes the sample records into crates/shelf/data first.
"""
import os
import sys

from records import ROOT, TEXT, entry, lawful, obj, read, record, root, scalar

DATA = os.path.join(os.path.dirname(__file__), "..", "crates", "shelf", "data")
KINDS = ("map", "table", "list", "text")


def shelf():
    return record([
        root(
            entry(scalar(9), (1, 1), 0, b"books"),
            entry(scalar(10), (2, 1), 0, b"lent"),
            entry(scalar(12), (3, 1), 1, "né".encode()),
            entry(scalar(6, 41), (9, 2), 0, b"visits")),
        obj((1, 1), ROOT, 0, [
            entry(scalar(11), (4, 1), 0, b"atlas"),
            entry(scalar(7, b"A2"), (5, 1), 1, b"shelf")]),
        obj((2, 1), ROOT, 1, [
            entry(scalar(5, -5), (6, 1), 0, b"since"),
            entry(scalar(2), (6, 2), 0, b"yes")]),
        obj((3, 1), ROOT, 3, "Bücher: 日本".encode()),
        obj((4, 1), (1, 1), 2, [
            entry(scalar(0), (7, 1)),
            entry(scalar(3, -2**63), (7, 2), 1),
            entry(scalar(4, 2**64 - 1), (7, 3)),
            entry(scalar(8, b"\x00\xff"), (7, 4)),
            entry(scalar(1), (7, 5)),
            entry(scalar(11), (8, 1))]),
        obj((8, 1), (4, 1), 2, []),
        obj((9, 9), ROOT, 2, [entry(scalar(0), (10, 1))]),
    ])


# The same with two keys in the wrong order.
def refused():
    return shelf().replace(b"books", b"zooks")


def shown(code, value):
    if code in (3, 5, 6) and value >= 2**63:
        value -= 2**64
    plain = {0: "null", 1: "false", 2: "true", 3: f"int {value}", 4: f"uint {value}", 5: f"timestamp {value}", 6: f"counter {value}"}
    if code in plain:
        return plain[code]
    if code == 7:
        return "str '" + value.decode() + "'"
    return "bytes" + "".join(f" {b:02X}" for b in value)


def tree(by, ident, depth):
    kind, row = by[ident][2], by[ident][3]
    if kind == TEXT:
        yield "  " * depth + "'" + row.decode() + "'"
        return
    for place, (key, code, value, own, flag) in enumerate(row):
        name = str(place) if key is None else key.decode()
        what = shown(code, value) if code < 9 else f"{KINDS[code - 9]} ({own[0]}, {own[1]})"
        yield "  " * depth + name + ": " + what + (" !" if flag else "")
        if code >= 9:
            yield from tree(by, own, depth + 1)


def show_record(name, data):
    objs = read(data)
    if objs is None:
        yield f"{name}: refused by 18, InvalidLayout"
    elif not lawful(objs):
        yield f"{name}: refused by 19, UnlawfulRows"
    else:
        yield f"{name}: a document"
        yield from tree({o[0]: o for o in objs}, ROOT, 1)


def show_lines(data):
    lines = data.split(b"\n")
    if lines[-1] == b"":
        lines.pop()
    for number, line in enumerate(lines, 1):
        try:
            text = line.decode("utf-8")
        except UnicodeDecodeError:
            yield f"line {number}: not UTF-8"
            continue
        yield f"line {number}: UTF-8"
        yield f"  {len(line)} bytes:" + "".join(f" {b:02X}" for b in line)
        yield f"  {len(text)} code points:" + "".join(f" {ord(c):04X}" for c in text)


def load(name):
    with open(os.path.join(DATA, name), "rb") as f:
        return f.read()


if sys.argv[1:] == ["records"]:
    for name, data in (("shelf.record", shelf()), ("refused.record", refused()), ("cut.record", shelf()[:-1])):
        with open(os.path.join(DATA, name), "wb") as f:
            f.write(data)
else:
    out = list(show_lines(load("lines.txt")))
    for name in ("shelf.record", "refused.record", "cut.record"):
        out += show_record(name, load(name))
    sys.stdout.buffer.write(("\n".join(out) + "\n").encode())
