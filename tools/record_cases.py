"""Cases for opening a shelf record.

    python3 tools/record_cases.py stdin  > crates/record_cases/stdin
    python3 tools/record_cases.py stdout > crates/record_cases/stdout

A case is a line of hex digits. Its answer is the number of the refusal, 18 or 19, or
'ok' with the number of objects, of entries and of text bytes that are reached from
the root.
"""
import sys

from records import ROOT, answer, entry, obj, record, root, scalar

# The cases.

def small():
    return record([
        root(
            entry(scalar(9), (1, 1), 0, b"books"),
            entry(scalar(12), (2, 1), 1, "né".encode()),
            entry(scalar(3, -5), (9, 2), 0, b"z")),
        obj((1, 1), ROOT, 0, [entry(scalar(11), (3, 1), 0, b"a")]),
        obj((2, 1), ROOT, 3, "é!".encode()),
        obj((3, 1), (1, 1), 2, [entry(scalar(7, "é".encode()), (4, 1)), entry(scalar(8, b"\xff"), (5, 1), 1)]),
    ])


def damaged(good):
    yield good
    for i in range(len(good)):
        for change in (1, 128):
            yield good[:i] + bytes([(good[i] + change) % 256]) + good[i + 1:]
    for n in range(len(good)):
        yield good[:n]
    for more in (b"\0", b"\1", b"\0\0\0\0"):
        yield good + more


def rules():
    one = entry(scalar(0), (1, 1), 0, b"a")
    yield b""
    yield record([])
    yield record([root()])
    yield record([obj(ROOT, ROOT, 1, [])])
    yield record([obj(ROOT, ROOT, 2, [])])
    yield record([obj(ROOT, ROOT, 3, b"")])
    yield record([obj(ROOT, (0, 1), 0, [])])
    yield record([obj((1, 1), ROOT, 0, [])])
    for kind in range(14):
        value = {7: b"s", 8: b"\xfe"}.get(kind, 7)
        yield record([root(entry(scalar(kind, value), (1, 1), 0, b"a"))])
    for kind in range(9, 13):
        for child in range(4):
            row = b"" if child == 3 else []
            yield record([root(entry(scalar(kind), (1, 1), 0, b"a")), obj((1, 1), ROOT, child, row)])
    for value in (0, 1, -1, 2**63 - 1, -2**63, 2**64 - 1):
        for kind in (3, 4, 5, 6):
            yield record([root(entry(scalar(kind, value), (1, 1), 0, b"a"))])
    yield record([root(entry(scalar(0), (0, 1), 0, b"a"))])
    yield record([root(entry(scalar(0), (1, 0), 0, b"a"))])
    yield record([root(one, one)])
    yield record([root(entry(scalar(0), (1, 1), 0, b"b"), entry(scalar(0), (2, 1), 0, b"a"))])
    yield record([root(entry(scalar(0), (1, 1), 0, b"a"), entry(scalar(0), (2, 1), 0, b"ab"))])
    yield record([root(entry(scalar(0), (1, 1), 0, b""), entry(scalar(0), (1, 1), 0, b"\x7f"))])
    for size in (63, 64, 65):
        yield record([root(entry(scalar(0), (1, 1), 0, b"k" * size))])
    for size in (255, 256, 257):
        for kind in (7, 8):
            yield record([root(entry(scalar(kind, b"s" * size), (1, 1), 0, b"a"))])
    for bad in (b"\x80", b"\xc0\x80", b"\xe0\x80\x80", b"\xed\xa0\x80", b"\xf4\x90\x80\x80", b"\xc3", b"\xff"):
        yield record([root(entry(scalar(0), (1, 1), 0, bad))])
        yield record([root(entry(scalar(7, bad), (1, 1), 0, b"a"))])
        yield record([root(entry(scalar(8, bad), (1, 1), 0, b"a"))])
        yield record([root(), obj((1, 1), ROOT, 3, bad)])
    # objects: order, parents, entries
    yield record([root(), obj((0, 1), ROOT, 0, [])])
    yield record([root(), obj((1, 1), ROOT, 0, []), obj((1, 1), ROOT, 0, [])])
    yield record([root(), obj((2, 1), ROOT, 0, []), obj((1, 1), ROOT, 0, [])])
    yield record([root(), obj((1, 2), ROOT, 0, []), obj((1, 1), ROOT, 0, [])])
    yield record([root(), obj((1, 1), ROOT, 0, []), obj((1, 2), (1, 1), 0, [])])
    yield record([root(), obj((1, 1), (1, 1), 0, [])])
    yield record([root(), obj((1, 1), (1, 2), 0, []), obj((1, 2), ROOT, 0, [])])
    yield record([root(), obj((1, 1), (7, 7), 0, [])])
    yield record([root(entry(scalar(9), (1, 1), 0, b"a"), entry(scalar(9), (1, 1), 0, b"b")), obj((1, 1), ROOT, 0, [])])
    yield record([root(), obj((1, 1), ROOT, 2, [entry(scalar(9), (2, 1))]), obj((2, 1), ROOT, 0, [])])
    yield record([root(), obj((1, 1), ROOT, 2, [entry(scalar(9), (2, 1))]), obj((2, 1), (1, 1), 0, [])])
    yield record([root(), obj((1, 1), ROOT, 2, [entry(scalar(9), (2, 1)), entry(scalar(9), (2, 1))]), obj((2, 1), (1, 1), 0, [])])
    yield record([root(), obj((2, 1), ROOT, 2, [entry(scalar(9), (1, 1))])])


# The root with an entry for each of the objects, which are its children.
def entered(*children):
    row = [entry(scalar(9 + kind), ident, 0, b"%04d" % n) for n, (ident, kind, _) in enumerate(children)]
    return record([root(*row)] + [obj(ident, ROOT, kind, row) for ident, kind, row in children])


def bounds():
    for n in (1023, 1024):
        yield entered(*[((1 + i, 1), 2, []) for i in range(n)])
    for n in (32767, 32768, 32769):
        yield entered(((1, 1), 3, b"t" * n))
    # the key of the list's entry counts 4 bytes
    for n in (32768, 32769):
        row = [entry(scalar(8, b"s" * 256), (1 + i, 1)) for i in range(127)]
        rest = n - 4 - 127 * 256
        yield entered(((1, 1), 2, row + [entry(scalar(8, b"s" * rest), (200, 1))]))
    row = [entry(scalar(0), (1 + i, 1)) for i in range(2100)]
    free = 65536 - len(entered(((1, 1), 2, row), ((2, 1), 3, b"")))
    for over in (0, 1):
        yield entered(((1, 1), 2, row), ((2, 1), 3, b"t" * (free + over)))


def cases():
    yield from damaged(small())
    yield from rules()
    yield from bounds()


show = (lambda c: c.hex()) if sys.argv[1] == "stdin" else answer
for case in cases():
    print(show(case))
