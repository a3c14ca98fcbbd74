"""Shelf records written, read and judged by the rules of docs/FORMAT.md alone.

Shares no code with the crates: it reads the bytes by itself and judges UTF-8 by
Python's own. record_cases.py and shelf_stdout.py make expected output with it.
"""
KEYED, LIST, TEXT = (0, 1), 2, 3


# Writing.

def u32(n):
    return n.to_bytes(4, "big")


def u64(n):
    return (n % 2**64).to_bytes(8, "big")


def window(b):
    return u32(len(b)) + b


def scalar(kind, value=None):
    if kind in (3, 4, 5, 6):
        return u32(kind) + u64(value)
    if kind in (7, 8):
        return u32(kind) + window(value)
    return u32(kind)


def entry(content, ident, flag=0, key=None):
    return (b"" if key is None else window(key)) + content + u32(ident[0]) + u32(ident[1]) + u32(flag)


def obj(ident, parent, kind, row):
    head = u32(ident[0]) + u32(ident[1]) + u32(parent[0]) + u32(parent[1]) + u32(kind)
    return head + (window(row) if kind == TEXT else u32(len(row)) + b"".join(row))


def record(objs):
    return u32(len(objs)) + b"".join(objs)


ROOT = (0, 0)


def root(*row):
    return obj(ROOT, ROOT, 0, list(row))


# Reading: a document, or None where the layout is not kept.

class Cut(Exception):
    pass


class Reader:
    def __init__(self, data):
        self.data, self.at = data, 0

    def take(self, n):
        if self.at + n > len(self.data):
            raise Cut
        part = self.data[self.at:self.at + n]
        self.at += n
        return part

    def number(self, size=4):
        return int.from_bytes(self.take(size), "big")

    def within(self, codes):
        n = self.number()
        if n not in codes:
            raise Cut
        return n

    def ident(self):
        return (self.number(), self.number())

    def entry(self, keyed):
        key = self.take(self.number()) if keyed else None
        kind = self.within(range(13))
        value = None
        if kind in (3, 4, 5, 6):
            value = self.number(8)
        elif kind in (7, 8):
            value = self.take(self.number())
        ident = self.ident()
        return key, kind, value, ident, self.within((0, 1))

    def object(self):
        ident, parent, kind = self.ident(), self.ident(), self.within(range(4))
        if kind == TEXT:
            return ident, parent, kind, self.take(self.number())
        return ident, parent, kind, [self.entry(kind in KEYED) for _ in range(self.number())]


def read(data):
    if len(data) > 65536:
        return None
    try:
        r = Reader(data)
        objs = []
        for _ in range(r.number()):
            objs.append(r.object())
        if r.at != len(data):
            return None
    except Cut:
        return None
    if any(a[0] >= b[0] for a, b in zip(objs, objs[1:])):
        return None
    return objs


# The laws.

def is_text(b):
    try:
        b.decode("utf-8")
        return True
    except UnicodeDecodeError:
        return False


def lawful(objs):
    by = {o[0]: o for o in objs}
    if len(objs) > 1024 or ROOT not in by or by[ROOT][2] != 0 or by[ROOT][1] != ROOT:
        return False
    entries = text = size = 0
    entered = set()
    for ident, parent, kind, row in objs:
        if ident != ROOT and (ident[0] == 0 or parent not in by or not parent < ident):
            return False
        if kind == TEXT:
            text += len(row)
            if not is_text(row):
                return False
            continue
        entries += len(row)
        last = None
        for key, code, value, own, _flag in row:
            if own[0] == 0:
                return False
            if key is not None:
                if len(key) > 64 or not is_text(key) or (last is not None and not last < key):
                    return False
                last = key
                size += len(key)
            if code in (7, 8):
                size += len(value)
                if len(value) > 256 or (code == 7 and not is_text(value)):
                    return False
            if code >= 9:
                child = by.get(own)
                if child is None or child[2] != code - 9 or child[1] != ident or own == ROOT or own in entered:
                    return False
                entered.add(own)
    return entries <= 4096 and text <= 32768 and size <= 32768


# What a tree holds: objects, entries and text bytes that are reached from the root.
def tally(by, ident):
    kind, row = by[ident][2], by[ident][3]
    if kind == TEXT:
        return 1, 0, len(row)
    sums = [1, len(row), 0]
    for _key, code, _value, own, _flag in row:
        if code >= 9:
            sums = [a + b for a, b in zip(sums, tally(by, own))]
    return tuple(sums)


def answer(data):
    objs = read(data)
    if objs is None:
        return "18"
    if not lawful(objs):
        return "19"
    return "ok %d %d %d" % tally({o[0]: o for o in objs}, ROOT)
