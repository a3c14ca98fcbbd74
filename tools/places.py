#!/usr/bin/env python3
"""Counts the places of older forms in the sources, as docs/DESIGN-PASS.md names them.

    python3 tools/places.py [--list] [FOLDER]

FOLDER holds crates/ (the repository by default). --list prints each place.
Tests are left out.
"""
import collections
import pathlib
import re
import sys

FN = re.compile(r'^(?P<indent> *)(?:pub(?:\(crate\))? )?fn (?P<name>\w+)', re.M)
RANGE_FOR = re.compile(r'^( *)for (\w+) in (.*\.\..*) \{$')


def sources(top):
    for path in sorted(top.glob('crates/*/src/**/*.rt')):
        if path.name == 'tests.rt':
            continue
        text = path.read_text()
        yield path.relative_to(top), text.split('#[cfg(test)]\nmod tests {')[0]


def functions(text):
    """Each function: its name, the number of its first line, its text."""
    lines = text.split('\n')
    n = 0
    while n < len(lines):
        m = FN.match(lines[n])
        if not m:
            n += 1
            continue
        end = n
        while end < len(lines) and lines[end].rstrip() not in (m['indent'] + '}', m['indent'] + '{}') \
                and not (end == n and lines[end].endswith((';', '{}'))):
            end += 1
        yield m['name'], n + 1, '\n'.join(lines[n:end + 1])
        n = end + 1


def block(lines, n, indent):
    end = n + 1
    while end < len(lines) and lines[end] != indent + '}':
        end += 1
    return lines[n + 1:end]


def enums(text):
    for m in re.finditer(r'^(?:pub )?enum (\w+)[^{]*\{\n(.*?)^\}', text, re.M | re.S):
        yield m[1], text[:m.start()].count('\n') + 1, re.findall(r'^    (\w+)(\(.*\))?', m[2], re.M)


class Places:
    def __init__(self):
        self.of = collections.defaultdict(list)

    def add(self, kind, path, line, what):
        self.of[kind].append(f'{path}:{line}: {what.strip()}')


KINDS = [
    ('1a', 'enums of the shape of Option or Result'),
    ('1b', 'numbers that stand for kinds, refusals or none'),
    ('1c', '`?` and its like written out: a match or a let-else that hands a None or an Err on'),
    ('2a', 'functions with the same body, names of types and values aside'),
    ('2b', 'functions that only hand their parameters on to one of another crate or module'),
    ('2c', 'types with the same fields or the same cases'),
    ('3a', '`while` loops'),
    ('3b', '`for` over a range that indexes by its variable'),
    ('3c', 'counters beside a loop'),
    ('3d', '`for` that stops at the first that fails'),
    ('4a', 'equality and order written by hand'),
    ('4b', 'conversions and printing by a function of their own'),
    ('4c', 'lists of arms or fields written out that say one thing'),
    ('5a', 'facts required by three functions of a crate or more'),
    ('5b', 'groups of three parameters or more that three functions of a crate or more share'),
    ('6a', 'structs of lent places with a length or count beside'),
    ('6b', 'arrays or slices side by side in one struct'),
    ('6c', 'searches by halves'),
    ('7', 'enums that say which step to run, tables of functions'),
]


def normal_clause(text):
    return re.sub(r'\.(old|now|new|entry)\b', '', text)


def body_of(text):
    m = re.search(r'^ *\{$(.*)^ *\}$', text, re.M | re.S)
    if not m:
        m = re.search(r'\{\n(.*)\}', text, re.S)
    return m[1] if m else ''


def shape(body):
    body = re.sub(r'//.*', '', body)
    return re.sub(r'\s+', ' ', re.sub(r'\b(?!if|else|match|for|in|while|let|return|self|mut|Some|None|Ok|Err|true|false)[A-Za-z_]\w*', 'x', body)).strip()


def parameters(text):
    m = re.search(r'fn \w+(?:<[^(]*>)?\((.*?)\)(?: ->|\n| \{)', text, re.S)
    if not m:
        return []
    return [p for p in re.findall(r'(\w+): ', m[1])]


def main():
    args = [a for a in sys.argv[1:] if a != '--list']
    top = pathlib.Path(args[0]) if args else pathlib.Path(__file__).resolve().parent.parent
    places = Places()
    shapes = collections.defaultdict(list)
    fields = collections.defaultdict(list)
    facts = collections.defaultdict(lambda: collections.defaultdict(set))
    groups = collections.defaultdict(lambda: collections.defaultdict(set))
    for path, text in sources(top):
        crate = path.parts[1]
        lines = text.split('\n')
        for name, n, cases in enums(text):
            units = [c for c, payload in cases if not payload]
            if len(units) < len(cases) <= 4 and any(re.match(r'No|None|Too|Bad|Not|Missing|Err', u) for u in units):
                places.add('1a', path, n, f'enum {name}')
            if len(cases) >= 2 and any(payload for _, payload in cases):
                fields[tuple(c for c, _ in cases)].append((path, n, f'enum {name}'))
        for m in re.finditer(r'^(?:pub )?struct (\w+)[^{;]*\{\n(.*?)^\}', text, re.M | re.S):
            n = text[:m.start()].count('\n') + 1
            body = [l for l in re.findall(r'^    (?:pub(?:\(crate\))? )?(\w+): (.*),$', m[2], re.M) if l]
            slices = [f for f, t in body if re.match(r"&'?\w* ?(mut )?\[|\[.*; .*\]$|Raw<|Lent<|Starts<", t)]
            if any(re.match(r"&'\w+ mut \[", t) for _, t in body) and any(t == 'usize' for _, t in body):
                places.add('6a', path, n, f'struct {m[1]}')
            elif len(slices) >= 2:
                places.add('6b', path, n, f'struct {m[1]}: ' + ', '.join(slices))
            if len(body) == 1 and slices:
                places.add('6a', path, n, f'struct {m[1]}')
            if len(body) >= 2:
                fields[tuple(sorted(t for _, t in body))].append((path, n, f'struct {m[1]}'))
        for n, line in enumerate(lines, 1):
            if re.match(r'^ *while ', line):
                places.add('3a', path, n, line)
            if re.match(r'^ *\w+ [+-]= 1;$', line):
                places.add('3c', path, n, line)
            m = RANGE_FOR.match(line)
            if m:
                inside = block(lines, n - 1, m[1])
                if any(re.search(r'\[[^\]]*\b' + m[2] + r'\b[^\]]*\]', l) for l in inside):
                    places.add('3b', path, n, line)
            m = re.match(r'^( *)for .* \{$', line)
            if m:
                inside = block(lines, n - 1, m[1])
                if len(inside) == 3 and re.match(r'^ *if ', inside[0]) and 'return false' in inside[1]:
                    places.add('3d', path, n, line)
            if re.search(r'else \{$', line) and 'let ' in line and re.match(r'^ *return (None|Err\(.*\));$', lines[n]):
                places.add('1c', path, n, line)
            if re.match(r'^ *(None => None|Err\(_\) => None|None => return None),$', line):
                places.add('1c', path, n, line)
            if re.search(r'\+ \((high|hi) - (low|lo)\) / 2', line):
                places.add('6c', path, n, line)
            if re.match(r'^impl (PartialEq|Eq|PartialOrd|Ord)\b.* for ', line):
                places.add('4a', path, n, line)
            if re.match(r'^pub const \w+: u32 = 0xffff_ffff;', line):
                places.add('1b', path, n, line)
            m = re.match(r'^(?:pub )?enum (Step|Shown|Mode|State|Phase)\w*', line)
            if m:
                places.add('7', path, n, line)
        for name, n, body in functions(text):
            inner = body_of(body)
            arms = re.findall(r'^ *(?:\w+::)*\w+ => \d+,$|^ *\d+ => ', inner, re.M)
            if len(arms) >= 2:
                places.add('1b', path, n, f'fn {name}: {len(arms)} arms')
            if re.search(r'\bfn (compare|same|before|same_kind|compare_keys|cmp_bytes|key_before)\(', body):
                places.add('4a', path, n, f'fn {name}')
            if re.search(r'\bfn (\w+_row|kind_name|type_at|take_kind|number|plus|digit)\(', body) and 'fn put_row' not in body \
                    and re.search(r'^ *match ', inner, re.M):
                places.add('4b', path, n, f'fn {name}')
            same = collections.Counter(re.findall(r'^ *(?:[\w:]+)(?:\(.*?\))? => ([\w&\[\].]+(?:\(.*?\))?),$', inner, re.M))
            for value, count in same.items():
                if count >= 2:
                    places.add('4c', path, n, f'fn {name}: {count} arms => {value}')
            rebuilt = re.findall(r'^ *(\w+): (?:\w+)\.\1,$', inner, re.M)
            taken = re.search(r'^ *let (Node|Item) \{$', inner, re.M)
            if len(rebuilt) >= 2 or taken:
                places.add('4c', path, n, f'fn {name}: a struct taken apart and built again')
            key = shape(inner)
            if len(key) > 60:
                shapes[key].append((path, n, f'fn {name}'))
            m = re.match(r'^\s*(?:self\.)?(?:\w+\.)*(\w+)(?:::<\w+>)?\(([^(){}]*)\);?\s*$', re.sub(r'\n\s*', ' ', inner))
            if m and 'self' not in m[2].split('.')[0] and len(re.findall(r'\w+', m[2])) >= 1 and '+' not in m[2]:
                given = [p for p in parameters(body)]
                passed = [w for w in re.findall(r'(\w+)', m[2])]
                if given and set(given) <= set(passed):
                    places.add('2b', path, n, f'fn {name} -> {m[1]}')
            for kind, clause in re.findall(r'^ *(requires)(?: \w+)? \{ (.*) \}$', body, re.M):
                facts[crate][normal_clause(clause)].add(f'{name}')
            ps = [p for p in parameters(body)]
            if len(ps) >= 3:
                groups[crate][tuple(ps)].add((name, str(path), n))
    for key, found in shapes.items():
        if len(found) >= 2:
            for path, n, what in found[1:]:
                places.add('2a', path, n, f'{what}, as {found[0][2]} of {found[0][0]}')
    for key, found in fields.items():
        if len(found) >= 2:
            for path, n, what in found[1:]:
                places.add('2c', path, n, f'{what}, as {found[0][2]} of {found[0][0]}')
    for crate, of in facts.items():
        for fact, names in sorted(of.items()):
            if len(names) >= 3:
                places.add('5a', f'crates/{crate}', len(names), f'{fact}')
    for crate, of in groups.items():
        shared = collections.defaultdict(set)
        for params, fns in of.items():
            for i in range(len(params) - 2):
                for name, path, n in fns:
                    shared[params[i:i + 3]].add((name, path, n))
        for triple, fns in sorted(shared.items()):
            if len(fns) >= 3:
                places.add('5b', f'crates/{crate}', len(fns), ', '.join(triple))
    for kind, title in KINDS:
        found = places.of[kind]
        print(f'{kind}  {len(found):3}  {title}')
        if '--list' in sys.argv:
            for place in found:
                print('        ' + place)


main()
