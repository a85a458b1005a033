#!/usr/bin/env python3
"""Counts, in the code of each crate, the places that docs/DESIGN-PASS.md speaks of: one line for each
count, and with --list the places themselves. Run at the top of the repository."""
import collections
import glob
import re
import sys

FN = re.compile(r'^ *(?:#\[.*\]\s*)*(?:pub )?(?:extern "C" )?fn (\w+)(?:<[^>]*>)?\(([^)]*)\)', re.M)
# C and the programs give these crates their forms
EDGES = ('c_', 'utvpi_c')


def sources():
    for path in sorted(glob.glob('crates/*/src/**/*.rt', recursive=True)):
        with open(path, encoding='utf-8') as file:
            yield path.split('/')[1], path, file.read()


def code(text):
    return re.sub(r'//[^\n]*', '', text)


def enums():
    """Enums with a case for a refusal, for nothing, or with one case that holds a value and one that holds none."""
    for crate, _, text in sources():
        for name, body in re.findall(r'enum (\w+) \{(.*?)\n\}', code(text), re.S):
            cases = re.findall(r'^    (\w+)(\(.*?\))?,', body, re.M)
            refused = any(c in ('Refused', 'Wrong') for c, _ in cases)
            two = len(cases) == 2 and any(held for _, held in cases) and not all(held for _, held in cases)
            if refused or two:
                yield crate, name


def passed_on():
    """Answers that are taken apart only to pass their refusal on."""
    for crate, _, text in sources():
        for name in re.findall(r'if let (\w+)::Refused\(\w+\) = ', text) + re.findall(r'if let (Err)\(\w+\) = ', text):
            yield crate, name
        for name in re.findall(r'(\w+::(?:Refused|Wrong)|Err)\(\w\) => (?:\{\s*return )?\w+(?:::\w+)?\(\w\)', text):
            yield crate, name


def kinds():
    """Constants that number the cases of something."""
    for crate, _, text in sources():
        for name in re.findall(r'const (\w+(?:_KIND|_FORM|_OF)): ', text):
            yield crate, name


def loops():
    """Loops that are no `for`."""
    for crate, path, text in sources():
        for line in code(text).split('\n'):
            if re.search(r'\b(while .*\{|loop \{)$', line):
                yield crate, line.strip()


def by_hand():
    """Functions of one expression that only turn a number into one of another type."""
    for crate, _, text in sources():
        for name, body in re.findall(r'fn (\w+)\(\w+: \w+\) -> \w+\n(?:    (?:ensures|requires)[^\n]*\n)*\{\n    ([^\n]*)\n\}', text):
            if re.fullmatch(r'\w+ as \w+', body.strip()):
                yield crate, name
        for name in re.findall(r'fn (\w+_and_place|\w*bits\d+|signed\d+|\w+_at_le)\(', text):
            yield crate, name


def clauses():
    """Conditions that three functions or more ask of their callers."""
    seen = collections.defaultdict(set)
    for crate, _, text in sources():
        for m in re.finditer(r'fn (\w+)', text):
            rest = text[m.end():text.find('\n{', m.end())]
            for clause in re.findall(r'requires[^{\n]*\{ (.*?) \}\n', rest + '\n', re.S):
                for part in re.split(r' × ', clause):
                    seen[re.sub(r'[()]', '', part).strip()].add((crate, m.group(1)))
    for part, where in sorted(seen.items()):
        if len(where) >= 3:
            for crate, name in sorted(where):
                yield crate, f'{name}: {part}'


def together():
    """Three parameters or more, of the same names and types, that three functions or more take."""
    takes = {}
    for crate, _, text in sources():
        for name, params in FN.findall(text):
            parts = frozenset(re.sub(r'\s+', ' ', p).strip() for p in params.split(',') if ':' in p)
            takes[(crate, name)] = parts
    groups = collections.Counter()
    keys = list(takes)
    for i, a in enumerate(keys):
        for b in keys[:i]:
            common = takes[a] & takes[b]
            if len(common) >= 3:
                groups[common] += 0
    for group in groups:
        users = [k for k in keys if group <= takes[k]]
        groups[group] = len(users)
    chosen = set()
    for group, count in groups.items():
        if count >= 3:
            for key in keys:
                if group <= takes[key]:
                    chosen.add(key)
    for crate, name in sorted(chosen):
        yield crate, name


def twins():
    """Functions whose bodies are the same but for names of types, numbers and constants."""
    seen = collections.defaultdict(list)
    for crate, _, text in sources():
        for m in re.finditer(r'^( *)(?:pub )?fn (\w+)', text, re.M):
            end = text.find('\n' + m.group(1) + '}\n', m.end())
            start = text.find('{\n', m.end())
            body = re.sub(r'\s+', ' ', text[start:end])
            if len(body) < 40:
                continue
            key = re.sub(r'\b(?:[iu](?:8|16|32|64)|usize|[A-Z_0-9]{2,}|\d+)\b', '#', body)
            seen[key].append((crate, m.group(2)))
    for where in seen.values():
        if len(where) > 1:
            yield from where


COUNTS = [
    ('1 enums of the shape of Option or Result, or with a refusal among their cases', enums),
    ('1 answers taken apart only to pass a refusal on', passed_on),
    ('1 numbers for kinds', kinds),
    ('2 functions that are the same but for types and constants', twins),
    ('3 loops that are no for', loops),
    ('4 conversions by hand', by_hand),
    ('5 functions with a condition that three or more ask for', clauses),
    ('5 functions with three parameters or more that three or more take', together),
]

for title, find in COUNTS:
    found = list(find())
    print(f'{len(found):5} {title}')
    if '--list' in sys.argv:
        for crate, what in found:
            print(f'      {crate}: {what}')
