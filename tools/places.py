#!/usr/bin/env python3
"""Counts, in the sources of a commit, the places that docs/DESIGN-PASS.md speaks of, point by point:

    tools/places.py COMMIT        the counts
    tools/places.py COMMIT -v     each place too

It goes by text, and so names candidates: the page says of each what became of it."""
import collections
import re
import subprocess
import sys

commit, verbose = sys.argv[1], '-v' in sys.argv[2:]


def git(*words):
    return subprocess.run(['git', *words], check=True, capture_output=True, text=True).stdout


def files(pattern):
    names = git('ls-tree', '-r', '--name-only', commit, '--', 'crates').split('\n')
    return {n: git('show', f'{commit}:{n}') for n in names if re.fullmatch(pattern, n)}


sources = files(r'crates/\w+/src/.*\.rt')
answers = files(r'crates/\w+/proofs/.*/Answers\.antt')


def lines(pattern, but='/none/'):
    return [f'{name}:{k}: {line.strip()}' for name, text in sources.items() if but not in name
            for k, line in enumerate(text.split('\n'), 1)
            if re.search(pattern, line) or re.search(pattern, line.strip()) if not re.match(r'\s*(//|ghost use)', line)]


class Function:
    def __init__(self, file, line, name, head, body):
        self.file, self.line, self.name, self.head, self.body = file, line, name, head, body
        inner = re.search(r'\((.*?)\)(?: -> [^{]*)?(?:\n\s+(?:requires|ensures)|\s*$|\s*\{)', head, re.S)
        self.parameters = [p.strip() for p in (inner.group(1) if inner else '').split(',') if p.strip()]
        self.requires = re.findall(r'requires(?: \w+)? \{ (.*?) \}\n', head + '\n', re.S)

    def __str__(self):
        return f'{self.file}:{self.line}: {self.name}'


def functions():
    for name, text in sources.items():
        for m in re.finditer(r'^( *)(?:pub )?(?:extern "C" )?fn (\w+)', text, re.M):
            indent = m.group(1)
            start = re.search(rf'^{indent}\{{$|\{{$', text[m.start():], re.M)
            begin = m.start() + start.start()
            end = text.find(f'\n{indent}}}\n', begin)
            yield Function(name, text.count('\n', 0, m.start()) + 1, m.group(2), text[m.start():begin], text[begin:end])


def skeleton(code):
    code = re.sub(r'//.*', '', code)
    tokens = re.findall(r'\w+|[^\w\s]', code)
    kept = {'if', 'else', 'while', 'for', 'in', 'loop', 'match', 'let', 'mut', 'return', 'fn', 'as'}
    return ' '.join(t if t in kept or not re.match(r'\w', t) else '0' if t[0].isdigit() else 'x' for t in tokens)


def enums():
    for name, text in sources.items():
        for m in re.finditer(r'^(?:pub )?enum (\w+) \{\n(.*?)^\}', text, re.M | re.S):
            variants = re.findall(r'^    (\w+)( \{|\(|,| =)', m.group(2), re.M)
            refuses = any('Refused' in v for v, _ in variants)
            optional = len(variants) == 2 and sum(rest in (',', ' =') for _, rest in variants) == 1
            if refuses or optional:
                yield f'{name}: {m.group(1)}'


everything = list(functions())
shapes = collections.defaultdict(list)
for f in everything:
    if f.body.count('\n') >= 3:
        shapes[skeleton(f.body)].append(f)
twins = [g for g in shapes.values() if len(g) > 1]
facts = collections.defaultdict(set)
for f in everything:
    for clause in f.requires:
        for part in re.split(r' × ', ' '.join(clause.split()).strip('()')):
            facts[part.strip('()')].add(str(f))
repeated = {fact: places for fact, places in facts.items() if len(places) >= 3}
again = collections.Counter()
for name, text in answers.items():
    lets = collections.Counter(line.strip() for line in text.split('\n') if line.strip().startswith('let '))
    again[name] = sum(n for n in lets.values() if n >= 3)

points = [
    ('1 own enums of the shape of Option or Result', list(enums())),
    ('1 flags with a value beside them', lines(r'\b(known|filled|whole|complete): bool')),
    ('1 numbers for none', lines(r'\.(lowest|end)\(\) as usize|^\s+(let \w+ = )?(first_\w+|closure::lowest_loop|board_marks::first_due)\(')),
    ('1 literal numbers for kinds', lines(r'\b(kind|sheet\[[\w.]+\]) (==|<|<=|>=) \d+|\b\d+ <= (kind\b|sheet\[)|^\d+(\.\.=\d+| \| [\w:]+)* => ', 'main_loop')),
    ('2 functions with a twin of the same shape', [str(f) for g in twins for f in g]),
    ('3 loops by hand: while or loop', lines(r'^\s+(while|loop)\b')),
    ('4 casts', lines(r'\bas (u8|u16|u32|u64|usize|i32|i64)\b')),
    ('4 bytes copied one by one', lines(r'^\s+\w+\[[^\]]*\b[ikpw]\b[^\]]*\] = (raise \+ )?\w+\[')),
    ('5 functions with six or more parameters', [str(f) for f in everything if len(f.parameters) >= 6]),
    ('5 facts in the requires of three or more functions', [f'{len(p)} times: {fact}' for fact, p in sorted(repeated.items())]),
    ('6 a place in a buffer handed on beside it', [str(f) for f in everything if re.search(r'(buffer|joined): &mut \[u8\],\s+at: usize', f.head)]),
    ('6 tables of bare numbers in signatures', lines(r'\[(u64; 64|u64; 10|u16; 64|u16; 512|u8; 64|u8; 128|u32; 144)\](,|\)| ->|$)')),
    ('7 a match that picks a step', lines(r'^\s+match (\w+\.)?(sheet\[|stage\b|kind\b)|^\s+match Kind::of')),
    ('8 files of answers', list(answers)),
    ('8 lines of lets that a file of answers has three times or more', [f'{name}: {n}' for name, n in again.items() if n]),
]
for title, places in points:
    count = sum(again.values()) if title.startswith('8 lines') else len(places)
    print(f'{count:5} {title}')
    if verbose:
        for place in places:
            print(f'          {place}')
