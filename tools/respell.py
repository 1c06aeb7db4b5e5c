#!/usr/bin/env python3
"""Spells the definitions and lemmas of this repository as today's Rattle does: run once, at the top, behind port.py.

  A word is in snake case (`roundsCall` is `rounds_call`). A dash joins two names (`take-add`); a plain word hangs on by `_`
  (`demand2_answered`). A function into `Type` is a type. The proof of a function `f` is `f_spec`. What the toolchain names
  (`Need-..`, `loop-..`) and the functions of src/ keep their names.

Only names that a file of specs/ or proofs/ declares are respelled, everywhere in .antt and .rt, in must-fail edits, and between
backquotes in the pages. It stops where two names would fall together."""
import glob, re, sys

KIT = '/opt/rattle/rattle'
DECLARED = re.compile(r"^(\s*)((?:pattern |unfoldable |abbrev |pub |record |data |axiom )*)([^\s:(){}.,;]+)"
                      r"(?:\s*\{[^}]*\})?(?:\s*\([^:()]*:[^()]*\))*\s*:(?!=)(\s|$)")
WORD = re.compile(r"[^\s(){}\[\].,;:\"`“”]+")
# Names of operators, as lemmas of the library have them.
OPERATORS = set('le lt eq ne add sub mul div mod zero suc nil cons append and or not mem'.split())


def files(*patterns):
    return sorted({f for p in patterns for f in glob.glob(p, recursive=True)})


def declared(paths):
    names = {}
    for f in paths:
        for line in open(f, encoding='utf-8'):
            m = DECLARED.match(line)
            if m:
                names.setdefault(m.group(3), set()).add((f, bool(m.group(1)), line.rstrip('\n')))
    return names


def snake(part):
    part = re.sub(r'([a-z0-9])([A-Z])', r'\1_\2', part)
    return re.sub(r'([A-Z])([A-Z][a-z])', r'\1_\2', part).lower()


def is_type_name(part):
    return bool(re.match(r'[A-Z]', part))


def spelled(name, known):
    parts = name.split('-')
    if any(not p for p in parts):
        return name
    parts = [p if is_type_name(p) else snake(p) for p in parts]
    out = parts[0]
    for left, right in zip(parts, parts[1:]):
        joined = (left in known and right in known) or is_type_name(left) or is_type_name(right)
        out += ('-' if joined else '_') + right
    return out


def main():
    own_files = files('crates/*/specs/**/*.antt', 'crates/*/proofs/**/*.antt')
    kit = declared(files(*(f'{KIT}/{r}/**/*.antt' for r in ('std', 'core', 'logic', 'antt', 'bytes', 'io'))))
    own = declared(own_files)
    plain = {snake(n) if not is_type_name(n) else n for n, at in own.items()
             if '-' not in n and any(not inner or 'data' in line or '→' in line for _, inner, line in at)}
    known = {n for n, at in kit.items() if '-' not in n and any(not inner for _, inner, _ in at)} | plain | OPERATORS
    source = set()
    for f in files('crates/*/src/**/*.rt'):
        source |= set(re.findall(r'\bfn (\w+)', open(f, encoding='utf-8').read()))

    renamed = {}
    for name, at in own.items():
        if name in source or 'Need-' in name or not re.match(r"[^\W\d_]", name):
            continue
        # What stands only in the proof of one function, and has the name of a goal, is named by the toolchain.
        if all(re.search(r': tie\.(Need|Entry|Kept|Loop|After|Else|Then)|-lts\.|-reads?\.', line) or 'Need-' in line for _, _, line in at):
            continue
        new = name[:-5].replace('-', '_') + '_spec' if name.endswith('-spec') else spelled(name, known)
        if any(re.search(r'(→|:) Type \d\s*$', line) for _, _, line in at):
            new = ''.join(w[:1].upper() + w[1:] for w in re.split('[-_]', new)) if name[0].islower() else new
        if new != name:
            renamed[name] = new

    texts = {f: open(f, encoding='utf-8').read() for f in own_files + files('crates/*/src/**/*.rt')}
    words = {f: set(w.strip("'") for w in WORD.findall(t)) for f, t in texts.items()}
    everywhere = set().union(*words.values())
    # A lemma that would have its function's name ends in `_lem`.
    functions = {renamed[n] for n in renamed if re.search('[a-z][A-Z]', n) and '-' not in n}
    for name in [n for n in own if n not in source and renamed.get(n, n) in functions and not re.search('[a-z][A-Z]', n)]:
        renamed[name] = renamed.get(name, name) + '_lem'
    for name in [n for n, new in renamed.items() if new in own and new not in renamed]:
        renamed[name] += '_lem'
    together, back = [], {}
    for name, new in renamed.items():
        if new in back or new in own and new not in renamed:
            together.append((name, new, back.get(new)))
        back[new] = name
    shadowed = [(n, new) for n, new in renamed.items() if new in kit and any(n in ws and new in ws for ws in words.values())]
    locally = [(n, new, f) for n, new in renamed.items() if new not in own and new in everywhere
               for f, ws in words.items() if n in ws and new in ws]
    if '--list' in sys.argv:
        for n in sorted(renamed):
            print(n, renamed[n])
    print(f'{len(renamed)} names; together: {together}; as the kit: {shadowed}; as a word of a file: {locally}', file=sys.stderr)
    if '--write' not in sys.argv:
        return

    def turn(text):
        return WORD.sub(lambda m: renamed.get(m.group(0), m.group(0)), text)

    for f in own_files + files('crates/*/src/**/*.rt', 'crates/*/must-fail/*.edit'):
        text = open(f, encoding='utf-8').read()
        new = turn(text)
        if new != text:
            open(f, 'w', encoding='utf-8').write(new)
    for f in files('README.md', 'docs/**/*.md', 'examples/**/*.md'):
        text = open(f, encoding='utf-8').read()
        new = re.sub(r'`([^`\n]+)`', lambda m: '`' + turn(m.group(1)) + '`', text)
        if new != text:
            open(f, 'w', encoding='utf-8').write(new)


main()
