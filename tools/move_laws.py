#!/usr/bin/env python3
"""Moves files of laws of a crate from specs/ to proofs/, so that a must-fail edit of a definition that they rest on is refused by them:

    tools/move_laws.py CRATE MODULE..        as  tools/move_laws.py sheet Laws.Wires Laws.Reads, or for all of them  tools/move_laws.py kernel Laws

The statements stay; paths `Rattle.CRATE.specs.MODULE` become `Rattle.CRATE.proofs.MODULE` everywhere, and CRATE/specs/.. in the pages."""
import glob, os, re, subprocess, sys

crate, modules = sys.argv[1], sys.argv[2:]


def path(side, module):
    return f'crates/{crate}/{side}/{module.replace(".", "/")}.antt'


def add(node, line):
    text = open(node, encoding='utf-8').read() if os.path.exists(node) else ''
    if line not in text.split('\n'):
        open(node, 'w', encoding='utf-8').write(text + ('' if text.endswith('\n') or not text else '\n') + line + '\n')


if modules == ['Laws']:
    modules = sorted('Laws.' + f.split('/Laws/')[1][:-5].replace('/', '.') for f in glob.glob(f'crates/{crate}/specs/Laws/**/*.antt', recursive=True)) + ['Laws']
for m in modules:
    os.makedirs(os.path.dirname(path('proofs', m)), exist_ok=True)
    subprocess.run(['git', 'mv', path('specs', m), path('proofs', m)], check=True)
    parts = m.split('.')
    if 'Laws' in modules and m != 'Laws':
        continue
    node = path('specs', '.'.join(parts[:-1]) if len(parts) > 1 else 'Lib')
    text = open(node, encoding='utf-8').read()
    open(node, 'w', encoding='utf-8').write(re.sub(rf'^pub mod {parts[-1]}\n', '', text, flags=re.M))
    node = path('proofs', '.'.join(parts[:-1])) if len(parts) > 1 else path('proofs', 'Lib')
    if not os.path.exists(path('proofs', 'Lib')):
        open(path('proofs', 'Lib'), 'w', encoding='utf-8').write('-- The laws of the definitions in specs/, on which the crates above go.\n')
    if len(parts) > 1:
        add(path('proofs', 'Lib'), f'pub mod {parts[0]}')
        if not os.path.exists(node):
            open(node, 'w', encoding='utf-8').write(f'-- Laws that stand beside the definitions of specs/ and are proved here.\n')
    add(node, f'pub mod {parts[-1]}')

for f in glob.glob('crates/*/**/*.antt', recursive=True) + glob.glob('crates/*/src/**/*.rt', recursive=True) + glob.glob('crates/*/must-fail/*.edit') \
        + glob.glob('docs/**/*.md', recursive=True) + ['README.md']:
    if '/out/' in f or not os.path.isfile(f) or f.endswith('PORT.md'):
        continue
    text = new = open(f, encoding='utf-8').read()
    for m in modules:
        new = re.sub(rf'Rattle\.{crate}\.specs\.{re.escape(m)}(?![\w])', f'Rattle.{crate}.proofs.{m}', new)
        new = new.replace(f'{crate}/specs/{m.replace(".", "/")}.antt', f'{crate}/proofs/{m.replace(".", "/")}.antt')
    if new != text:
        open(f, 'w', encoding='utf-8').write(new)
