#!/usr/bin/env python3
"""After names.py: turns fields of the repository's own records behind a dot, as q.in-places, which names.py passed by.

usage: fields.py MAP"""
import glob
import re
import sys

new = dict(line.split() for line in open(sys.argv[1], encoding='utf-8') if len(line.split()) == 2)
paths = sorted(glob.glob('crates/*/specs/**/*.antt', recursive=True) + glob.glob('crates/*/proofs/**/*.antt', recursive=True))
fields = set()
for path in paths:
    inside = False
    for line in open(path, encoding='utf-8'):
        if re.match(r"(pub )?record ", line):
            inside = True
        elif line.strip() and not line.startswith(' '):
            inside = False
        m = inside and re.match(r"\s+(?:pub )?((?:[^\s:(){}]+ )+): ", line)
        if m:
            fields |= set(m.group(1).split())
old = {o: n for o, n in new.items() if n in fields and '-' in o}
for path in paths:
    text = open(path, encoding='utf-8').read()
    turned = re.sub(r"(?<=[\w')])\.([a-z][\w'-]*)(?![\w'-])", lambda m: '.' + old.get(m.group(1), m.group(1)), text)
    if turned != text:
        open(path, 'w', encoding='utf-8').write(turned)
        print(path)
