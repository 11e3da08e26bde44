#!/usr/bin/env python3
"""After names.py: turns names that stand behind a module's alias, as laws.dword-past, which names.py passed by.

usage: aliases.py MAP      MAP is what `names.py --list` printed before names.py ran"""
import glob
import re
import sys

new = dict(line.split() for line in open(sys.argv[1], encoding='utf-8') if len(line.split()) == 2)
for path in sorted(glob.glob('crates/*/specs/**/*.antt', recursive=True) + glob.glob('crates/*/proofs/**/*.antt', recursive=True)):
    text = open(path, encoding='utf-8').read()
    aliases = set(re.findall(r"(?m)^(?:pub )?use \S+ as ([a-z]\S*)$", text)) - {'goal', 'tie'}
    turned = text
    for alias in aliases:
        turned = re.sub(r"(?<![\w.'-])(%s\.)([A-Za-z_][\w'-]*)" % re.escape(alias), lambda m: m.group(1) + new.get(m.group(2), m.group(2)), turned)
    if turned != text:
        open(path, 'w', encoding='utf-8').write(turned)
        print(path)
