#!/usr/bin/env python3
"""Gives the library's AllByRecursion its own name where it was imported as All, which is the name of another word. Run once."""
import os, re
TOKEN = re.compile(r'[^\s(){}.;,@"«»:←]+')
for folder, dirs, names in os.walk('crates'):
    dirs[:] = [d for d in dirs if d not in ('out', 'must-fail')]
    for n in names:
        p = os.path.join(folder, n)
        if not n.endswith(('.rt', '.antt')):
            continue
        t = open(p, encoding='utf-8').read()
        if 'AllByRecursion as All' not in t:
            continue
        t = t.replace('AllByRecursion as All', 'AllByRecursion')
        lines = []
        for line in t.split('\n'):
            body, sep, rest = line.partition('--') if n.endswith('.antt') else line.partition('//')
            lines.append(TOKEN.sub(lambda m: 'AllByRecursion' if m[0] == 'All' else m[0], body) + sep + rest)
        open(p, 'w', encoding='utf-8').write('\n'.join(lines))
        print(p)
