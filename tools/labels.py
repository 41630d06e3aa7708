#!/usr/bin/env python3
"""Brings the labels that proofs cite (goals, places, calls, loops) to the spelling that today's check gives them, where they differ
in hyphens and underscores alone.

usage: python3 tools/labels.py CRATE..    at the top of the repository; runs rt check in each crate
"""
import json, os, re, subprocess, sys, tempfile

TOKEN = re.compile(r'[^\s(){}.;,@"«»:←]+')

def strings(x):
    if isinstance(x, str):
        yield x
    elif isinstance(x, list):
        for y in x:
            yield from strings(y)
    elif isinstance(x, dict):
        for k, y in x.items():
            yield from strings(k)
            yield from strings(y)

def canon(n):
    return n.replace('_', '-')

def turn(crate):
    where = os.path.join('crates', crate)
    out = tempfile.mkdtemp()
    subprocess.run(['rt', 'check', '--generated', out, '--old-names'], cwd=where, stdout=subprocess.DEVNULL, stderr=subprocess.DEVNULL)
    p = os.path.join(out, 'names.json')
    if not os.path.exists(p):
        print(crate, ': the check names no goals: mend the sources first')
        return
    with open(p) as f:
        made = json.load(f)
    for key, entry in made.items():
        m = re.match(r'Rattle-%s-proofs\.(.*)\.Lts$' % re.escape(crate), key)
        if not m:
            continue
        folder = os.path.join(where, 'proofs', *m[1].split('.'))
        names = set()
        for s in strings(entry):
            for w in re.split(r'[\s.]+', s):
                if w:
                    names.add(w)
        new_names = {n[1] for n in entry.get('needs', [])} | set(entry.get('places_by_name', []))
        by = {}
        for n in names:
            by.setdefault(canon(n), set()).add(n)
        for f in ('Answers.antt', 'Invariants.antt'):
            q = os.path.join(folder, f)
            if not os.path.exists(q):
                continue
            with open(q) as h:
                t = h.read()

            def put(m):
                w = m[0]
                if w in names or ('-' not in w and '_' not in w):
                    return w
                behind = m.start() > 0 and t[m.start() - 1] == '.'
                if not behind and '-' not in w:
                    return w
                c = by.get(canon(w), set())
                return next(iter(c)) if len(c) == 1 else w

            lines = []
            new = []
            for line in t.split('\n'):
                new.append(line)
            t2 = TOKEN.sub(put, t)
            # imports of other modules stay as they were
            a, b = t.split('\n'), t2.split('\n')
            t2 = '\n'.join(x if x.startswith('use ') and '.Goals' not in x and '.Given' not in x else y for x, y in zip(a, b))
            if t2 != t:
                with open(q, 'w') as h:
                    h.write(t2)
                print('turned', q)

for c in sys.argv[1:]:
    turn(c)
