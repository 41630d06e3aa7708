#!/usr/bin/env python3
"""In the proofs of all crates: labels keep the underscores of the Rust names that they are made of, and clauses' labels have no hyphen.
Run once at the top of the repository, after tools/respell.py.
"""
import os, re, glob

TOKEN = re.compile(r'[^\s(){}.;,@"«»:←]+')
WORDS = ['overflow_add', 'overflow_sub', 'overflow_mul', 'overflow_cast', 'overflow_shl', 'overflow_shr', 'overflow_neg', 'overflow_step', 'row_known', 'deref_mut', 'index_mut', 'into_iter', 'slice_bounds', 'invariant_of']
for crate in sorted(os.listdir('crates')):
    idents = set(WORDS)
    for p in glob.glob(f'crates/{crate}/src/**/*.rt', recursive=True):
        for line in open(p):
            if line.lstrip().startswith('//'):
                continue
            idents |= set(re.findall(r'\b[A-Za-z][A-Za-z0-9]*(?:_[A-Za-z0-9]+)+\b', line))
    forms = sorted({i.replace('_', '-'): i for i in idents}.items(), key=lambda x: -len(x[0]))
    forms = [(re.compile(r'(?<![^-·])' + re.escape(a) + r'(?=$|-|\d*$|\d*-)'), b) for a, b in forms]
    for p in glob.glob(f'crates/{crate}/proofs/**/*.antt', recursive=True):
        if os.path.basename(p) not in ('Answers.antt', 'Invariants.antt', 'Proof.antt'):
            continue
        t = open(p).read()

        def put(m):
            w = m[0]
            if '-' not in w or w == '-':
                return w
            before = t[:m.start()]
            if before.endswith('.ensures.') or re.search(r'\.ensures(\.\w+)*\.$', before[-80:]):
                return w.replace('-', '_')
            for a, b in forms:
                w = a.sub(b, w)
            return w

        lines = t.split('\n')
        at, out = 0, []
        new = TOKEN.sub(put, t)
        new = '\n'.join(x if x.startswith('use ') and '.Goals' not in x and '.Given' not in x else y for x, y in zip(lines, new.split('\n')))
        if new != t:
            open(p, 'w').write(new)
