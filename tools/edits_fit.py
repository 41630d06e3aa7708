#!/usr/bin/env python3
"""Says of each edit in must-fail/ and planted/ whether its old text stands exactly once.  usage: tools/edits_fit.py [CRATE..]"""
import glob, os, re, sys
want = set(sys.argv[1:])
for p in sorted(glob.glob('crates/*/must-fail/*.edit') + glob.glob('planted/*/*.edit')):
    crate = p.split('/')[1]
    if want and crate not in want: continue
    t = open(p).read().split('\n')
    f, texts = None, {}
    for line in t:
        if line.startswith('file: '): f = line[6:].strip()
        elif line.startswith('old: '):
            q = os.path.join('crates', crate, f)
            if q not in texts: texts[q] = open(q).read() if os.path.exists(q) else ''
            n = texts[q].count(line[5:])
            last = (q, line[5:])
            if n != 1: print(p, n, ':', line[5:])
        elif line.startswith('new: '):
            q, o = last
            texts[q] = texts[q].replace(o, line[5:], 1)
