#!/usr/bin/env python3
"""Respells the repository's own definitions and lemmas as today's Rattle spells its words: values and lemmas in snake case, what
is a type in camel case. Run once at the top of the repository, after the kit's port.py. Names of Rust, names that the check makes
(goals, measures, invariants), strings and comments keep their spelling.

usage: python3 tools/respell.py [--dry]
"""
import os, re, sys, collections

DRY = '--dry' in sys.argv
ROOT = 'crates'
MADE = re.compile(r'/proofs/(.*/)?(Answers|Invariants|Proof)\.antt$')
DECL = re.compile(r"^(\s*)((?:(?:abbrev|opaque|pub|unfoldable|record|data|field)\s+)*)([^\s(){}.;,@\"«»:λ◌]+(?:\s+[a-z][^\s(){}.;,@\"«»:λ◌=]*)*)((?:\s*\{[^{}\n]*\}|\s*\([^()\n]*\))*)\s*:\s(.*)$")
TOKEN = re.compile(r'[^\s(){}.;,@"«»:←]+')
PARTS = re.compile(r'(//[^\n]*|--[^\n]*|b?"(?:[^"\\]|\\.)*"|b\'(?:[^\'\\]|\\.)\')')

# Names that would fall together with a definition's new name.
BY_HAND = {
    'up-to': 'offered_up_to',
    'fit-grants': 'grants_fit',
    'head-length': 'length_of_head',
    'sold-of': 'sold_fits',
    'volume-at': 'volume_found',
    'founded-digest': 'digest_founded',
    'committed-digest': 'digest_committed',
    'numbered-digest': 'digest_numbered',
    'fit-grant': 'granted_number',
    'book-of': 'book_by_size',
    'amount-at': 'amount_found',
}


def files():
    for folder, dirs, names in os.walk(ROOT):
        dirs[:] = sorted(d for d in dirs if d not in ('out', 'must-fail', 'data'))
        for n in sorted(names):
            if n.endswith(('.antt', '.rt')):
                yield os.path.join(folder, n)

def snake(n):
    return re.sub(r'(?<=[a-z0-9])[A-Z]', lambda m: '_' + m[0].lower(), n).replace('-', '_')

def camel(n):
    return ''.join(w[:1].upper() + w[1:] for w in re.split(r'[-_]', n))

def main():
    texts = {p: open(p, encoding='utf-8').read() for p in files()}
    made, kinds = set(), collections.defaultdict(set)
    where = collections.defaultdict(set)
    for p, t in texts.items():
        if not p.endswith('.antt'):
            continue
        for line in t.split('\n'):
            if line.lstrip().startswith('--') or line.startswith('use '):
                continue
            m = DECL.match(line)
            if m:
                for name in m[3].split():
                    if re.search(r'\b(goal|given|Goals|Given|need)\.', m[5]) and MADE.search(p):
                        made.add(name)
                        continue
                    if MADE.search(p) and not (m[2] or m[1]):
                        pass
                    kind = 'type' if re.search(r'(^|→ )Type 0$', m[5].strip()) or re.search(r'\b(record|data)\b', m[2]) else 'value'
                    kinds[name].add(kind)
                    where[name].add(p)
    turn = {}
    for n, ks in kinds.items():
        if n in made or n in ('in', 'let', 'where', 'use') or not re.match(r"^[A-Za-z][\w'-]*$", n):
            continue
        new = camel(n) if n[0].isupper() and '-' in n else (camel(n) if ks == {'type'} and n[0].islower() and len(n) > 1 and ('-' in n or re.search('[a-z][A-Z]', n)) else (snake(n) if n[0].islower() else n))
        if new != n:
            turn[n] = new
    turn.update(BY_HAND)
    back = collections.defaultdict(set)
    for n, new in turn.items():
        back[new].add(n)
    for new, ns in back.items():
        if len(ns) > 1 or new in kinds:
            print('fall together:', new, sorted(ns), sorted(where.get(new, set()))[:2])
    both = sorted(set(turn) & made)
    if both:
        print('made and own:', both)
    used = 0
    for p, t in texts.items():
        theirs = set()
        for m in re.finditer(r'use (Rattle\.(?:std|core)[^\s{;]*)(?:\.\{([^}]*)\})?', t):
            if m[2]:
                theirs |= {w.split(' as ')[-1].strip() for w in m[2].split(',')} | {w.split(' as ')[0].strip() for w in m[2].split(',')}
        out = []
        tokens = set()
        pieces = PARTS.split(t)
        for k, piece in enumerate(pieces):
            if k % 2:
                out.append(piece)
                continue
            def put(m):
                w = m[0]
                tokens.add(w)
                if w in turn and w not in theirs:
                    return turn[w]
                return w
            out.append(TOKEN.sub(put, piece))
        new = ''.join(out)
        for w in tokens:
            if w in turn and w not in theirs and turn[w] in tokens:
                print('meets in', p, ':', w, turn[w])
        if new != t:
            used += 1
            if not DRY:
                open(p, 'w', encoding='utf-8').write(new)
    for p in ['README.md'] + sorted('docs/' + f for f in os.listdir('docs') if f.endswith('.md')):
        t = open(p, encoding='utf-8').read()
        told = lambda m: TOKEN.sub(lambda w: turn[w[0]] if w[0] in turn and re.search('[A-Z]', w[0]) else w[0], m[0])
        new = re.sub(r'`[^`\n]*`', told, t)
        if new != t and not DRY:
            open(p, 'w', encoding='utf-8').write(new)
    with open('/tmp/respelled.tsv', 'w') as f:
        for n in sorted(turn):
            f.write(f'{n}\t{turn[n]}\n')
    print(len(turn), 'names,', used, 'files')

main()
