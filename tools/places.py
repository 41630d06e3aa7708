#!/usr/bin/env python3
"""Counts the places in crates/*/src that docs/DESIGN-PASS.md speaks of, by point, and lists them with --list.

usage: tools/places.py [--list] [POINT]    (run at the top of the repository)"""
import difflib, glob, re, sys

LINES = {
    '1a refusals by number': r'\b(refusal|fault_at)\(\d|^\s+number: [1-9]\d*,|report\([^;]*, \d+, |^ {12}15,$',
    '1b a flag that tells of a refusal': r'-> (\w+::)?Result<bool|fn \w+.*&mut self.*-> bool',
    '1c enums (which have the shape of Option or Result is said by hand)': r'^\s*(pub(\(\w+\))? )?enum ',
    '1d kinds by number or letter': r"^\s+b'[A-Z]' =>|^\s+\d+ => \"",
    '1e a failure without a reason': r'struct Failed|Failed\b.*=>',
    '3a loops over a range of indices': r'\bfor _?\w+ in [^{]*\.\.',
    '3b while loops that move an index or a rest by hand': r'\bwhile [^l]',
    '4a order and equality by hand': r'fn (precedes|same_\w+|compare|equal)\b|impl.* (PartialEq|Eq|PartialOrd|Ord) for',
    '4b printing by hand': r'impl.*Display for|fn write_\w+<W|fn (hex|hex_digit|sentence|word_of)\b|struct Hex|struct Amounts|struct Shown|struct Replied|struct Answered',
    '4c constants of zeros': r'const (BLANK|NO_OFFER|LOWEST|TOO_LONG)|^\s+sequence: 0,$',
    '5a the state of a replica spelt out in a clause': r'state_of \(',
    '5b what a store or a book means through a record with its soundness': r'AccountStore\.ledger|OfferBook\.orders',
    '5c the rank of a record\'s key spelt out': r'R\.Id\.SortKey\.rank \(R\.Keyed\.key',
    '6a arrays of fixed size in structs and parameters (which have a count beside them is said by hand)': r'\[\w+; \d+\],$|let mut (effects|nets|entries) = \[',
    '6b searches by halving': r'let mid = ',
    '7 switches on which step to run, and structs that stand for a step': r'match (by|side) \{|impl.* (Measure|Gather|Rule)<.* for ',
}

def sources():
    return sorted(glob.glob('crates/*/src/**/*.rt', recursive=True))

def functions():
    """Each function with its body, clauses left out."""
    for path in sources():
        lines = open(path).read().split('\n')
        for i, line in enumerate(lines):
            if not re.match(r'\s*(pub(\(\w+\))? )?(extern "C" )?fn \w+', line): continue
            indent = len(line) - len(line.lstrip())
            end = next((j for j in range(i, len(lines)) if lines[j].startswith(' ' * indent + '}')), None)
            if end is None or any(l.endswith(';') and not l.startswith(' ' * (indent + 8)) for l in lines[i:end] if re.match(r'\s*(ensures|requires)', l)): continue
            if line.rstrip().endswith(';') or not any(l.rstrip().endswith('{') for l in lines[i:end]): continue
            text = [l for l in lines[i:end] if not re.match(r'\s*(//|ensures|requires|→)', l)]
            if len(text) < 7: continue
            yield path, re.search(r'fn (\w+)', line).group(1), re.findall(r'\w+|[^\s\w]', '\n'.join(text))

def many_parameters():
    for path in sources():
        for m in re.finditer(r'fn (\w+)(<[^(]*>)?\(([^)]*)\)', open(path).read()):
            if len([p for p in m.group(3).split(',') if ':' in p]) > 5: yield path, m.group(1)

def twins():
    """Pairs of functions whose words are the same but for one in ten."""
    all = list(functions())
    for i, (path, name, words) in enumerate(all):
        for other_path, other, more in all[i + 1:]:
            if abs(len(words) - len(more)) * 5 > len(words): continue
            m = difflib.SequenceMatcher(None, words, more, autojunk=False)
            if m.real_quick_ratio() > 0.8 and m.quick_ratio() > 0.8 and m.ratio() > 0.88:
                yield f'{path}: {name}', f'{other_path}: {other}'

def show(name, found, all):
    print(f'{len(found):4} {name}')
    if all:
        for f in found: print('       ', f)

def main():
    args = [a for a in sys.argv[1:] if a != '--list']
    all = '--list' in sys.argv
    point = args[0] if args else ''
    for name, pattern in LINES.items():
        if not name.startswith(point): continue
        found = [f'{p}:{n}: {l.strip()[:110]}' for p in sources() for n, l in enumerate(open(p).read().split('\n'), 1) if re.search(pattern, l)]
        show(name, found, all)
    if '2'.startswith(point[:1]): show('2 pairs of functions that are nearly the same', [' ~ '.join(t) for t in twins()], all)
    if '5d'.startswith(point): show('5d functions of six parameters or more', [': '.join(f) for f in many_parameters()], all)

main()
