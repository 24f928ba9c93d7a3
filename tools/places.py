#!/usr/bin/env python3
"""Counts the places in src/ that read like the older language, by text; with --list it shows them.

usage: tools/places.py [--list] [FOLDER]      FOLDER: the top of a checkout, this one if left out
"""
import glob
import itertools
import os
import re
import sys
from collections import defaultdict

listing = '--list' in sys.argv
rest = [a for a in sys.argv[1:] if a != '--list']
top = rest[0] if rest else os.path.join(os.path.dirname(__file__), '..')
texts = {}
for path in sorted(glob.glob(os.path.join(top, 'crates/*/src/*.rt'))):
    name = os.path.relpath(path, os.path.join(top, 'crates'))
    texts[name] = open(path, encoding='utf-8').read()


def by_pattern(pattern):
    found = []
    for name, text in texts.items():
        for m in re.finditer(pattern, text, re.M):
            line = text.count('\n', 0, m.start()) + 1
            found.append(f'{name}:{line}: ' + ' '.join(m.group(0).split()))
    return found


# Each function: its file, its name, its parameters and its clauses.
FUNCTION = re.compile(r'^( *)(?:pub(?:\(crate\))? )?fn (\w+)(?:<[^(]*>)?\(', re.M)
functions = []
for name, text in texts.items():
    for m in FUNCTION.finditer(text):
        end = re.compile(r' \{$|^' + m.group(1) + r'\{', re.M).search(text, m.end()).start()
        head = text[m.end():end]
        signature = re.split(r'\n\s*(?:requires|ensures)', head)[0]
        parameters = re.findall(r"(\w+): ((?:&(?:'a )?(?:mut )?)?(?:\[[^\]]*\]|[\w:]+(?:<[^>]*>)?))", signature.split(' -> ')[0])
        clauses = [' '.join(c.split()) for c in re.findall(r'(?:requires|ensures)(?: \w+)? \{ (.*) \}$', head, re.M)]
        functions.append((name, m.group(2), parameters, clauses))


def same_clauses():
    by_clauses = defaultdict(list)
    for name, function, _, clauses in functions:
        if clauses:
            by_clauses[name.split('/')[0], tuple(sorted(clauses))].append(f'{name}: {function}')
    return [' and '.join(v) for v in by_clauses.values() if len(v) > 1]


def repeated_clauses():
    by_clause = defaultdict(list)
    for name, function, _, clauses in functions:
        for clause in set(clauses):
            by_clause[name.split('/')[0], clause].append(function)
    return [f'{c}: {len(v)} functions: {k}' for (c, k), v in by_clause.items() if len(v) >= 3]


def travelling():
    """Sets of parameters of the same names and types that stand together in four or more functions of a crate."""
    by_crate = defaultdict(list)
    for name, function, parameters, _ in functions:
        by_crate[name.split('/')[0]].append((function, frozenset(parameters)))
    found = []
    for crate, members in by_crate.items():
        sets = {a & b for (_, a), (_, b) in itertools.combinations(members, 2)}
        kept = {s: [f for f, p in members if s <= p] for s in sets if len(s) >= 2}
        kept = {s: f for s, f in kept.items() if len(f) >= 4}
        for s, f in sorted(kept.items(), key=lambda x: -len(x[1])):
            if not any(s < other for other in kept):
                found.append(f'{crate}: {len(f)} functions: ' + ', '.join(f'{n}: {t}' for n, t in sorted(s)))
    return found


def constants():
    by_name = defaultdict(list)
    for name, text in texts.items():
        for m in re.finditer(r'const (\w+): \w+ = ([^;]+);', text):
            by_name[m.group(1)].append(name)
    return [f'{k}: ' + ', '.join(v) for k, v in by_name.items() if len(v) > 1]


POINTS = [
    ('1 own enums', by_pattern(r'^(pub |pub\(crate\) )?enum \w+')),
    ('1 flags with a value beside them, or as a result', by_pattern(r'\b\w+: bool\b|Result<bool>')),
    ('1 numbers for kinds or refusals', by_pattern(r'const (REQUEST|DELEGATORS|HOLDERS|MAY_PASS_ON)\b|match (kind|tag) \{|kind [!=]= |Result<[^<>]*, u\d+>')),
    ('1 answers handed on by hand, let .. else', by_pattern(r'else \{\s*return (None|Err\([^;]*\));\s*\}')),
    ('1 answers handed on by hand, others', by_pattern(r'Ok\((\w+)\) => (Ok\(\1\)|\1)(?=[,\n])|Ok\(_\) => Ok\(\(\)\)|Err\(\w+\) => (return )?Err\(.*|\.is_err\(\)')),
    ('2 names with a width in them', by_pattern(r'fn \w*u(8|16|32|64)\w*')),
    ('2 the same clauses twice in a crate', same_clauses()),
    ('2 constants declared twice', constants()),
    ('3 loops over a range of places', by_pattern(r'for \w+ in \(?0\.\..*\{$')),
    ('3 loops that end by their own test', by_pattern(r'\bwhile .*\{$|\bloop \{$')),
    ('4 equality, order and conversion by hand', by_pattern(r'fn (told|unsearched|before|is_of|is_house|count_of|right_row|wrote_nothing|parse_house)\b')),
    ('4 a question built by hand', by_pattern(r'= Question \{\s*day.*')),
    ('4 printing by hand', by_pattern(r'impl fmt::Display for \w+')),
    ('5 clauses that stand three times or more in a crate', repeated_clauses()),
    ('5 parameters that travel together', travelling()),
    ('6 arrays of a fixed length', by_pattern(r'^\s*(pub |pub\(crate\) )?\w+: \[\w+; \w+\],')),
    ('6 lists side by side, and lists searched by hand', by_pattern(r'^\s*(pub |pub\(crate\) )?\w+: Vec<.*>,|let middle .*')),
    ('6 a place that is tested before it is read or written', by_pattern(r'if \w+ < \w+(\.\w+)?\.len\(\).*\{|if place < 6 \{')),
    ('7 switches on a step, functions as values', by_pattern(r'enum Telling|match telling|\bdyn\b|impl Fn|: Fn(Mut|Once)?\(')),
]
answers = glob.glob(os.path.join(top, 'crates/*/proofs/**/*.antt'), recursive=True)
hand = [a for a in answers if os.path.basename(a) in ('Answers.antt', 'Invariants.antt', 'Proof.antt')]
POINTS += [
    ('8 proof files of functions', [os.path.relpath(a, top) for a in sorted(hand)]),
    ('8 files of lemmas', [os.path.relpath(a, top) for a in sorted(answers) if a not in hand and not a.endswith('Lib.antt')]),
]
for title, found in POINTS:
    print(f'{len(found):4} {title}')
    if listing:
        for line in found:
            print('       ' + line)
