#!/usr/bin/env python3
"""Counts the places of docs/DESIGN-PASS.md, point by point: tools/design_places.py [ROOT] [-v]; -v lists them.

It reads crates/*/src and crates/*/proofs below ROOT (this repository, if none is given) as text. What it finds is a place
to look at; the page says what became of each.
"""
import collections
import glob
import os
import re
import sys

FUNCTION = re.compile(r'\bfn\s+(\w+)\s*(?:<[^>]*>)?\s*\(([^)]*)\)(.*?)(?=\n\s*\{\n|;\n)', re.S)
CLAUSE = re.compile(r'\b(requires|ensures)\s+\w*\s*\{([^}]*)\}', re.S)


def sources(root):
    for path in sorted(glob.glob(os.path.join(root, 'crates/*/src/**/*.rt'), recursive=True)):
        yield os.path.relpath(path, os.path.join(root, 'crates')), open(path).read()


def lines_with(root, pattern):
    found = []
    for path, text in sources(root):
        for number, line in enumerate(text.split('\n'), 1):
            if re.search(pattern, line) and not line.lstrip().startswith('//'):
                found.append(f'{path}:{number}: {line.strip()}')
    return found


def functions(root):
    for path, text in sources(root):
        for match in FUNCTION.finditer(text):
            yield path, match.group(1), match.group(2), match.group(3)


def with_many_parameters(root):
    found = []
    for path, name, parameters, _ in functions(root):
        count = len([p for p in re.sub(r'<[^<>]*>', '', parameters).split(',') if p.strip()])
        if count >= 6:
            found.append(f'{path}: {name} ({count})')
    return found


def shared_clauses(root):
    users = collections.defaultdict(list)
    for path, name, _, contract in functions(root):
        for kind, clause in CLAUSE.findall(contract):
            if kind == 'requires':
                for part in clause.split('×'):
                    users[' '.join(part.split()).strip('() ')].append(f'{path}: {name}')
    return [f'{clause}: {len(names)}' for clause, names in sorted(users.items(), key=lambda x: -len(x[1])) if len(names) >= 3]


def proof_files(root, below):
    pattern = 'crates/*/proofs/**/*.antt'
    paths = glob.glob(os.path.join(root, pattern), recursive=True)
    return [p for p in paths if ('/proofs/' in p and (os.path.dirname(p).split('/')[-1] != 'proofs') == below)]


def proof_lines(paths):
    return sum(len(open(p).read().split('\n')) - 1 for p in paths)


POINTS = [
    ('1 enums of our own', lambda r: lines_with(r, r'^(pub(\(crate\))? )?enum ')),
    ('1 a number in place of a refusal', lambda r: lines_with(r, r'Refused\([0-9]+\)|Refused\(u32\)|refusal: u32')),
    ('1 a flag, or 0 as one, beside a value', lambda r: lines_with(r, r'\bcrossed: bool|\bended: bool,|\b(size|bytes|after|number) == 0\b|return 0;')),
    ('3 loops by while', lambda r: lines_with(r, r'^\s*while ')),
    ('3 counters stepped by hand', lambda r: lines_with(r, r'[+-]= (1|12|2);')),
    ('4 conversions and words by hand', lambda r: lines_with(r, r'fn (wide|yes|yes_or_no|word|put_word|verdict_number|book_number|mask_number|pair_number|(narrow|place|tidy|try)_refusal)\(')),
    ('5 functions of six parameters or more', with_many_parameters),
    ('5 facts asked by three functions or more', shared_clauses),
    ('6 parallel arrays in a signature or a body', lambda r: lines_with(r, r'\bbases: &|let mut bases = ')),
    ('6 a length beside a buffer', lambda r: lines_with(r, r'^\s*(pub )?(count|blocks|end|held|at): usize,|, (count|blocks|end|held|at): usize')),
    ('7 a switch on which step to run', lambda r: lines_with(r, r'\bstep: u|\bmode: u|fn\([^)]*\) ->')),
    ('8 answer files', lambda r: proof_files(r, True)),
]


def main():
    arguments = [a for a in sys.argv[1:] if a != '-v']
    root = arguments[0] if arguments else os.path.join(os.path.dirname(os.path.abspath(__file__)), '..')
    for name, find in POINTS:
        found = find(root)
        print(f'{name}: {len(found)}')
        if '-v' in sys.argv and not name.startswith('8'):
            for place in found:
                print(f'    {place}')
    print(f'8 lines of answers: {proof_lines(proof_files(root, True))}')
    print(f'8 lines of lemma files: {proof_lines(proof_files(root, False))}')


main()
