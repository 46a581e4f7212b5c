#!/usr/bin/env python3
"""Respells the repository's own definitions and lemmas in snake case (run once, after port.py, at the top of the repository).

A name that specs/ or a lemma file of proofs/ declares, and that has a capital inside or a dash, gets underscores; where
another name of ours has that spelling already, a lemma gets `_lem` after it. Names of the library, of src/, types, modules and
the goals that a Proof.antt answers stay. With --list it prints the names, old and new, and changes nothing.
"""
import glob
import re
import sys

DECLARED = re.compile(
    r'^(\s*)(?:(?:abbrev|unfoldable|pub|record|data)\s+)*'
    r'([^\s(){}:.,;=]+)\s*(?:[({][^:()]*:[^()]*[)}]\s*)*:\s')
TOKEN = re.compile(r'[^\s(){}\[\].,;:"`|@]+')


def sources():
    antt = glob.glob('crates/*/specs/**/*.antt', recursive=True) + glob.glob('crates/*/proofs/**/*.antt', recursive=True)
    return sorted(antt)


def by_hand(path):
    return path.endswith('/Proof.antt')


def snake(name):
    name = re.sub(r'(?<=[a-z])(?=[A-Z0-9])', '_', name) if re.match(r'^[a-z]', name) and '-' not in name and re.search('[A-Z]', name) else name
    parts = [re.sub(r'(?<=[a-z])(?=[A-Z])', '_', p) for p in name.split('-')]
    parts = [p.lower() if re.match(r'^[a-z]', p) else p for p in parts]
    return '_'.join(parts)


def imported(paths):
    """Names that a use line takes from outside this repository's own crates."""
    names = set()
    own = {p.split('/')[1] for p in glob.glob('crates/*/')}
    for path in paths:
        for line in open(path):
            m = re.match(r'^\s*(?:ghost )?use ([^{};]*?)\.\{([^}]*)\}', line)
            if m and not (m.group(1).startswith('Rattle.') and m.group(1).split('.')[1] in own):
                for item in m.group(2).split(','):
                    names.add(item.split(' as ')[0].strip())
                    names.add(item.split(' as ')[-1].strip())
    return names


def spelling():
    """The new name of each old one, and what is to be said of it."""
    paths = sources()
    defined, proved = {}, {}
    for path in paths:
        if by_hand(path):
            continue
        for line in open(path):
            m = DECLARED.match(line)
            if m and re.match(r'^[a-z]|^T-', m.group(2)):
                (defined if '/specs/' in path else proved).setdefault(m.group(2), path)
    functions = set()
    for path in glob.glob('crates/*/src/**/*.rt', recursive=True):
        functions.update(re.findall(r'\bfn ([a-z_0-9]+)', open(path).read()))
    foreign = imported(paths + glob.glob('crates/*/src/**/*.rt', recursive=True))
    rename, said = {}, []
    for name in sorted(defined):
        if name != snake(name):
            rename[name] = snake(name)
    names = {rename.get(n, n) for n in defined}
    for name in sorted(proved):
        new = snake(name)
        if name in defined:
            continue
        if name in foreign and name != new:
            said.append(f'left, also a name of the library: {name} ({proved[name]})')
            continue
        if new in names or '-' in name and new in functions or name != new and (new in proved or new in foreign):
            said.append(f'falls together: {name} ({proved[name]}), so {new}_lem')
            new += '_lem'
        if new != name:
            rename[name] = new
    if len(set(rename.values())) != len(rename):
        raise SystemExit('two names fall together')
    return rename, said


def respell(text, rename):
    out, at = [], 0
    aliases = set(re.findall(r'\bas ([a-z][A-Za-z0-9_\-]*)', text))
    for m in TOKEN.finditer(text):
        name = m.group(0)
        new = rename.get(name)
        if new is None:
            continue
        before = text[:m.start()]
        if before.endswith('.') and not before.endswith('..'):
            owner = re.search(r"([A-Za-z_][A-Za-z0-9_'\-]*)\.$", before[-80:])
            head = owner.group(1) if owner else ''
            if not (re.match(r'[A-Z]', head) or head in aliases) and name not in FIELDS:
                continue
        if text[m.end():m.end() + 5] == '.antt' or text[m.end():m.end() + 5] == '.edit':
            continue
        out.append(text[at:m.start()])
        out.append(new)
        at = m.end()
    out.append(text[at:])
    return ''.join(out)


FIELDS = set()


def main():
    rename, said = spelling()
    for path in sources():
        if by_hand(path):
            continue
        inside = False
        for line in open(path):
            if re.match(r'^\s*(abbrev )?(pub )?(record|data) ', line):
                inside = True
            elif line.strip() and not line.startswith(' '):
                inside = False
            m = DECLARED.match(line)
            if inside and m and m.group(1) and m.group(2) in rename:
                FIELDS.add(m.group(2))
    if '--list' in sys.argv:
        for name in sorted(rename):
            print(name, rename[name], '(field)' if name in FIELDS else '')
        for line in said:
            print(line)
        return
    texts = sources() + glob.glob('crates/*/src/**/*.rt', recursive=True) + glob.glob('crates/*/must-fail/*.edit') \
        + ['README.md', 'docs/CLAIMS.md', 'docs/DECISIONS.md']
    for path in texts:
        text = open(path).read()
        if path.endswith('.md'):
            new = re.sub(r'`[^`]*`', lambda m: respell(m.group(0), rename), text)
        else:
            new = respell(text, rename)
        if new != text:
            open(path, 'w').write(new)
    for line in said:
        print(line)
    print(f'{len(rename)} names respelled')


if __name__ == '__main__':
    main()
