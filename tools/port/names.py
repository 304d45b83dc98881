#!/usr/bin/env python3
"""names.py [--list] FOLDER: brings the definitions and lemmas of the crates below FOLDER to the spelling that their kit has.

Definitions, fields and constructors in camel case go to snake case; a dash in the name of a lemma of ours stays where it joins the names of
two definitions, and is an underscore elsewhere. Functions of src/, types, modules and the kit's own names keep theirs. A new name that is taken
in a file where it would stand is refused: EXCEPT says another.
"""
import re
import sys
from pathlib import Path

# Names that would fall together with one that stands beside them, or that are better said otherwise.
EXCEPT = {'new-unmarked': 'new_unmarked_lem'}

# Names of one proof alone that a definition's new name would meet.
HERE = {
    'crates/pairs_merge/proofs/merge/merge/Proof.antt': {'end_low': 'end_low_lem'},
    'crates/pairs_merge/proofs/tree/win/Proof.antt': {'not_after': 'not_after_lem'},
    'crates/refinement_signing/proofs/comparing/same_pairs/Proof.antt': {'pair_same': 'pair_same_lem'},
}

# Names of the kit's definitions that a lemma's name may be made of.
KIT = set('''length take drop map set get_or sum append replicate reverse cond lt le ltb leb eqb zero suc add sub mul div mod min max and or not
    all some concat filter zip bit pos'''.split())

DEFINED = re.compile(r'^(\s*)(?:pub |abbrev |unfoldable |package )*(?:pub |abbrev |unfoldable )*([^\s(){}\[\],;.:«»]+)\s*:(?:\s|$)')
TOKEN = re.compile(r'[^\s(){}\[\],;.«»"]+')
NOT_NAMES = {'λ', 'in', 'let', 'elim', 'as'}


def table():
    """The names that were turned when the repository was, one a line with its new name."""
    path = Path(__file__).with_name('names.tsv')
    return dict(line.split() for line in path.read_text().splitlines()) if path.exists() else {}


def snake(name):
    return re.sub(r'(?<=[a-z0-9])([A-Z])', lambda m: '_' + m.group(1).lower(), name)


def lemma_files(root):
    yield from sorted(root.glob('crates/*/specs/**/*.antt'))
    for path in sorted(root.glob('crates/*/proofs/*.antt')):
        yield path


def all_files(root):
    yield from sorted(p for p in root.glob('crates/**/*.antt') if '/out/' not in str(p))
    yield from sorted(p for p in root.glob('crates/**/*.rt') if '/out/' not in str(p))


def code(line, rt):
    """The part of a line before its comment."""
    mark = '//' if rt else '--'
    if rt:
        k = line.find(mark)
    else:
        m = re.search(r'(?:^|\s)--(?:\s|-|$)', line)
        k = m.start() if m else -1
    return (line, '') if k < 0 else (line[:k], line[k:])


def defined(root, definitions):
    names = {}
    for path in lemma_files(root):
        if path.name == 'Lib.antt':
            continue
        for line in path.read_text().splitlines():
            text = code(line, False)[0]
            m = DEFINED.match(text)
            if m and '/specs/' in str(path) and text[:1] != ' ':
                definitions.add(m.group(2))
            if m and not text.lstrip().startswith(('let ', 'use ', 'pub use ', 'module ', '(', 'in ')):
                names.setdefault(m.group(2), set()).add(str(path.relative_to(root)))
    return names


def plan(root):
    definitions = set()
    names = defined(root, definitions)
    functions = {snake(n) for n in definitions if '-' not in n} | KIT
    kept = table()
    turned = {old: new for old, new in kept.items() if old in names}
    for name in names:
        if name in kept:
            continue
        if name[0].isupper() and '-' not in name:
            continue
        if '◌' in name or name in NOT_NAMES:
            continue
        new = EXCEPT.get(name)
        if new is None:
            parts = [p if p[:1].isupper() else snake(p) for p in name.split('-')]
            new = parts[0]
            for a, b in zip(parts, parts[1:]):
                keep = (a in functions or a[:1].isupper()) and (b in functions or b[:1].isupper())
                new += ('-' if keep else '_') + b
        if new != name:
            turned[name] = new
    # a lemma that would have the name of a definition gets another ending
    for name in sorted(turned):
        new = turned[name]
        if name in kept:
            continue
        if '-' in name:
            if new in names or any(turned.get(other) == new for other in turned if other != name):
                turned[name] = new + '_lem'
        elif new in names:
            turned[new] = new + '_lem'
    return names, turned


def tokens(path):
    """The names that stand in a file, but for those of modules on the way of a path; in a source those of clauses, parameters and fields."""
    rt = path.suffix == '.rt'
    found = set()
    text = '\n'.join(code(line, rt)[0] for line in path.read_text().splitlines())
    text = re.sub(r'(?:[^\s(){}\[\],;.]+\.)+\{', '{', text)
    text = re.sub(r'\bRattle(?:\.[^\s(){}\[\],;.]+)+', '', text)
    if rt:
        text = re.sub(r'\bfn\s+\w+', 'fn', text)
        text = re.sub(r'(?m)^(?:pub )?(?:use|mod)\s[^;]*;', '', text)
        text = re.sub(r'\b\w+\(', '(', text)
        text = re.sub(r'(?m)^\s*let (?:mut )?\w+', '', text)
    for line in text.splitlines():
        found |= set(TOKEN.findall(line))
    return found


def clashes(root, names, turned):
    """Names that would fall together, but for those of the table, which were looked at when it was made."""
    bad = []
    kept = table()
    turned = {old: new for old, new in turned.items() if old not in kept}
    back = {}
    for old, new in turned.items():
        back.setdefault(new, []).append(old)
    for new, olds in back.items():
        if len(olds) > 1:
            bad.append(f'two names become {new}: {" ".join(olds)}')
        if new in names and new not in turned:
            bad.append(f'{new} is defined: {" ".join(sorted(names[new]))} and {olds[0]} in {" ".join(sorted(names[olds[0]]))}')
    for path in all_files(root):
        here = tokens(path)
        apart = HERE.get(str(path.relative_to(root)), {})
        for old in here & turned.keys():
            if turned[old] in here and turned[old] not in apart and turned[old] not in turned:
                bad.append(f'{path.relative_to(root)}: {old} would be {turned[old]}, which stands there')
    return sorted(set(bad))


def turn_line(line, turned, rt):
    text, comment = code(line, rt)
    text = TOKEN.sub(lambda m: turned.get(m.group(0), m.group(0)), text)

    def said(m):
        word = m.group(0)
        return turned[word] if word in turned and re.search('[a-z][A-Z]', word) else word

    comment = re.sub(r'[A-Za-z_]+', said, comment)
    comment = re.sub(r'`([^`]+)`', lambda m: '`' + TOKEN.sub(lambda w: turned.get(w.group(0), w.group(0)), m.group(1)) + '`', comment)
    return text + comment


def turn(path, turned, apart):
    rt = path.suffix == '.rt'
    turned = turned | apart
    old = path.read_text()
    lines = []
    for line in old.split('\n'):
        if rt:
            # in a source a dash stands in names of the clauses alone, and camel case is never a function's
            here = {k: v for k, v in turned.items() if re.search('[a-z][A-Z]', k) or '-' in k}
            lines.append(turn_line(line, here, True))
        else:
            lines.append(turn_line(line, turned, False))
    new = '\n'.join(lines)
    if new != old:
        path.write_text(new)
        return True
    return False


def main(words):
    listing = '--list' in words
    words = [w for w in words if w != '--list']
    root = Path(words[0] if words else '.')
    names, turned = plan(root)
    bad = clashes(root, names, turned)
    if listing:
        for old in sorted(turned):
            print(old, turned[old], sep='\t')
    for line in bad:
        print('clash:', line)
    if bad or listing:
        return 1 if bad else 0
    count = sum(turn(path, turned, HERE.get(str(path.relative_to(root)), {})) for path in all_files(root))
    print(f'{len(turned)} names turned, in {count} files')
    return 0


if __name__ == '__main__':
    raise SystemExit(main(sys.argv[1:]))
