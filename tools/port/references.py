#!/usr/bin/env python3
"""references.py FOLDER: in the clauses of the sources below FOLDER a lent slice x is what it holds, x.now, x.old or x.new.

The definitions of specs/Lent, which took a reference at both of its moments, go: `was x` is x.now of a & and x.old of a &mut, `is x` is x.new,
and a definition of several lent columns is the one of plain columns that it stood for. It runs after names.py.
"""
import re
import sys
from pathlib import Path

PARAMETER = re.compile(r'(\w+)\s*:\s*(&mut\b|&)?')
WORDS = {
    # name: (module, plain name, form with {k} the value of the k-th argument, which moments)
    'lts_of': ('Rattle.table.specs.Lts', 'lts', 4, 'old'),
    'lts_now': ('Rattle.table.specs.Lts', 'lts', 4, 'old'),
    'before': ('Rattle.partition.specs.Partition', 'parts', 8, 'old'),
    'parts_now': ('Rattle.partition.specs.Partition', 'parts', 8, 'old'),
    'after': ('Rattle.partition.specs.Partition', 'parts', 8, 'new'),
    'store_now': ('Rattle.refinement_signing.specs.Stored', 'store', 5, 'old'),
    'store_was': ('Rattle.refinement_signing.specs.Stored', 'store', 5, 'old'),
    'store_is': ('Rattle.refinement_signing.specs.Stored', 'store', 5, 'new'),
    'behind_now': ('Rattle.refinement_rounds.specs.Rooms', 'store_behind', 5, 'old'),
    'behind_was': ('Rattle.refinement_rounds.specs.Rooms', 'store_behind', 5, 'old'),
    'RoomNow': ('Rattle.refinement_rounds.specs.Rooms', 'Room', 9, 'old'),
    'RoomIs': ('Rattle.refinement_rounds.specs.Rooms', 'Room', 9, 'new'),
}
ARGUMENT = r'(?:[A-Za-z_][\w.]*|\d+|\([^()]*\))'


def functions(text):
    """Each signature with its clauses: where it begins, where its body begins, and the kinds of its parameters."""
    for m in re.finditer(r'(?m)^[ \t]*(?:pub )?(?:unsafe )?fn (\w+)(?:<[^>]*>)?\(', text):
        k, depth = m.end(), 1
        while depth:
            depth += {'(': 1, ')': -1}.get(text[k], 0)
            k += 1
        kinds = {name: kind for name, kind in PARAMETER.findall(text[m.end():k - 1])}
        first = re.match(r'\s*(&mut self|&self)', text[m.end():k - 1])
        if first:
            kinds['self'] = first.group(1).split()[0].replace('self', '').strip() or '&'
        # the body is the first brace that no clause's word stands before
        at = k
        while True:
            brace = text.find('{', at)
            semicolon = text.find(';', at)
            if brace < 0 or (0 <= semicolon < brace):
                break
            words = text[at:brace].split()
            if not any(w.rstrip('*') in ('requires', 'ensures', 'ghost') for w in words):
                yield m.start(), k, brace, kinds
                break
            depth, j = 1, brace + 1
            while depth:
                depth += {'{': 1, '}': -1}.get(text[j], 0)
                j += 1
            at = j


def moment(name, kinds, which):
    kind = kinds.get(name)
    if kind == '&':
        return f'{name}.now'
    if kind == '&mut':
        return f'{name}.{which}'
    return name


def turn_clauses(text, kinds):
    def one(m):
        return moment(m.group(2), kinds, 'old' if m.group(1) == 'was' else 'new')

    text = re.sub(r'\((was|is) (\w+)\)', one, text)
    text = re.sub(r'(?<![\w.-])(was|is) (\w+)', one, text)
    text = re.sub(r'(?<![\w.-])Cleared (\w+)', lambda m: f'Cleared {moment(m.group(1), kinds, "old")} {moment(m.group(1), kinds, "new")}', text)
    text = re.sub(r'(?<![\w.-])Clear (\w+)', lambda m: f'Clear {moment(m.group(1), kinds, "old")}', text)
    for word, (_, plain, count, which) in WORDS.items():
        pattern = re.compile(r'(?<![\w.-])' + word + r'((?:\s+' + ARGUMENT + r'){' + str(count) + r'})')

        def put(m):
            values = re.findall(ARGUMENT, m.group(1))
            return plain + ' ' + ' '.join(moment(v, kinds, which) for v in values)

        text = pattern.sub(put, text)
    for word, which in (('rows_was', 'old'), ('rows_are', 'new')):
        def three(m):
            a, b, c = (moment(v, kinds, which) for v in m.group(1).split())
            return f'({a}, ({b}, {c}))'

        text = re.sub(r'(?<![\w.-])' + word + r'((?:\s+\w+){3})', three, text)
    return text


def imports(text):
    """The lines of what the clauses import: no word that is gone, and what stands for it."""
    found = {}
    order = []
    for m in re.finditer(r'(?m)^ghost use ([\w.◌]+)\.\{([^}]*)\};\n', text):
        if m.group(1) not in found:
            order.append(m.group(1))
        found.setdefault(m.group(1), []).extend(w.strip() for w in m.group(2).split(',') if w.strip())
    if not any(module.endswith('.Lent') or module.endswith('.Rooms') for module in found):
        return text
    wanted = {}
    for module in list(found):
        if module.endswith('.Lent'):
            kept = [w for w in found[module] if w in ('Clear', 'Cleared', 'BeginsAt')]
            for w in found[module]:
                if w in WORDS:
                    wanted.setdefault(WORDS[w][0], []).append(WORDS[w][1])
            found[module] = kept
        elif module.endswith('.Rooms'):
            found[module] = list(dict.fromkeys(WORDS[w][1] if w in WORDS else w for w in found[module]))
    for module, names in wanted.items():
        if module not in found:
            order.append(module)
        found[module] = list(dict.fromkeys(found.get(module, []) + names))
    lines = ''.join(f'ghost use {module}.{{{", ".join(found[module])}}};\n' for module in order if found[module])
    first = re.search(r'(?m)^ghost use ', text).start()
    rest = re.sub(r'(?m)^ghost use ([\w.◌]+)\.\{([^}]*)\};\n', '', text)
    return rest[:first] + lines + rest[first:]


def turn(text):
    spans = list(functions(text))
    for begin, end, brace, kinds in reversed(spans):
        text = text[:end] + turn_clauses(text[end:brace], kinds) + text[brace:]
    return imports(text)


def main(words):
    count = 0
    for path in sorted(Path(words[0] if words else '.').glob('crates/*/src/**/*.rt')):
        old = path.read_text()
        new = turn(old)
        if new != old:
            path.write_text(new)
            count += 1
    print(f'{count} sources turned')


if __name__ == '__main__':
    main(sys.argv[1:])
