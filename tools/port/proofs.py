#!/usr/bin/env python3
"""proofs.py NAMES CRATE..: turns the proofs by hand of each crate to the names that the kit makes now.

NAMES is a folder with CRATE.json for each crate, which `rt check --generated FOLDER --old-names` writes as names.json. A proof keeps its
answers and their order. What changes: the names of goals, places, steps and loops; no `.before` on the way to a fact, since each place knows what
those before it know; and the parts of a contract by their labels. It prints what it cannot turn.
"""
import json
import re
import sys
from pathlib import Path

ROOT = Path('.')
# A place of a proof by hand has the clauses of its function as pairs, and those of a call by their labels.
LABELLED = False
WORD = r"[^\s(){}\[\],;.«»\"]+"


def norm(name):
    return re.sub(r'^overflow[-_]', '', name.replace('Need-', '')).replace('-', '_').replace('loop_holds', 'loop_init').replace('loop_less', 'loop_smaller').replace('loop_again', 'loop_preserved')


def labels_of_sources():
    """The labels of the requires and ensures of each function of the repository, by its path."""
    found = {}
    for path in ROOT.glob('crates/*/src/**/*.rt'):
        crate = path.parts[path.parts.index('crates') + 1]
        module = [p for p in path.relative_to(ROOT / 'crates' / crate / 'src').with_suffix('').parts if p not in ('lib', 'main')]
        owner = None
        here = None
        for line in path.read_text().splitlines():
            m = re.match(r'impl(?:<[^>]*>)? (?:\w+ for )?(\w+)', line)
            if m:
                owner = m.group(1)
            elif line.startswith('}'):
                owner = None
            m = re.match(r'\s*(?:pub )?(?:unsafe )?fn (\w+)', line)
            if m:
                name = '::'.join([crate, *module, *([owner] if owner and line.startswith(' ') else []), m.group(1)])
                here = found.setdefault(name, {'requires': [], 'ensures': []})
            m = re.match(r'\s*(requires|ensures)\*?(?: (\w+))? \{', line)
            if m and here is not None:
                here[m.group(1)].append(m.group(2))
            if re.match(r'\s*\{$', line) or line.endswith(') {'):
                pass
    return found


class Proof:
    def __init__(self, path, entry, labels, said):
        self.path, self.entry, self.labels, self.said = path, entry, labels, said
        self.text = path.read_text()
        self.places = {}
        self.steps = {}
        self.callee = {}
        by_name = entry['places_by_name']
        for (name, parent, (old, new), callee, _), fresh in zip(entry['places'], by_name):
            self.places[name] = fresh
            if old:
                self.steps.setdefault(old, new)
                self.steps.setdefault(old.replace('_', '-'), new)
                if callee:
                    self.callee[new] = callee
        self.parent = {fresh: self.places.get(parent) for (name, parent, *_), fresh in zip(entry['places'], by_name)}
        self.kinds = {old: new for (old, new), _ in entry['loops']}

    def tell(self, what):
        self.said.append(f'{self.path}: {what}')

    def place(self, name):
        if name in self.places:
            return self.places[name]
        for old, new in self.places.items():
            if norm(old) == norm(name) or norm(new) == norm(name):
                return new
        if name in self.places.values():
            return name
        self.tell(f'no place {name}')
        return name

    def distance(self, start, end):
        k, at = 0, start
        while at is not None and at != end:
            at, k = self.parent.get(at), k + 1
        return k if at == end else None

    # -- fields of a path
    def parts(self, fields, names):
        """The label that a path through nested pairs leads to, and the fields left."""
        i, k = 0, 0
        while i < len(names) - 1 and k < len(fields) and fields[k] == '1':
            i, k = i + 1, k + 1
        if i < len(names) - 1:
            if k < len(fields) and fields[k] == '0':
                return [names[i]], fields[k + 1:]
            return None, fields
        return [names[i]], fields[k:]

    def turn_fields(self, fields):
        out = []
        rest = [f for f in fields]
        last_step = None
        while rest:
            f = rest.pop(0)
            if out and (out[-1] in ('args', 'initial', 'new', 'auto') or (len(out) == 1 and last_step in self.kinds.values())):
                if f not in ('invariant', 'inv', 'initial', 'auto', 'kept'):
                    f = re.sub(r'_lem$', '', f.replace('-', '_'))
            if not out and f not in self.steps and f not in self.steps.values():
                for step in [x for x in list(self.steps) + list(self.steps.values()) if x.lower().replace('-', '_') == f.lower().replace('-', '_')] + list((re.sub(r'_lem$', '', f), re.sub(r'_lem$', '', f).replace('-', '_'), re.sub(r'_lem(?=\d*$)', '', f).replace('-', '_'), (f[0].lower() + f[1:]).replace('-', '_'))):
                    if step in self.steps or step in self.steps.values():
                        f = step
                        break
            if f in ('pre', 'requires'):
                pre = self.entry['pre']
                names = pre['fields'] if pre else []
                out.append('requires')
                if LABELLED and len(names) > 1:
                    got, left = self.parts(rest, names)
                    if got is None:
                        self.tell(f'requires of {".".join(fields)}')
                    else:
                        out += got
                        rest = left
                continue
            if f == 'good':
                out.append('well_formed')
                continue
            if f == 'ensures' and last_step in self.callee:
                names = [n for n in self.labels.get(self.callee[last_step], {'ensures': []})['ensures']]
                out.append('ensures')
                if LABELLED and len(names) > 1:
                    got, left = self.parts(rest, names)
                    if got is None:
                        self.tell(f'ensures of {".".join(fields)}: {names}')
                    else:
                        out += got
                        rest = left
                continue
            if f in ('new', 'last', 'auto', 'kept') and last_step in self.callee and rest and rest[0] in '01':
                names = self.entry['params'].get(self.callee[last_step])
                out.append('auto' if f in ('auto', 'kept') else 'new')
                if names:
                    i = 0
                    while rest and rest[0] == '1':
                        rest.pop(0)
                        i += 1
                    if rest and rest[0] == '0':
                        rest.pop(0)
                    if i < len(names):
                        out.append(names[i])
                    else:
                        self.tell(f'new of {".".join(fields)}: {names}')
                continue
            if not out and f in self.steps:
                last_step = self.steps[f]
                out.append(last_step)
                continue
            if not out and f in self.steps.values():
                last_step = f
                out.append(f)
                continue
            if f in ('well-formed', 'well_formed'):
                out.append('well_formed')
                continue
            out.append({'inv': 'invariant', 'ptr': 'ref_ptr'}.get(f, f))
        return out

    def run(self):
        entry = self.entry
        text = self.text
        text = re.sub(r"\bpub [\w'-]+(?:-|_)spec(?= : \{M)", lambda m: m.group(0), text)
        # needs, by their place in what is handed to the tie
        m = re.search(r'tie\.spec\b(.*)\Z', text, re.S)
        needs = entry['needs']
        count_loops = len(entry['loops'])
        if not m:
            self.tell('no tie.spec')
            return None
        args = re.findall(WORD, m.group(1))
        defined = dict(re.findall(rf'(?m)^({WORD}) : tie\.Need-({WORD})', text))
        given = [a for a in args if a in defined]
        if len(given) != len(needs):
            self.tell(f'{len(given)} answers for {len(needs)} goals: {[a for a in given]} / {[n[0] for n in needs]}')
        rename = {}
        types = {}
        old_names = [norm(n[0]) for n in needs]
        for k, a in enumerate(given):
            if len(given) == len(needs):
                new = needs[k][1]
                if norm(defined[a]) != old_names[k]:
                    self.tell(f'goal {k}: {defined[a]} is {needs[k]}')
            else:
                if norm(defined[a]) in old_names:
                    new = needs[old_names.index(norm(defined[a]))][1]
                else:
                    self.tell(f'no goal {defined[a]}')
                    continue
            types[a] = new
            rename[a] = new
        self.goal_place = {}
        for k, (old, new) in enumerate(needs):
            if k < len(entry['asked_at']):
                self.goal_place[new] = entry['asked_at'][k][1]
        taken = set(re.findall(rf'(?m)^(?:pub |abbrev )*({WORD}) :', text)) - set(rename)
        rename = {a: (n if n not in taken else a) for a, n in rename.items()}
        # helpers that take a place
        self.kinds_of_place = {}
        for name, place in re.findall(rf'(?m)^(?:pub |abbrev )*({WORD}) : Type \d\n\1 =\s*tie\.((?:After|In|At)-{WORD}|Start|Then\d*|Else\d*)(?=[\s)])', text):
            self.kinds_of_place[name] = self.place(place)
        helpers = {}
        self.inner = {}
        for mm in re.finditer(rf'(?m)^module _ \(({WORD}) : ([^()]*)\)[^\n]*where\n((?:[ \t].*\n|\n)*)', text):
            first = self.parameters(mm.group(2))[-1]
            for hm in re.finditer(rf'(?m)^  (?:pub |abbrev |unfoldable )*({WORD}) :((?:.|\n(?=   ))*)', mm.group(3)):
                own = self.parameters(hm.group(2))
                helpers[hm.group(1)] = [first] + own
                self.inner[hm.group(1)] = own
        for hm in re.finditer(rf'(?m)^(?:pub |abbrev |unfoldable )*({WORD}) :((?:.|\n(?=[ \t]))*)', text):
            name, kind = hm.group(1), hm.group(2)
            if name in defined:
                continue
            ps = self.parameters(kind)
            if any(p for p in ps):
                helpers[name] = ps
        out = []
        for chunk in self.chunks(text):
            out.append(self.turn_chunk(chunk, helpers, types))
        text = ''.join(out)
        # names
        for old, new in self.kinds.items():
            text = re.sub(rf'(?<![\w-])(invariant|decreases)-{re.escape(old)}(?![\w-])', rf'\1-{new}', text)
        text = re.sub(rf'(?<![^\s(])({WORD})', lambda m: rename.get(m.group(1), m.group(1)), text)
        if '(ap not ' in text and not re.search(r'(?m)^use [\w.]+\.\{[^}]*\bap\b', text):
            text = re.sub(r'(?m)^use mathlib\.Core\.Path\.\{', 'use mathlib.Core.Path.{ap, ', text, count=1) if 'mathlib.Core.Path.{' in text else re.sub(r'(?m)^use ', 'use mathlib.Core.Path.{ap}\nuse ', text, count=1)
        if '(ap not ' in text and not re.search(r'(?m)^use [\w.]+\.\{[^}]*(?<![\w-])not(?![\w-])', text):
            text = re.sub(r'(?m)^use mathlib\.Core\.Bool\.\{', 'use mathlib.Core.Bool.{not, ', text, count=1) if 'mathlib.Core.Bool.{' in text else re.sub(r'(?m)^use ', 'use mathlib.Core.Bool.{not}\nuse ', text, count=1)
        name = self.path.parent.name.lstrip('+')
        text = re.sub(rf'(?m)^pub ({WORD})[-_]spec : \{{M', lambda m: f'pub {m.group(1).replace("-", "_")}_spec : {{M', text)
        text = re.sub(rf'(?m)^({WORD})-spec =', lambda m: f'{m.group(1).replace("-", "_")}_spec =', text)
        return text

    def parameters(self, kind):
        """For each parameter of a helper the place that it is of, or None."""
        ps = []
        depth, part, parts = 0, '', []
        for ch in kind:
            depth += {'(': 1, ')': -1, '{': 1, '}': -1}.get(ch, 0)
            if ch == '→' and depth == 0:
                parts.append(part)
                part = ''
            else:
                part += ch
        parts.append(part)
        for p in parts:
            for g in re.findall(r'\(([^():]+) : ([^()]*(?:\([^()]*\)[^()]*)*)\)', p) or [('_', p.strip())]:
                m = re.match(rf'\s*tie\.((?:After|In|At)-{WORD}|Start|Then\d*|Else\d*)(?:\s|$)', g[1] + ' ')
                alias = self.kinds_of_place.get((g[1].split() or [''])[0])
                for _ in g[0].split():
                    ps.append(self.place(m.group(1)) if m else alias)
            if not re.search(r'\(([^():]+) :', p) and not p.strip().startswith('{'):
                pass
        return ps

    def chunks(self, text):
        """The declarations of a file, each with its equation."""
        pieces = re.split(r'(?m)^(?=\S)', text)
        merged = []
        for p in pieces:
            merged.append(p)
        return merged

    def turn_chunk(self, chunk, helpers, types):
        if chunk.startswith(('use ', 'pub use ', '--', '}')):
            return chunk
        head = re.match(rf'(?:pub |abbrev |unfoldable )*({WORD})', chunk)
        name = head.group(1) if head else None
        # a goal's type
        chunk = re.sub(rf'tie\.Need-({WORD})', lambda m: f'tie.Need-{types[name]}' if name in types else m.group(0), chunk)
        chunk = re.sub(rf'tie\.((?:After|In|At)-{WORD}|Start|Then\d+|Else\d+)(?![\w-])', lambda m: 'tie.' + self.place(m.group(1)), chunk)
        # variables at places
        where = {}
        local = helpers
        if chunk.startswith('module _'):
            m = re.match(rf'module _ \(({WORD}) : ([^()]*)\)', chunk)
            if m:
                where[m.group(1)] = self.parameters(m.group(2))[-1]
                names_here = set(re.findall(rf'(?m)^  (?:pub |abbrev |unfoldable )*({WORD}) :', chunk))
                helpers = {h: (self.inner[h] if h in names_here else ps) for h, ps in helpers.items()}
                for h in names_here:
                    if self.inner[h] and len(self.inner[h]) == 1 and self.inner[h][0]:
                        where[h] = self.inner[h][0]
                        d = None

                        def constant(b):
                            d = self.distance(where.get(b.group(2)), where[h])
                            if d is None:
                                self.tell(f'{h}: no way from {where.get(b.group(2))} to {where[h]}')
                                return b.group(0)
                            return b.group(1) + b.group(2) + '.KEPT' * d

                        chunk = re.sub(rf'(?m)^(  {re.escape(h)} =\s*)({WORD})((?:\.before)+)(?=\s*$)', constant, chunk)
                # inner functions with arguments of their own
                for h in names_here:
                    m = re.search(rf'(?m)^  {re.escape(h)}((?: {WORD})+) =', chunk)
                    if m:
                        for v, p in zip(m.group(1).split(), self.inner[h]):
                            if p:
                                where[v] = p
        if name in types:
            m = re.match(rf'{re.escape(name)} ({WORD})', chunk)
            if m and self.goal_place.get(types[name]):
                where[m.group(1)] = self.goal_place[types[name]]
        elif name in helpers:
            m = re.match(rf'(?:pub |abbrev )*{re.escape(name)}((?: {WORD})*) =', chunk)
            if m:
                for v, p in zip(m.group(1).split(), helpers[name]):
                    if p:
                        where[v] = p
            for v, p in re.findall(rf'\(({WORD}) : tie\.({WORD})', chunk):
                where[v] = self.place(p)
            m = re.search(rf'(?m)^((?:pub |abbrev )*{re.escape(name)}(?: {WORD})* =\s*)({WORD})((?:\.before)+)\s*\Z', chunk)
            if m and m.group(2) in where and helpers[name][-1]:
                d = self.distance(where[m.group(2)], helpers[name][-1])
                if d is None:
                    self.tell(f'{name}: no way from {where[m.group(2)]} to {helpers[name][-1]}')
                else:
                    chunk = chunk[:m.start()] + m.group(1) + m.group(2) + '.KEPT' * d + '\n\n'
        # what a let names, by how it is used
        for m in list(re.finditer(rf'let ({WORD}) =\s*({WORD})((?:\.before)+)\s+in\b', chunk)):
            v = m.group(1)
            want = self.wanted(chunk, v, helpers)
            if want:
                where[v] = want
        chunk = self.turn_paths(chunk, helpers, where)
        return chunk

    def wanted(self, chunk, v, helpers):
        for h, ps in helpers.items():
            for m in re.finditer(rf'(?<![\w.-]){re.escape(h)}((?:\s+(?:{WORD}(?:\.{WORD})*|\([^()]*\)))+)', chunk):
                args = re.findall(rf'{WORD}(?:\.{WORD})*|\([^()]*\)', m.group(1))
                for a, p in zip(args, ps):
                    if p and a == v:
                        return p
        return None

    def turn_paths(self, chunk, helpers, where):
        # arguments of helpers at a place
        def fix_call(m):
            h, rest = m.group(1), m.group(2)
            ps = helpers[h]
            k = -1

            def arg(a):
                nonlocal k
                k += 1
                word = a.group(0)
                if k < len(ps) and ps[k]:
                    p = re.match(rf"^\(?({WORD})((?:\.before)*)\)?$", word)
                    if p and p.group(1) in where and (p.group(2) or where[p.group(1)] != ps[k]):
                        d = self.distance(where[p.group(1)], ps[k])
                        if d is None:
                            self.tell(f'{h}: no way from {where[p.group(1)]} to {ps[k]}')
                            return word
                        return p.group(1) + '.KEPT' * d
                return word

            return h + re.sub(rf'{WORD}(?:\.{WORD})*|\([^()]*\)', arg, rest)

        for h in helpers:
            if not any(helpers[h]):
                continue
            chunk = re.sub(rf'(?<![\w.-])({re.escape(h)})((?:(?:[ \t]+|\n[ \t]+)(?:{WORD}(?:\.{WORD})*|\([^()]*\)))+)', fix_call, chunk)

        # lets of a place
        def fix_let(m):
            v, root, befores = m.group(1), m.group(2), m.group(3)
            if v in where and root in where:
                d = self.distance(where[root], where[v])
                if d is None:
                    self.tell(f'let {v}: no way from {where[root]} to {where[v]}')
                else:
                    return f'let {v} = {root}' + '.KEPT' * d + ' in'
            return f'let {v} = {root} in'

        chunk = re.sub(rf'let ({WORD}) =\s*({WORD})((?:\.before)+)\s+in\b', fix_let, chunk)

        alias, origin = {}, {}
        places = set(where) | {'c', 'q'}
        for m in re.finditer(rf'let ({WORD}) =\s*({WORD})((?:\.(?:before|KEPT))*)\s+in\b', chunk):
            if m.group(2) in places:
                places.add(m.group(1))
        for m in re.finditer(rf'let ({WORD})(?: : [^=]*?)? =\s*({WORD}|\([^()]*\))((?:\.{WORD})+)\s+in\b', chunk):
            fields = [f for f in m.group(3).split('.')[1:] if f not in ('before', 'KEPT')]
            if m.group(2).startswith('('):
                ps = helpers.get((m.group(2)[1:-1].split() or [''])[0])
                if ps and ps[-1] and fields:
                    alias[m.group(1)] = fields
                    origin[m.group(1)] = m.group(2)
                continue
            if m.group(2) in alias:
                fields = alias[m.group(2)] + fields
            if fields and m.group(2) not in ('tie', 'goal') and (m.group(2) in places or m.group(2) in alias):
                alias[m.group(1)] = fields
                origin[m.group(1)] = origin.get(m.group(2), m.group(2))

        def opened(at):
            """The first word of the parenthesis that closes at `at`."""
            depth, k = 1, at
            while depth and k > 0:
                k -= 1
                depth += {')': 1, '(': -1}.get(source[k], 0)
            word = re.match(rf'\(({WORD})', source[k:])
            return word.group(1) if word else ''

        def fix_path(m):
            root, fields = m.group(1), m.group(2).split('.')[1:]
            if root == ')':
                ps = helpers.get(opened(m.start(1)))
                if not ps or not ps[-1]:
                    plain, last = [], None
                    for f in fields:
                        f = f.replace('-', '_') if last in ('args', 'new', 'auto', 'initial') else f
                        last = {'ptr': 'ref_ptr', 'inv': 'invariant', 'pre': 'requires', 'well-formed': 'well_formed'}.get(f, f)
                        plain.append(last)
                    return root + ''.join('.' + f for f in plain)
            if root in ('tie', 'goal', 'Rattle') or root[:1].isdigit():
                return m.group(0)
            kept = [f for f in fields if f == 'KEPT']
            fields = [f for f in fields if f not in ('before', 'KEPT')]
            if root in alias:
                start = self.turn_fields(alias[root])
                whole = self.turn_fields(alias[root] + fields)
                if whole[:len(start)] == start:
                    return root + ''.join('.' + f for f in whole[len(start):])
                return origin[root] + ''.join('.' + f for f in whole)
            if root != ')' and root not in places and not kept:
                # no place: a record of ours, or what a step brought
                plain, last = [], None
                for f in fields:
                    f = f.replace('-', '_') if last in ('args', 'new', 'auto', 'initial') else f
                    last = {'ptr': 'ref_ptr', 'inv': 'invariant', 'pre': 'requires', 'well-formed': 'well_formed'}.get(f, f)
                    plain.append(last)
                return root + ''.join('.' + f for f in plain)
            fields = self.turn_fields(fields)
            return root + '.before' * len(kept) + ''.join('.' + f for f in fields)

        source = chunk
        chunk = re.sub(rf"((?<![\w.'])(?<!\))[^\s()\[\]{{}},;.«»\"]+|\))((?:\.{WORD})+)", fix_path, chunk)
        chunk = re.sub(rf"\(?not-(?:true|false) {WORD}(?:\.{WORD})* ({WORD}\.(?:if-not-{WORD}|loop-{WORD}test)\.(?:true|false))(?:(?<=\.true)|(?<=\.false))", lambda m: ('(' if m.group(0).startswith('(') else '') + 'PLAIN' + m.group(1), chunk)
        chunk = re.sub(rf"(?<![\w.'])({WORD}\.if-not-{WORD}\.(?:true|false))", lambda m: m.group(1)[5:] if m.group(1).startswith('PLAIN') else f'(ap not {m.group(1)})', chunk)
        chunk = re.sub(rf"ap not \((sym {WORD}(?:\.{WORD})*)\) ∙ ({WORD}\.if-not-{WORD}\.(?:true|false))", r"ap not (\1 ∙ \2)", chunk)
        return chunk


def main(words):
    folder, crates = Path(words[0]), words[1:]
    labels = labels_of_sources()
    said = []
    for crate in crates:
        names = json.loads((folder / f'{crate}.json').read_text())
        top = ROOT / 'crates' / crate / 'proofs'
        for path in sorted(top.rglob('Proof.antt')):
            inner = '.'.join(path.parent.relative_to(top).parts)
            entry = names.get(f'Rattle-{crate}-proofs.{inner}.Lts') or names.get(f'Rattle-{crate}-proofs.{inner}.Lts-{path.parent.name.lstrip("+")}')
            if entry is None:
                said.append(f'{path}: no names')
                continue
            text = Proof(path, entry, labels, said).run()
            if text is not None:
                path.write_text(text)
    for line in said:
        print(line)


if __name__ == '__main__':
    main(sys.argv[1:])
