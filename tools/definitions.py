"""The definitions of a file of antt, and the names that each one is made of."""
import re

import antt
import needs

USE = re.compile(r'^(?:(?:pub|ghost) )?use ([^\s{;]+?)(?:\.\{([^}]*)\}| as (\S+?))?;?\s*$', re.MULTILINE)
HANDED = re.compile(r'^pub use [^{]*\{[^}]*\}', re.MULTILINE)
DECLARED = re.compile(
    r'\s*((?:(?:abbrev|unfoldable|pub)\s+)*)'
    r'(?:(record|data)\s+(\S+)|(\S+)(?:\s+\{[^}]*\})?\s+:(?=\s))')

# Words that begin what is read elsewhere or says nothing here, and those that begin what is not read at all.
IDLE = ('use', 'pub', 'unfolding', 'infix', 'infixl', 'infixr')
UNREAD = ('mutual', 'axiom', 'open', 'unfoldable', 'abbrev')


class Definition:
    """A definition: its name and kind, the binders of the modules around it, and its texts, the declaration first."""

    def __init__(self, name, kind, around, text):
        self.name, self.kind, self.around, self.texts = name, kind, around, [text]

    def lines(self):
        return sum(1 for text in self.texts for line in text.splitlines() if line.strip())


def kind(declared):
    """'record' and 'data'; 'function' for one that may be looked into, and 'law' for one that may not."""
    marks, grouped = declared[1].split(), declared[2]
    return grouped or ('function' if 'abbrev' in marks or 'unfoldable' in marks else 'law')


# ---- the parts of a file

def uses(text):
    """Each name that a file takes from elsewhere, with the path and its name there; a module's has the path alone."""
    found = {}
    for path, listed, other in USE.findall(text):
        for name in filter(None, (name.strip() for name in listed.split(','))):
            there, _, here = name.partition(' as ')
            found[here.strip() or there] = path, there.strip()
        if not listed:
            found[other or path.split('.')[-1]] = path, None
    return found


def handed(text):
    """The names that a file takes and hands on: those after `pub use`."""
    return list(uses('\n'.join(found[0] for found in HANDED.finditer(text))))


def indent(line):
    return len(line) - len(line.lstrip())


def chunks(lines):
    """Lines with those behind them that stand further right or close a bracket."""
    found = []
    for line in filter(str.strip, lines):
        if found and (indent(line) > indent(found[-1][0]) or line.strip()[0] in antt.CLOSE):
            found[-1].append(line)
        else:
            found.append([line])
    return found


def section(chunk):
    """The binders of a `module _ .. where`, and the lines below it."""
    last = next(place for place, line in enumerate(chunk) if line.rstrip().endswith('where'))
    head = antt.words(' '.join(chunk[:last + 1]))
    return antt.tree(head[2:-1]), chunk[last + 1:]


def definitions(lines, around=()):
    """The definitions in these lines, by their names; `around` has the binders of the modules around them."""
    found, last = {}, None
    for chunk in chunks(lines):
        text, first = '\n'.join(chunk), chunk[0].split()[0]
        declared = DECLARED.match(text)
        if first == 'module':
            binders, below = section(chunk)
            found.update(definitions(below, (*around, *binders)))
        elif declared:
            name = declared[3] or declared[4]
            last = found[name] = Definition(name, kind(declared), around, text)
        elif first in UNREAD:
            needs.stop(f'can not read what begins with {first}: {chunk[0].strip()}')
        elif first not in IDLE and last:
            found.get(first, last).texts.append(text)
    return found


def members(text):
    """The fields of a `record` or the constructors of a `data`, each with its declaration."""
    texts = ['\n'.join(chunk) for chunk in chunks(text.partition('where\n')[2].splitlines())]
    return [(DECLARED.match(text)[4], text) for text in texts]


def constructors(definition):
    """The names that a `data` makes besides its own."""
    return [name for name, _ in members(definition.texts[0])] if definition.kind == 'data' else []


# ---- the names in a definition

def type_names(text, bound):
    """Those in what a declaration says of a name."""
    items = antt.tree(antt.words(text))
    colon = antt.before(items, ':')
    return antt.names(items[colon + 1:], bound | set(antt.flat(items[:colon])))


def group_names(text, bound):
    """Those in a `record` or a `data`; a member may name those before it."""
    items = antt.tree(antt.words(text.partition('where\n')[0]))
    name, colon = 1 + antt.before(items, 'record', 'data'), antt.before(items, ':')
    free, bound = antt.telescope(items[name + 1:colon], bound)
    free += antt.names(items[colon + 1:], bound)
    for name, member in members(text):
        free += type_names(member, bound)
        bound.add(name)
    return free


def clause_names(text, bound, is_made):
    """Those in an equation. On its left `is_made` says which words are constructors; the others are bound."""
    items = antt.tree(antt.words(text))
    equals = antt.before(items, '=')
    left = list(antt.flat(items[:equals]))
    free = [word for word in left[1:] if is_made(word)]
    return free + antt.names(items[equals + 1:], bound | set(left) - set(free))


def statement_names(definition):
    """Those in what a law says: in its type, and in the binders of the modules around it."""
    free, bound = antt.telescope(definition.around, set())
    return free + type_names(definition.texts[0], bound)


def all_names(definition, is_made):
    """Those in a whole definition; of a law only what it says counts."""
    if definition.kind == 'law':
        return statement_names(definition)
    free, bound = antt.telescope(definition.around, {definition.name})
    head, *clauses = definition.texts
    free += (type_names if definition.kind == 'function' else group_names)(head, bound)
    return free + [name for clause in clauses for name in clause_names(clause, bound, is_made)]
