"""Where a name in a definition, a law or a contract leads: to a definition, to a type or a function of a source, or to
the kit."""
import collections
import functools

import antt
import definitions
import needs
import rattle

CRATES = needs.ROOT / 'crates'

# The folders below specs/ that the kit makes: a file for each declared type, and one for each function's contract.
MADE = ('declared', 'contracts')

# What stands in the name of an operator where its arguments go.
HOLE = '◌'

# The words of antt itself, and those that every file may name.
LANGUAGE = set(': = → × _ Type record unfold in ⌜ ⌝ Unit tt ⊥ ¬ absurd'.split())


class Place(collections.namedtuple('Place', 'path kind name')):
    """What a name leads to. The kind is 'antt' for a definition, 'rt' for a type or a function of a source, 'kit'."""

    def is_kit(self):
        return self.kind == 'kit'

    def where(self):
        """The file below crates/, without its ending."""
        return str(self.path.relative_to(CRATES).with_suffix(''))


class Source:
    """A file of antt: its definitions, which of them each constructor belongs to, and where other names come from."""

    def __init__(self, path):
        text = antt.uncommented(path.read_text())
        self.uses, self.handed = definitions.uses(text), definitions.handed(text)
        self.own = definitions.definitions(text.splitlines())
        self.made = {name: held.name for held in self.own.values() for name in definitions.constructors(held)}


@functools.lru_cache(None)
def source(path):
    return Source(path)


def short(path):
    return path.relative_to(needs.ROOT)


# ---- from a path to a place

def source_file(crate, modules):
    """The source of a module of a crate."""
    return CRATES / crate / 'src' / ('/'.join(modules) + '.rt' if modules else 'lib.rt')


def of_source(crate, steps):
    """The function or the type of a source that a path names, after the modules around it."""
    modules = 0
    while source_file(crate, steps[:modules + 1]).is_file() and modules + 1 < len(steps):
        modules += 1
    return Place(source_file(crate, steps[:modules]), 'rt', steps[modules])


def within(crate, steps, name):
    """What a path in a crate leads to: a definition of a file, or the type or function that the kit made a file of."""
    file = CRATES.joinpath(crate, *steps).with_suffix('.antt')
    return of_file(file, name) if file.is_file() else of_source(crate, steps[2 if steps[1] in MADE else 1:])


def lead(path, name):
    """What a name leads to that comes by this path."""
    first, *steps = path.split('.')
    ours = first == 'Rattle' and len(steps) > 1 and (CRATES / steps[0]).is_dir()
    return within(steps[0], steps[1:], name) if ours else Place(path, 'kit', name)


def of_file(file, name):
    """What a name leads to that a file defines or hands on."""
    held = source(file)
    if name in held.own or name in held.made:
        return Place(file, 'antt', held.made.get(name, name))
    if name not in held.handed:
        needs.stop(f'{short(file)} has no {name}')
    return lead(*held.uses[name])


# ---- from a word to a place

def operators(uses):
    """Each sign of an operator in scope, with the operator's name."""
    mixed = [name for name in uses if name.startswith(HOLE) or name.endswith(HOLE)]
    return {sign: name for name in mixed for sign in name.split(HOLE) if sign}


def known(file, uses, word):
    """What a word in a file leads to, without the fields behind it; None if nothing in the file tells."""
    first, *rest = word.split('.') if word[0].isalpha() else [word]
    name = operators(uses).get(first, first)
    if file.suffix == '.antt' and (name in source(file).own or name in source(file).made):
        return of_file(file, name)
    path, there = uses.get(name, (None, None))
    if path and there is None and rest:
        return lead(path, rest[0])
    return lead(path, there) if path and there else None


def places(file, uses, words):
    """What the words in a file lead to, but for those of the language."""
    for word in dict.fromkeys(words):
        place = known(file, uses, word)
        if place:
            yield place
        elif word not in LANGUAGE and not word.isdigit():
            needs.stop(f'{short(file)}: nothing tells where {word} comes from')


def is_made(file, word):
    """Whether a word on the left of an equation is a constructor; the kit's names are all taken for ones."""
    place = known(file, source(file).uses, word)
    return place is not None and (place.kind != 'antt' or word in source(place.path).made)


# ---- from a place on

def law_leads(file, name):
    """Where what a law says leads."""
    held = source(file)
    return places(file, held.uses, definitions.statement_names(held.own[name]))


def definition_leads(file, name):
    """Where a definition leads."""
    held = source(file)
    return places(file, held.uses, definitions.all_names(held.own[name], functools.partial(is_made, file)))


def contract_leads(file, name):
    """Where the clauses of a function lead."""
    parameters, clauses = rattle.clauses(file, name)
    words = [word for text in clauses for word in antt.names(antt.tree(antt.words(text)), parameters)]
    return places(file, definitions.uses(rattle.text_of(file)), words)


def type_leads(file, name):
    """The declared types that a type is made of."""
    paths = rattle.imported(file)
    for word in rattle.types_in(file, name):
        if word in paths:
            crate, *modules = paths[word]
            yield Place(source_file(file.parts[-3] if crate == 'crate' else crate, modules), 'rt', word)
        elif rattle.declared(file, word):
            yield Place(file, 'rt', word)


def leads(place):
    """Where what stands at a place leads. A function leads nowhere: it is proved to do what its contract says."""
    if place.kind == 'antt':
        return definition_leads(place.path, place.name)
    if place.kind == 'rt' and rattle.declared(place.path, place.name):
        return type_leads(place.path, place.name)
    return []


def asked(file, name):
    """Where a name leads that is asked for: what a law says, a definition itself, a function and its contract."""
    if file.suffix == '.rt':
        return [Place(file, 'rt', name), *contract_leads(file, name)]
    place = of_file(file, name)
    is_law = place.kind == 'antt' and source(place.path).own[place.name].kind == 'law'
    return law_leads(place.path, place.name) if is_law else [place]


def laws(file):
    """The laws that a file makes public, and the names that it hands on."""
    own = source(file).own.values()
    return [held.name for held in own if held.kind == 'law' and held.texts[0].split()[0] == 'pub'] + source(file).handed


def lines(place):
    """How many lines it has, without comments: a definition, a type, or the clauses of a function."""
    if place.kind == 'antt':
        return source(place.path).own[place.name].lines()
    text = rattle.declared(place.path, place.name) or '\n'.join(rattle.clauses(place.path, place.name)[1])
    return sum(1 for line in text.splitlines() if line.strip())
