"""The text of Rattle sources: the clauses of a function, and the types that a file declares."""
import functools
import re

import needs

TYPE = re.compile(r'\b[A-Z]\w*\b')


@functools.lru_cache(None)
def text_of(path):
    """A source without its comments."""
    return re.sub(r'//.*', '', path.read_text())


def braced(text, start):
    """What stands in the braces that open first from this place on, with them."""
    first, depth = text.index('{', start), 0
    for place in range(first, len(text)):
        depth += (text[place] == '{') - (text[place] == '}')
        if depth == 0:
            return text[first:place + 1]
    return text[first:]


def clauses(path, name):
    """The parameters of a function and its `result`, and its `requires` and `ensures` without their braces."""
    text = text_of(path)
    head = (re.search(rf'\bfn {name}(?:<[^>]*>)?\((.*?)\)', text, re.DOTALL)
            or needs.stop(f'{path.name} has no function {name}'))
    parameters = re.findall(r'(\w+)\s*:|\b(self)\b', head[1])
    found, place = [], head.end()
    while re.match(r'[^{;]*\b(?:requires|ensures)\b', text[place:]):
        inner = braced(text, place)
        found.append(inner[1:-1])
        place = text.index(inner, place) + len(inner)
    return {'result', *(name for both in parameters for name in both if name)}, found


def declared(path, name):
    """The text of a declared type; None if the name is no type's."""
    text = text_of(path)
    head = re.search(rf'\b(?:struct|enum) {name}\b', text)
    return head and f'{head[0]} {braced(text, head.end())}'


def imported(path):
    """Each name that a file takes from another one, with the path to that."""
    found = re.findall(r'^(?:pub )?use ([\w:]+?)(?:::\{([^}]*)\})?;', text_of(path), re.MULTILINE)
    paths = [f'{path}::{name.strip()}' if listed else path for path, listed in found for name in listed.split(',')]
    return {steps[-1]: steps[:-1] for steps in (path.split('::') for path in paths) if steps[-1]}


def types_in(path, name):
    """The names of types in a declared type, but for its own."""
    return [word for word in dict.fromkeys(TYPE.findall(declared(path, name))) if word != name]
