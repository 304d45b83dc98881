"""The public functions of the crates as their source declares them, and the text of a call of one."""
import re
from typing import NamedTuple

import needs

HEAD = re.compile(r'^( *)pub fn (\w+)(?:<[^>]*>)?\(([^)]*)\)(?: -> ([^\n{]+))?', re.MULTILINE)
OWNER = re.compile(r'^impl(?:<[^>]*>)? (\w+)', re.MULTILINE)
# What a method takes first, and whose methods are called on another value than that of `self`.
RECEIVERS = (('self',), ('&self',))
NAMED = {'Lts': 'system', 'PartitionColumns': 'columns'}


class Function(NamedTuple):
    path: str
    owner: str  # the type whose function it is, or ''
    parameters: tuple  # the name and the type of each
    answer: str  # the type, or ''


def declared(text, path):
    """The function of that path in the text of its file, or None."""
    for found in HEAD.finditer(text):
        indent, name, parameters, answer = found.groups()
        if name == path.split('::')[-1]:
            pairs = [tuple(part.strip() for part in parameter.split(':')) for parameter in parameters.split(',')]
            owner = OWNER.findall(text[:found.start()])[-1] if indent else ''
            return Function(path, owner, tuple(pair for pair in pairs if pair != ('',)), (answer or '').strip())
    return None


def function(path):
    """The public function crate::module::name or crate::name, or None."""
    crate, *modules, _ = path.split('::')
    file = needs.ROOT / 'crates' / crate / 'src' / ('/'.join(modules or ['lib']) + '.rt')
    return declared(file.read_text(), path) if file.is_file() else None


def argument(kind, value):
    """The argument for a parameter of that type: a value is a number, or the cells of an array."""
    if kind.startswith('&mut '):
        return f'&mut {value}'
    if kind.startswith('&'):
        return f'&{value}'
    return f'({value}) as {kind}' if kind in ('u16', 'u64') else value


def called(given, values):
    """What a call names: a function by its path, one of a type by the type, or by the value that it is called on."""
    name = given.path.split('::')[-1]
    if given.parameters[:1] and given.parameters[0] in RECEIVERS:
        return f'({values[NAMED.get(given.owner, "self")]}).{name}'
    return f'{given.owner}::{name}' if given.owner else given.path


def call(given, values):
    """The call of a function, each parameter given the value of its name."""
    missing = [name for name, *kind in given.parameters if kind and name not in values]
    if missing:
        needs.stop(f'no value is known for the parameter {missing[0]} of {given.path}')
    arguments = [argument(kind[0], values[name]) for name, *kind in given.parameters if kind]
    return f'{called(given, values)}({", ".join(arguments)})'
