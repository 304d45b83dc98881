"""Whether the program's list of operations fits: each name and its kinds, its case, and its family.

The kinds that are wanted are those of the parameters in `operations`, which docs/REPLAY.md lists.
"""
import re

from operations import BY_NAME
from programs import ROOT

SOURCE = ROOT / 'crates' / 'replay_calls' / 'src' / 'operations.rt'
# How many slices of u16 the operations of a family may change; none in the families that are not named.
SLOTS = {'Few': 3, 'Records': 2, 'Six': 6, 'Dividing': 9, 'Signing': 6, 'Walking': 9}
# The families whose operations hold what they change for themselves, and how many places there are for that.
HOLDING, PLACES = ('Reducing', 'Filing'), 16
# The families whose operations may change bytes, one slice of them.
CHANGING_BYTES = ('Texts', 'Filing')


def kind(operation, parameter):
    """The letter of a parameter."""
    letter = operation.parameters[parameter].letter
    changed = {'b': 't', 'c': 's' if operation.holds else 'm'} if parameter in operation.changed else {}
    return changed.get(letter, letter)


def kinds(operation):
    """The letters of an operation's parameters."""
    return ''.join(kind(operation, parameter) for parameter in operation.parameters)


def listed(text):
    """The names, kinds and cases of the program's list, in order."""
    return re.findall(r'\(\s*b"([^"]*)",\s*b"([^"]*)",\s*Operation::(\w+),?\s*\)', text)


def case(name):
    """What the program calls an operation: the case of its enum."""
    return ''.join(word[:1].upper() + word[1:] for word in re.split('::|_', name))


def families(text):
    """The family of each case, by the arms of the function `family`."""
    body = text[text.index('pub fn family'):]
    arms = re.findall(r'((?:\|?\s*Operation::\w+\s*)+)=>\s*{?\s*Family::(\w+)', body)
    return {name: group for arm, group in arms for name in re.findall(r'Operation::(\w+)', arm)}


def faults():
    """What does not fit, in words."""
    text = SOURCE.read_text()
    group_of = families(text)
    found = listed(text)
    names = [name for name, _, _ in found]
    yield from (f'{name} is not listed once' for name in BY_NAME if names.count(name) != 1)
    yield from (f'{name} is no operation' for name in names if name not in BY_NAME)
    for name, letters, called in found:
        if name in BY_NAME and letters != kinds(BY_NAME[name]):
            yield f'{name} has the kinds {letters}, and not {kinds(BY_NAME[name])}'
        if called != case(name):
            yield f'{name} is {called}, and not {case(name)}'
        group = group_of.get(called)
        if group is None:
            yield f'{name} has no family'
        slots = SLOTS.get(group, 0)
        if sum(letters.count(letter) for letter in 'mr') > slots:
            yield f'{name} changes more than the {slots} slices of its family'
        if letters.count('t') > (1 if group in CHANGING_BYTES else 0):
            yield f'{name} changes more slices of bytes than its family {group} may'
        if letters.count('s') > (PLACES if group in HOLDING else 0):
            yield f'{name} holds more slices than the family {group} has places for'
