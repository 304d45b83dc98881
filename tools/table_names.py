"""Table files for people to read: a file and its names as a command is given them, and what is shown of a state.

A file of names has lines `label NUMBER NAME` and `state NUMBER NAME`; an empty line, and one that starts with `#`, is
passed over. A name is words with blanks between. States are those of an input file; a block of an output file is named
by the words with which the names of all its states begin.
"""
import argparse
import pathlib
import sys

import file_model
import needs

KINDS = ('label', 'state')
HIDDEN = 'hidden'


def content(path):
    """The bytes of a file, as many as can matter."""
    try:
        with open(path, 'rb') as file:
            return file.read(file_model.ENOUGH)
    except OSError as error:
        needs.stop(f'{path} cannot be read: {error.strerror}')


def names(path):
    """For each kind, the name of each number that has one."""
    found = {kind: {} for kind in KINDS}
    for place, line in enumerate(content(path).decode(errors='replace').splitlines(), 1):
        words = line.split()
        if not words or words[0].startswith('#'):
            continue
        if len(words) < 3 or words[0] not in KINDS or not words[1].isdecimal():
            needs.stop(f'line {place} of {path} is not `label NUMBER NAME` or `state NUMBER NAME`')
        found[words[0]][int(words[1])] = words[2:]
    return found


def opened(description):
    """The table and the names that the command line gives; a refused file ends the run with its line and status 1."""
    reader = argparse.ArgumentParser(description=description)
    reader.add_argument('file', type=pathlib.Path, metavar='FILE')
    reader.add_argument('names', type=pathlib.Path, nargs='?', metavar='NAMES')
    given = reader.parse_args()
    table, refusal = file_model.read(content(given.file), output=True)
    if refusal:
        print(file_model.refused_line(refusal), file=sys.stderr)
        sys.exit(1)
    return table, names(given.names) if given.names else {kind: {} for kind in KINDS}


def label_name(named, label):
    """What is shown of a label: its name, or its number."""
    return HIDDEN if label == 0 else ' '.join(named['label'].get(label, [str(label)]))


def sources(table):
    """For each state its source states: of an input file itself, of an output file those in the block."""
    if table.blocks is None:
        return [[state] for state in range(table.n)]
    held = [[] for _ in range(table.n)]
    for state, block in enumerate(table.blocks):
        held[block].append(state)
    return held


def common_words(lists):
    """The words with which all of them begin."""
    shared = []
    for words in zip(*lists):
        if len(set(words)) > 1:
            break
        shared.append(words[0])
    return shared


def state_names(named, table):
    """The name of each state, that of a block by those of its states; '' for none."""
    return [' '.join(common_words([named['state'].get(state, []) for state in held])) for held in sources(table)]


def count(number, word):
    """A number of things."""
    return f'{number:,} {word}' if number == 1 else f'{number:,} {word}s'
