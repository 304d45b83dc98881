"""The sample's part for signatures: absences, shapes, room, each refusal, several faults at once."""
from itertools import product

import cases_bad
import cases_signature
import cases_table
import given_lists
import sample_table
import tables
from cases_signature import given
from lines import Case
from operations import ALL, CELLS, OTHER, SELF
from partitions import LARGEST, laid_out
from refusals import GIVEN, MOST_LABELS, RESULT

# Stands where nothing is read.
X = LARGEST

# Lists for four states.
LISTS = ((0, 1), (2, 0)), ((0, 3),), ((0, 1), (1, 1), (X, X)), ()

# Words, the rows of a table of four states, and the blocks of its states in the order 3 1 0 2. State 1 is asked for.
SIGNED = (
    ('no way out of the state', [(0, 0, 1), (2, 1, 1)], [(0, 1, 4)]),
    ('no rows', [], [(0, 4, 4)]),
    ('a hidden self-loop, marked', [(1, 0, 1)], [(0, 0, 4)]),
    ('a hidden self-loop, unmarked', [(1, 0, 1)], [(0, 2, 4)]),
    ('a visible self-loop, marked', [(1, 1, 1)], [(0, 0, 4)]),
    ('pairs that are pushed twice', [(1, 0, 0), (1, 0, 2), (1, 2, 0), (1, 2, 2)], [(2, 4, 4), (0, 1, 2)]),
    ('two marked targets with one key', [(1, 0, 0), (1, 0, 3), (1, 1, 0)], [(0, 0, 3), (3, 3, 4)]),
    ('hidden steps to marked and unmarked states of the block', [(1, 0, 0), (1, 0, 1), (1, 0, 3)], [(0, 2, 4)]),
    ('hidden steps to marked states of another block', [(1, 0, 0), (1, 0, 2)], [(2, 2, 4), (0, 0, 2)]),
    ('pairs that ascend in another order than the rows', [(1, 1, 0), (1, 1, 2), (1, 1, 3)],
     [(3, 4, 4), (2, 2, 3), (0, 1, 2)]),
    ('hidden steps that leave the block and come back', [(0, 1, 2), (1, 0, 3), (3, 0, 0)], [(1, 4, 4), (0, 1, 1)]),
    ('rows of other states before and after', [(0, 1, 3), (1, 0, 3), (1, 2, 0), (2, 2, 2), (3, 0, 0)], [(0, 3, 4)]),
)

# For the sorted branching signature: words, the rows and the blocks of such a table, and the given lists of its states.
TAKEN = (
    ('no way out, and no room', [(0, 0, 1), (2, 1, 1)], [(0, 1, 4)], [[(0, 0)], [(1, 1)], [], [(2, 2)]]),
    ('every list empty', [(1, 0, 0), (1, 0, 2), (1, 0, 3), (1, 1, 0)], [(0, 4, 4)], [[], [], [], []]),
    ('empty lists alone are taken', [(1, 0, 0), (1, 0, 2)], [(0, 4, 4)], [[], [(1, 1)], [], [(0, 2)]]),
    ('no list is taken: visible steps, and hidden ones out of the block', [(1, 0, 0), (1, 0, 2), (1, 1, 3), (1, 2, 1)],
     [(2, 4, 4), (0, 1, 2)], [[(1, 1)], [(2, 2)], [(3, 3)], [(4, 4)]]),
    ('one list, and no pair of its own', [(1, 0, 3)], [(0, 0, 4)],
     [[(7, 7)], [(8, 8)], [(9, 9)], [(0, 1), (0, 2), (X, X)]]),
    ('a hidden self-loop takes the own list', [(1, 0, 1), (1, 1, 1)], [(0, 0, 4)],
     [[(7, 7)], [(0, 5), (2, 0)], [], []]),
    ('a list that repeats the own pairs', [(1, 0, 0), (1, 1, 0), (1, 2, 3)], [(0, 1, 4)],
     [[(1, 0), (2, 0)], [], [(3, 3)], []]),
    ('lists that repeat one another', [(1, 0, 0), (1, 0, 2), (1, 0, 3), (1, 1, 2)], [(0, 1, 4)],
     [[(0, 3), (1, 1), (5, 5)], [], [(0, 3), (5, 5)], [(1, 1), (5, 5), (6, 0)]]),
    ('own pairs before, between and after those of the lists', [(1, 0, 0), (1, 0, 3), (1, 1, 1), (1, 2, 2)],
     [(1, 4, 4), (0, 0, 1)], [[(0, 9), (1, 5), (2, 9)], [], [], [(X, 0)]]),
    ('the largest numbers', [(1, 0, 2), (1, 0, 3)], [(0, 4, 4)],
     [[], [], [(0, X), (X, 0), (X, X)], [(X, X - 1), (X, X)]]),
)
# Starts of the lists of four states, and the flat pairs: 15 at a start, at a pair, or where it isn't due.
LISTED = (
    ('starts that fall', [0, 2, 1, 3, 4], [(0, 0), (0, 1), (0, 2), (0, 3)]),
    ('a start past the end', [0, 1, 2, 5, 5], [(0, 0), (0, 1), (0, 2), (0, 3)]),
    ('the largest number as the first start', [4294967295, 4, 4, 4, 4], [(0, 0), (0, 1), (0, 2), (0, 3)]),
    ('the last start past the end', [0, 0, 0, 0, 5], [(0, 0), (0, 1), (0, 2), (0, 3)]),
    ('starts all at the end', [4, 4, 4, 4, 4], [(0, 3), (0, 2), (0, 1), (0, 0)]),
    ('a first start that is not 0, pairs before and after', [2, 3, 3, 4, 4], [(9, 9), (8, 8), (0, 1), (0, 0), (0, 0)]),
    ('a pair twice', [0, 0, 1, 3, 4], [(0, 0), (0, 2), (0, 2), (0, 3)]),
    ('a pair below the one before, in a list that is not taken', [0, 1, 3, 3, 4], [(0, 0), (1, 0), (0, 9), (0, 3)]),
    ('the first of two bad pairs', [0, 0, 0, 0, 4], [(0, 0), (0, 0), (0, 1), (0, 0)]),
    ('a bad start and a bad pair', [0, 2, 2, 2, 9], [(0, 1), (0, 0), (0, 2), (0, 3)]),
    ('starts beyond those that are read', [0, 1, 2, 3, 4, 0, 4294967295], [(0, 3), (0, 2), (0, 1), (0, 0)]),
)

# Words, self, other, and the excluded pair.
SUBSETS = (
    ('P10, without (0, 3)', [(1, 0), (2, 1)], [(0, 3), (2, 1)], (0, 3)),
    ('P10, without (0, 2)', [(1, 0), (2, 1)], [(0, 3), (2, 1)], (0, 2)),
    ('both empty', [], [], (0, 0)),
    ('self empty', [], [(0, 0)], (0, 1)),
    ('self empty, other only the excluded pair', [], [(0, 0)], (0, 0)),
    ('other empty', [(0, 0)], [], (0, 0)),
    ('the excluded pair in both', [(0, 1), (0, 2)], [(0, 1), (0, 2)], (0, 1)),
    ('the excluded pair in neither', [(0, 1), (0, 2)], [(0, 2)], (X, X)),
    ('the last pair missing', [(0, 1), (3, 0)], [(0, 1), (3, 0), (3, 1)], (3, 0)),
    ('labels decide before blocks', [(0, X), (1, 0)], [(1, 0)], (1, 1)),
    ('the largest numbers', [(X, X)], [(X, X)], (X, 0)),
    ('self not ascending', [(0, 1), (0, 1)], [(0, 1)], (0, 0)),
    ('other not ascending', [(0, 1)], [(0, 1), (1, 0), (0, 2)], (0, 0)),
    ('both not ascending', [(0, 1), (1, 1), (1, 0)], [(0, 1), (0, 0)], (0, 0)),
    ('the excluded pair twice', [(0, 1)], [(0, 0), (0, 0), (0, 1)], (0, 0)),
)


def signed(operation, rows, blocks, lists=LISTS):
    """A sound case with exact room."""
    v = {**tables.given(4, 3, rows, 3), **laid_out([3, 1, 0, 2], blocks, X), 'state': 1}
    v |= given_lists.laid_flat(lists) if cases_table.takes_lists(operation) else {}
    v |= sample_table.lent(operation, v)
    return {**v, 'state_to_key': [5, 1, 0, 5]} if 'keys' in operation.takes else v


def of_lists(operation):
    """What is taken, and starts and pairs that are refused or not read."""
    for words, rows, blocks, lists in TAKEN:
        yield f'# {operation.name}: {words}'
        yield Case(operation, signed(operation, rows, blocks, lists))
    v = signed(operation, [(1, 0, 0), (1, 0, 2), (1, 1, 3)], [(0, 4, 4)])
    for words, starts, pairs in LISTED:
        yield f'# {operation.name}: {words}'
        yield Case(operation, {**v, **given_lists.laid_flat([pairs]), 'starts': starts})
    yield f'# {operation.name}: given columns of unequal length'
    for name, end in product(GIVEN[1:], (0, 4, 5, 6)):
        yield Case(operation, {**v, name: v[name][:end] + [0] * 2})
    yield f'# {operation.name}: no room, and nothing pushed'
    yield Case(operation, signed(operation, [(1, 0, 3)], [(0, 4, 4)]))


def of_room(operation):
    """Room for the pairs pushed, one less, the distinct ones only, none, and more."""
    v = signed(operation, *(TAKEN[7] if cases_table.takes_lists(operation) else SIGNED[5])[1:])
    yield f'# {operation.name}: room'
    pairs = operation.pushes(v)
    for length in (len(pairs), len(pairs) - 1, len(set(pairs)), 0, len(pairs) + 2):
        yield Case(operation, {**v, **dict.fromkeys(RESULT, [8] * length)})
        yield Case(operation, {**v, RESULT[0]: [8] * length})
        yield Case(operation, {**v, RESULT[1]: [8] * length})


def of_signature(operation):
    for words, rows, blocks in SIGNED:
        yield f'# {operation.name}: {words}'
        yield Case(operation, signed(operation, rows, blocks))
    yield from of_room(operation)
    yield from of_lists(operation) if cases_table.takes_lists(operation) else ()
    yield from sample_table.of_faults(operation)


def of_subset(operation):
    for words, this, other, excluded in SUBSETS:
        yield f'# {operation.name}: {words}'
        yield Case(operation, given(this, other, excluded))
    yield f'# {operation.name}: columns of unequal length'
    for column in SELF + OTHER:
        v = given([(0, 1), (1, 2)], [(0, 1), (1, 2)], (5, 5))
        yield from (Case(operation, {**v, column: cells}) for cells in ([], v[column][:1], v[column] + [0, 0]))


def of_label(operation):
    """Numbers of labels around the limits, and labels around them."""
    numbers = (0, 1, 2, MOST_LABELS - 1, MOST_LABELS, MOST_LABELS + 1, X)
    seen = set()
    for labels in numbers:
        for label in sorted({0, max(labels - 1, 0), labels, min(labels + 1, X), X}):
            case = Case(operation, {'label': label, 'labels': labels})
            if case.line not in seen:
                seen.add(case.line)
                yield case


def of(operation):
    if cases_table.signs(operation):
        return of_signature(operation)
    return of_subset(operation) if operation.of(CELLS) else of_label(operation)


def of_no_case():
    """A word too few, a word too many, and a cell or number that is too large at the end."""
    for operation in ALL:
        if operation.maker == cases_signature.__name__:
            lines = list(cases_bad.cases(operation, cases_signature.example(operation)))
            yield from (lines[0], lines[2], lines[7])
