"""The sample's part for the operations that make a smaller table: absences, shapes, each refusal, faults at once."""
import cases_quotient
import cases_table
import sample_table
import tables
from lines import Case, written
from operations import ALL, BY_NAME, HELD_ROOM
from partitions import LARGEST, laid_out
from refusals import MOST_LABELS
from sample_table import lent

# Stands where nothing is read.
X = LARGEST

# Words, and a sound table.
SOUND = (
    ('one state, no rows', tables.given(1, 1, [])),
    ('no rows, no label used', tables.given(3, 3, [], 2)),
    ('no hidden row, every visible label used', tables.given(3, 3, [(0, 1, 1), (0, 2, 1), (1, 1, 2)], 2)),
    ('a hidden self-loop alone', tables.given(2, 1, [(1, 0, 1)], 0)),
    ('every label used', tables.given(2, 3, [(0, 0, 1), (0, 1, 1), (1, 2, 0)], 0)),
    ('the most labels, the last one used', tables.given(2, MOST_LABELS, [(0, 0, 1), (0, MOST_LABELS - 1, 1)], 1)),
    ('P6', tables.given(2, 1, [(0, 0, 0), (0, 0, 1)], 0)),
    ('P7', tables.given(3, 2, [(0, 0, 1), (0, 1, 2), (1, 1, 2)], 0)),
    ('P8', tables.given(3, 2, [(0, 1, 1), (1, 1, 2)], 0)),
    ('the same with hidden steps, falling', tables.given(4, 1, [(1, 0, 0), (2, 0, 1), (3, 0, 2)], 3)),
    ('a hidden step beside two others', tables.given(3, 1, [(0, 0, 1), (0, 0, 2), (1, 0, 2)], 0)),
    ('a hidden cycle of two: every row stands for the other', tables.given(2, 1, [(0, 0, 1), (1, 0, 0)], 1)),
    ('a hidden cycle of three with a self-loop, and a way out of it',
     tables.given(4, 2, [(0, 0, 2), (0, 0, 3), (1, 0, 0), (2, 0, 1), (2, 0, 2), (3, 1, 1)], 2)),
    ('two hidden cycles, states mixed, one after the other',
     tables.given(5, 2, [(0, 0, 3), (1, 0, 4), (1, 1, 2), (3, 0, 0), (3, 0, 1), (4, 0, 1), (4, 0, 2)], 4)),
    ('hidden steps before and after a visible one',
     tables.given(4, 2, [(0, 0, 1), (0, 1, 3), (1, 1, 2), (2, 0, 3)], 0)),
    ('a hidden self-loop is no witness', tables.given(2, 1, [(0, 0, 0), (0, 0, 1), (1, 0, 1)], 0)),
    ('the initial state not reached, and a state with no way out',
     tables.given(4, 2, [(0, 1, 1), (0, 1, 2), (1, 1, 3), (2, 1, 3)], 3)),
    ('states told apart in the second round only', tables.given(5, 2, [(0, 1, 1), (1, 1, 2), (3, 1, 4), (4, 1, 4)], 4)),
    ('states told apart by a hidden step', tables.given(4, 2, [(0, 0, 2), (0, 1, 2), (1, 1, 3)], 1)),
    ('states told apart by where one label leads', tables.given(4, 2, [(0, 1, 2), (0, 1, 3), (1, 1, 3), (3, 0, 3)], 0)),
    ('two cycles of different length that are alike', tables.given(5, 1, [(0, 0, 1), (1, 0, 0), (2, 0, 3), (3, 0, 4),
                                                                      (4, 0, 2)], 4)),
)

# Words, the rows of a table of five states, and the blocks of its states in the order 4 2 0 3 1.
DIVIDED = (
    ('no rows', [], [(0, 5, 5)]),
    ('one block', [(0, 0, 0), (0, 0, 1), (1, 0, 2), (3, 1, 2)], [(0, 2, 5)]),
    ('as many blocks as states', [(0, 0, 0), (0, 0, 1), (3, 1, 4), (4, 0, 2)],
     [(4, 4, 5), (2, 2, 3), (0, 1, 1), (3, 4, 4), (1, 1, 2)]),
    ('no hidden row', [(0, 1, 3), (2, 1, 1), (4, 1, 0), (4, 1, 2)], [(3, 3, 5), (0, 3, 3)]),
    ('a hidden self-loop alone', [(4, 0, 4)], [(0, 2, 5)]),
    ('a self-loop of a state that is not chosen', [(2, 0, 2)], [(0, 2, 5)]),
    ('the first state in element order has no rows', [(0, 1, 3), (2, 1, 1)], [(0, 0, 3), (3, 3, 5)]),
    ('the search ends at a state without rows', [(0, 1, 1), (2, 0, 0), (2, 1, 3), (4, 0, 2)], [(0, 0, 2), (2, 2, 5)]),
    ('hidden steps inside the block, a self-loop among them', [(0, 1, 0), (2, 0, 0), (2, 0, 2), (4, 0, 2), (4, 0, 4)],
     [(0, 3, 3), (3, 3, 5)]),
    ('the first of two hidden rows is followed', [(0, 1, 0), (2, 1, 2), (4, 0, 0), (4, 0, 2)], [(0, 3, 3), (3, 5, 5)]),
    ('hidden steps into the other block', [(0, 0, 3), (2, 0, 1), (4, 0, 3), (4, 0, 4)], [(3, 3, 5), (0, 1, 3)]),
    ('rows that become one', [(0, 1, 1), (0, 1, 3), (2, 1, 3), (4, 1, 1)], [(0, 3, 3), (3, 5, 5)]),
    ('a visible self-loop stays', [(4, 1, 4)], [(0, 5, 5)]),
    ('a hidden cycle in the first block', [(2, 0, 4), (4, 0, 2)], [(0, 1, 2), (2, 4, 5)]),
    ('a hidden cycle in the last block', [(0, 0, 3), (3, 0, 0), (4, 1, 2)], [(0, 1, 2), (2, 4, 5)]),
    ('a hidden cycle in both', [(0, 0, 3), (2, 0, 4), (3, 0, 0), (4, 0, 2)], [(2, 4, 5), (0, 1, 2)]),
    ('a hidden cycle that the search comes into', [(0, 0, 2), (2, 0, 0), (4, 0, 2)], [(0, 5, 5)]),
    ('a hidden cycle that the search does not meet', [(0, 0, 3), (2, 0, 1), (3, 0, 0), (4, 0, 2)], [(0, 5, 5)]),
    ('a hidden cycle through two blocks', [(2, 0, 0), (0, 0, 2)], [(0, 0, 2), (2, 2, 5)]),
)


def divided(rows, blocks):
    return {**tables.given(5, 2, sorted(rows), 3), **laid_out([4, 2, 0, 3, 1], blocks, X)}


def sound(operation):
    """The tables, with a partition where one is taken."""
    if cases_table.takes_partition(operation):
        yield from ((words, divided(rows, blocks)) for words, rows, blocks in DIVIDED)
        p6 = {**tables.given(2, 1, [(0, 0, 0), (0, 0, 1)]), **laid_out([0, 1], [(0, 0, 2)], X)}
        yield from (('P6', p6), ('one state, no rows', {**tables.given(1, 1, []), **laid_out([0], [(0, 0, 1)])}))
    else:
        yield from SOUND


def of_sound(operation):
    """Every table with every flag and every state."""
    for words, v in sound(operation):
        yield f'# {operation.name}: {words}'
        for switches in cases_quotient.every_switch(operation, range(v['n'])):
            yield Case(operation, {**v, **switches, **lent(operation, v)})


def of_size(operation):
    """More states than a byte counts."""
    v = {**tables.chain(300), **laid_out(range(300), [(place, place, place + 2) for place in range(0, 300, 2)], X)}
    v |= {**cases_quotient.every_switch(operation, [0])[-1], 'state': 299}
    yield f'# {operation.name}: a hidden chain of 300 states'
    yield Case(operation, {**v, **lent(operation, v)})


def of_room():
    """A slice that is as long as `replay` takes it, the first and the last that may change."""
    operation = BY_NAME['strong_reduction']
    v = sample_table.a_case(operation)
    yield f'# {operation.name}: the longest slices'
    for slice in (operation.changed[0], operation.changed[-1]):
        yield Case(operation, {**v, slice: v[slice] + [8] * (HELD_ROOM - len(v[slice]))}, in_runs=True)


def of(operation):
    yield from of_sound(operation)
    yield from sample_table.of_faults(operation)
    yield from of_size(operation)


def of_no_case():
    """Such lines of each operation, and one whose slice is too long."""
    for operation in ALL:
        if operation.maker == cases_quotient.__name__:
            yield from sample_table.no_cases(operation)
    operation = BY_NAME['tau_scc_decomposition']
    too_long = {**cases_quotient.example(operation), 'numbers': [0] * (HELD_ROOM + 1)}
    yield Case(operation, None, written(operation, too_long))
