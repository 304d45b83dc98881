"""The sample's part for the operations on a table: absences, shapes, each refusal, several faults at once."""
from itertools import cycle, product

import cases_bad
import cases_table
import given_lists
import tables
from lines import Case, written
from operations import ALL, BY_NAME, FLAG
from partitions import LARGEST, laid_out
from refusals import GIVEN, MOST_LABELS, MOST_ROWS, MOST_STATES

# Stands where nothing is read.
X = LARGEST

# Words, and a sound table.
SOUND = (
    ('one state, no rows', tables.given(1, 1, [])),
    ('no rows: nothing leads out of a state, and nothing in', tables.given(3, 2, [], 2)),
    ('no hidden row', tables.given(3, 3, [(0, 1, 1), (0, 2, 1), (1, 1, 2)], 2)),
    ('only hidden rows, the initial state last', tables.given(3, 1, [(1, 0, 0), (2, 0, 0), (2, 0, 1)], 2)),
    ('only self-loops', tables.given(2, 2, [(0, 0, 0), (1, 0, 1), (1, 1, 1)], 1)),
    ('a state that is met twice', tables.given(4, 1, [(0, 0, 1), (0, 0, 2), (1, 0, 3), (2, 0, 3)], 0)),
    ('P5: the last listed successor first', tables.given(3, 1, [(0, 0, 1), (0, 0, 2)], 0)),
    ('a cycle of visible rows', tables.given(3, 2, [(0, 0, 1), (1, 1, 0), (1, 1, 2)], 1)),
    ('a hidden cycle of two', tables.given(3, 1, [(0, 0, 1), (1, 0, 0), (1, 0, 2)], 0)),
    ('a hidden cycle that no start reaches', tables.given(4, 2, [(0, 1, 1), (2, 0, 3), (3, 0, 2)], 0)),
    ('one target under two labels', tables.given(2, 3, [(0, 0, 1), (0, 2, 1), (1, 1, 1)], 1)),
)

# Words, the rows of a table of five states, and the blocks of its states in the order 4 2 0 3 1; the first is closed.
CLOSED = (
    ('no rows', [], [(0, 3, 5)]),
    ('nothing marked', [(0, 0, 2), (2, 0, 4)], [(0, 5, 5)]),
    ('all marked', [(0, 0, 2), (2, 0, 4)], [(0, 0, 5)]),
    ('no hidden row', [(4, 1, 1), (2, 1, 3)], [(0, 4, 5)]),
    ('one after the other', [(0, 0, 3), (2, 0, 0), (3, 0, 1), (4, 0, 2)], [(0, 4, 5)]),
    ('all at once', [(0, 0, 1), (2, 0, 1), (3, 0, 1), (4, 0, 1)], [(0, 4, 5)]),
    ('a hidden self-loop, and a source that is marked already', [(1, 0, 1), (3, 0, 1)], [(0, 3, 5)]),
    ('a hidden cycle', [(0, 0, 1), (1, 0, 0), (4, 0, 0)], [(0, 4, 5)]),
    ('a visible row between', [(0, 0, 1), (2, 1, 0), (4, 0, 2)], [(0, 4, 5)]),
    ('a path that leaves the block and returns', [(0, 0, 3), (2, 0, 0), (3, 0, 2), (4, 0, 3)],
     [(1, 2, 3), (3, 3, 5), (0, 1, 1)]),
    ('a source of another block', [(3, 0, 2), (4, 0, 0)], [(0, 2, 3), (3, 5, 5)]),
    ('a block of one state', [(1, 0, 1), (3, 0, 1)], [(4, 4, 5), (0, 4, 4)]),
    ('as many blocks as states', [(0, 0, 3), (3, 0, 3)], [(3, 3, 4), (0, 0, 1), (4, 5, 5), (2, 2, 3), (1, 2, 2)]),
)


def lent(operation, v):
    """Result and work slices of exact length, with other content."""
    slices = [name for name in cases_table.slices_besides(operation) if name not in GIVEN]
    return {name: [fill] * operation.lengths()[name](v) for name, fill in zip(slices, cycle((9, X, 1)))}


def of_sound(operation):
    """Every table with every flag, start state and row to ask from."""
    for words, v in SOUND:
        yield f'# {operation.name}: {words}'
        for chosen in cases_table.every_argument(operation, v['n']):
            for row in cases_table.rows_to_ask(operation, range(v['m'] + 1)):
                yield Case(operation, {**v, **chosen, **row, **lent(operation, v)})


def closing(operation, rows, blocks):
    v = {**tables.given(5, 2, sorted(rows), 4), **laid_out([4, 2, 0, 3, 1], blocks, X), 'block': 0}
    return {**v, **lent(operation, v)}


def of_closed(operation):
    for words, rows, blocks in CLOSED:
        yield f'# {operation.name}: {words}'
        yield Case(operation, closing(operation, rows, blocks))


def a_case(operation):
    """A sound case with two rows, to be made faulty."""
    v = {**tables.given(3, 2, [(0, 0, 1), (1, 1, 2)], 2), **dict.fromkeys(operation.of(FLAG), 0), 'state': 1, 'from': 1}
    v |= {**laid_out([2, 0, 1], [(0, 2, 3)], X), 'block': 0}
    v |= given_lists.laid_flat([[(0, 2)], [(X, X)], [(1, 0), (1, 1)]]) if cases_table.takes_lists(operation) else {}
    return {name: value for name, value in {**v, **lent(operation, v)}.items() if name in operation.parameters}


def of_length(operation, v):
    yield f'# {operation.name}: slices longer, one short, empty'
    yield Case(operation, {**v, **{name: v[name] + [3, X] for name in operation.needs}})
    for name, needed in operation.needs.items():
        yield Case(operation, {**v, name: v[name][:needed(v) - 1]})
    yield Case(operation, {**v, **dict.fromkeys(operation.lengths(), [])})


def of_header(operation, v):
    yield f'# {operation.name}: the header out of range'
    outside = {'n': (0, MOST_STATES + 1, X), 'labels': (0, MOST_LABELS + 1, X), 'm': (MOST_ROWS + 1, X),
               'initial': (3, X)}
    for name, numbers in outside.items():
        yield from (Case(operation, {**v, name: number}) for number in numbers)


def of_rows(operation, v):
    """5 and 6: each field, each way to be out of order, and which comes first."""
    yield f'# {operation.name}: rows out of range, out of order, both'
    for rows in ([(0, 0, 1), (3, 0, 0)], [(0, 2, 1), (1, 0, 0)], [(0, 0, 3), (1, 0, 0)], [(0, 0, 1), (0, 0, 1)],
                 [(0, 1, 0), (0, 0, 1)], [(1, 0, 0), (0, 1, 2)], [(0, 0, 2), (0, 0, 1)], [(1, 0, 0), (0, 2, 0)],
                 [(0, 0, 1), (0, 0, 0), (3, 0, 0)], [(0, 0, 1), (X, 0, 0), (0, 0, 0)]):
        table = tables.given(3, 2, rows)
        yield Case(operation, {**v, **table, **lent(operation, {**v, **table})})


def bounded(operation):
    """The arguments that have a bound, with their kinds."""
    return {name: kind for name, kind in operation.parameters.items() if kind.bound}


def of_order(operation, v):
    """Faults in the order in which 01 ranks them, the first taken away each time."""
    last = list(operation.needs)[-1]
    faults = [{'n': 0}, {'labels': 0}, {'m': MOST_ROWS + 1}, {'initial': 3}, {last: v[last][:-1]}, {'target': [3, 2]},
              {'source': [1, 1], 'label': [1, 1], 'target': [2, 1]}]
    faults += [{'count': 0}] if cases_table.takes_partition(operation) else []
    faults += [{name: X} for name in bounded(operation)]
    faults += [{'starts': [0, 1, 0, 9]}, {'given_blocks': [2, X, 1, 1]}] if cases_table.takes_lists(operation) else []
    faults += [dict.fromkeys(operation.rooms, [])] if operation.rooms else []
    if 'order' in operation.takes:
        faults.append({'source': [0, 1], 'label': [0, 0], 'target': [1, 0]})
    if 'bottom' in operation.takes:
        faults.append({'branching': 1, 'source': [0, 2], 'label': [0, 0], 'target': [2, 0]})
    yield f'# {operation.name}: several faults at once'
    for first in range(len(faults)):
        wrong = {}
        for fault in reversed(faults[first:]):
            wrong |= fault
        yield Case(operation, {**v, **wrong})


def of_partition(operation, v):
    """14."""
    yield f'# {operation.name}: a damaged partition'
    broken = {'elements': [2, 2, 1], 'element_offset': [0, 1, 2], 'element_to_block': [0, 1, 0], 'begin': [3, 0, 0],
              'marked_split': [4, 3, 3], 'end': [4, 3, 3]}
    yield from (Case(operation, {**v, column: cells}) for column, cells in broken.items())
    yield from (Case(operation, {**v, 'count': count}) for count in (0, 4, X))


def of_arguments(operation, v):
    """8."""
    for name, kind in bounded(operation).items():
        yield f'# {operation.name}: a {name} out of range'
        numbers = sorted({v[kind.bound] + kind.itself, v['n'], X})
        yield from (Case(operation, {**v, name: number}) for number in numbers)


def of_faults(operation):
    """Each refusal, and several faults at once."""
    v = a_case(operation)
    yield from of_header(operation, v)
    yield from of_length(operation, v)
    yield from of_rows(operation, v)
    if cases_table.takes_partition(operation):
        yield from of_partition(operation, v)
    yield from of_arguments(operation, v)
    yield from of_order(operation, v)


def of(operation):
    yield from of_closed(operation) if 'block' in operation.takes else of_sound(operation)
    yield from of_faults(operation)


def of_size():
    """More states than a byte counts."""
    names = ('reachable', 'outgoing_transitions', 'next_incoming', 'sort_topological')
    for name, v in product(names, (tables.chain(300), tables.chain(300, 0, False))):
        operation = BY_NAME[name]
        yield f'# {name}: a chain of 300 states'
        yield Case(operation, {**v, 'hidden': 1, 'reversed': 0, 'state': 299, 'from': 1, **lent(operation, v)})


def no_cases(operation):
    """A word too few, a word too many, a flag of 2, and a cell that is too large in the last slice."""
    example = cases_table.example(operation)
    lines = list(cases_bad.cases(operation, example))
    flags = [Case(operation, None, written(operation, {**example, flag: 2})) for flag in operation.of(FLAG)]
    return (lines[0], lines[2], *flags, lines[-1])


def of_no_case():
    for operation in ALL:
        if operation.maker == cases_table.__name__:
            yield from no_cases(operation)
