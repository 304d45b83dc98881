"""The sample's part for the operations on a partition: sound ones, damaged ones, arguments, several faults at once."""
from itertools import product

import cases_partition
from lines import Case
from operations import ALL, BYTES
from partitions import LARGEST, copied, laid_out
from refusals import COLUMNS, MOST_STATES, partition, shown

# Sound partitions, in words and in columns.
SOUND = (
    ('one state, marked', laid_out([0], [(0, 0, 1)])),
    ('one state, unmarked', laid_out([0], [(0, 1, 1)])),
    ('one block, nothing marked', laid_out([1, 0, 2], [(0, 3, 3)])),
    ('one block, all marked', laid_out([2, 1, 0], [(0, 0, 3)])),
    ('as many blocks as states', laid_out([2, 0, 1], [(1, 1, 2), (0, 1, 1), (2, 2, 3)])),
    ('two blocks, junk in unused block cells', laid_out([2, 3, 0, 1], [(0, 2, 3), (3, 4, 4)], LARGEST)),
    ('blocks in another order than positions', laid_out([4, 1, 3, 0, 2], [(3, 4, 5), (0, 1, 3)], 9)),
)

# What is changed in the two blocks above: a cell of a column, or the count.
DAMAGED = (
    ('a state twice', [('elements', 1, 2)]),
    ('an element of n', [('elements', 3, 4)]),
    ('the largest number as an element', [('elements', 0, LARGEST)]),
    ('offsets that are no inverse', [('element_offset', 2, 1), ('element_offset', 3, 0)]),
    ('an offset of n', [('element_offset', 1, 4)]),
    ('a block number of the count', [('element_to_block', 1, 2)]),
    ('the largest number as a block number', [('element_to_block', 0, LARGEST)]),
    ('a state in the other block', [('element_to_block', 1, 0)]),
    ('a state in an unused entry',
     [('element_to_block', 1, 2), ('begin', 2, 3), ('marked_split', 2, 4), ('end', 2, 4)]),
    ('overlapping blocks', [('end', 0, 4)]),
    ('a block twice', [('count', 3), ('begin', 2, 3), ('marked_split', 2, 3), ('end', 2, 4)]),
    ('an empty block more', [('count', 3), ('begin', 2, 4), ('marked_split', 2, 4), ('end', 2, 4)]),
    ('an overlap and a turned block',
     [('end', 0, 4), ('count', 3), ('begin', 2, 2), ('marked_split', 2, 1), ('end', 2, 1)]),
    ('a split below its block', [('marked_split', 1, 2)]),
    ('a split above its block', [('marked_split', 0, 4)]),
    ('an end past n', [('end', 1, 5)]),
    ('a begin at the end', [('begin', 1, 4)]),
    ('a state before its block', [('begin', 0, 1)]),
    ('count 0', [('count', 0)]),
    ('count n+1', [('count', 5)]),
    ('the largest count', [('count', LARGEST)]),
)

def columns_of(length, cell):
    return {column: [cell] * length for column in COLUMNS}


def of_new(operation):
    """`BlockPartition::new`: exact columns, longer ones, the limits, short ones."""
    accepted = ((1, 1), (4, 4), (3, 5), (MOST_STATES, MOST_STATES))
    refused = ((0, 0), (0, 3), (MOST_STATES + 1, 3), (LARGEST, 0), (3, 0))
    for n, length in accepted + refused:
        yield Case(operation, {'n': n, **columns_of(length, 9)}, in_runs=length == MOST_STATES)
    for column in COLUMNS:
        yield Case(operation, {'n': 3, **columns_of(3, 9), column: [9, 9]})


def longer(v):
    return {**v, **{column: v[column] + [LARGEST, 0, v['n']] for column in COLUMNS}}


def good(operation, v):
    """Every argument in range; for a text, room that is exact and room to spare."""
    names = cases_partition.argument_names(operation)
    texts = [[7] * len(shown(v)), [255] * (len(shown(v)) + 3)]
    kinds = [operation.parameters[name] for name in names]
    choices = [texts if kind == BYTES else range(v[kind.bound]) for kind in kinds]
    return [dict(zip(names, chosen)) for chosen in product(*choices)]


def changed(v, changes):
    v = copied(v)
    for name, *place, number in changes:
        if place:
            v[name][place[0]] = number
        else:
            v[name] = number
    return v


def of_bad_arguments(operation, v):
    """Each argument out of range, alone and together; room one short and none."""
    names = cases_partition.argument_names(operation)
    texts = [[7] * (len(shown(v)) - 1), []]
    kinds = [operation.parameters[name] for name in names]
    choices = [texts if kind == BYTES else [0, v[kind.bound], LARGEST] for kind in kinds]
    for chosen in product(*choices) if names else ():
        case = Case(operation, {**v, **dict(zip(names, chosen))})
        if case.refused:
            yield case


def of_several_faults(operation, v):
    """Faults in the order in which 01 ranks them, the first taken away each time."""
    v = changed(v, [('elements', 1, 2)])
    names = cases_partition.argument_names(operation)
    last = {name: [] if operation.parameters[name] == BYTES else LARGEST for name in names}
    yield Case(operation, {**v, **last, 'n': 0, 'end': []})
    yield Case(operation, {**v, **last, 'n': 4097})
    yield Case(operation, {**v, **last, 'end': v['end'][:3]})
    yield Case(operation, {**v, **last})


def of_partition(operation, damages):
    """An operation on a partition: sound ones, n outside its range, short columns, damaged ones, arguments, orders."""
    for words, v in SOUND:
        yield f'# {operation.name}: {words}'
        yield from (Case(operation, {**v, **chosen}) for chosen in good(operation, v))
    v = SOUND[5][1]
    chosen = good(operation, v)[-1]
    yield f'# {operation.name}: columns longer than n'
    yield from (Case(operation, {**longer(v), **one}) for one in good(operation, v))
    yield f'# {operation.name}: n outside its range, short columns'
    yield from (Case(operation, {**v, **chosen, 'n': n}) for n in (0, 4097, LARGEST))
    yield from (Case(operation, {**v, **chosen, column: v[column][:3]}) for column in COLUMNS)
    yield Case(operation, {**v, **chosen, **columns_of(0, 0)})
    for words, changes in damages:
        yield f'# {operation.name}: {words}'
        yield Case(operation, {**changed(longer(v), changes), **chosen})
    yield f'# {operation.name}: arguments out of range, several faults at once'
    yield from of_bad_arguments(operation, v)
    yield from of_several_faults(operation, v)


def of(operation):
    """What changes the partition is tried with every damage, the others with a third of them."""
    if partition not in operation.tests:
        return of_new(operation)
    changes = set(operation.changed) & set(COLUMNS)
    return of_partition(operation, DAMAGED if changes else DAMAGED[ALL.index(operation) % 3::3])
