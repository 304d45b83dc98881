"""Cases of `swap_blocks` on a list of block records: those of the column form, and lists of every length."""
from itertools import chain

import cases_partition
from cases_partition import good_arguments
from faults import every_length
from lines import Case
from operations import BLOCK, BY_NAME, RECORDS_ROOM, STATES
from partitions import LARGEST, laid_out, random_partition
from refusals import MOST_STATES

COLUMN_FORM = BY_NAME['swap_blocks']


def as_records(v):
    """The blocks as a list of records: as long as the shortest of their columns, and as `replay` takes it."""
    records = list(zip(*(v[field] for field in BLOCK)))[:RECORDS_ROOM]
    return {**{name: value for name, value in v.items() if name not in BLOCK}, 'blocks': records}


def every_short_list(operation):
    """A partition with its slices at every length."""
    v = as_records({**laid_out([1, 0], [(0, 1, 1), (1, 1, 2)]), 'left': 1, 'right': 0})
    return every_length(operation, v, (*STATES, 'blocks'))


def long_list(rng):
    """Few states or many, and as many records as `replay` takes, with junk in the unused ones; the list one short."""
    for n, count in ((1, 1), (2, 2), (7, 3), (MOST_STATES - 1, 1), (MOST_STATES, 2), (MOST_STATES, MOST_STATES)):
        v = random_partition(rng, n, count)
        v = as_records({**v, **good_arguments(rng, COLUMN_FORM, v)})
        unused = [(LARGEST, 0, n)] * (RECORDS_ROOM - n)
        yield {**v, 'blocks': v['blocks'] + unused}
        yield {**v, 'blocks': v['blocks'][:n - 1]}


def values(operation, rng, number):
    of_columns = (cases_partition.every_small(COLUMN_FORM), cases_partition.every_changed_cell(COLUMN_FORM, rng),
                  cases_partition.every_two_faults(COLUMN_FORM, rng),
                  cases_partition.large(COLUMN_FORM, rng), cases_partition.at_far_blocks(COLUMN_FORM, rng),
                  cases_partition.sound(COLUMN_FORM, rng, number),
                  cases_partition.damaged(COLUMN_FORM, rng, number // 2))
    yield from map(as_records, chain.from_iterable(of_columns))
    yield from every_short_list(operation)
    yield from long_list(rng)


def example(operation):
    """A sound case of the operation."""
    return as_records(cases_partition.example(COLUMN_FORM))


def cases(operation, rng, number):
    return (Case(operation, v) for v in values(operation, rng, number))
