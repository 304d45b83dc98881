"""The sample's part for the largest of everything that 01 allows, written in runs: a line would be too long without."""
from itertools import product

import cases_quotient
import cases_signature
import cases_table
import given_lists
import plain
import sample_file
import sample_split
import sample_table
import tables
from cases_host import as_records
from file_model import Table, bytes_of
from lines import Case
from listed_cases import ON_PARTITION, ON_STATE, ON_TABLE
from listed_files import LARGEST_OUTPUT
from listed_reductions import ON_CYCLES
from operations import ALL, BY_NAME, FLAG, RECORDS, ROOM
from partitions import laid_out
from refusals import MOST_LABELS, MOST_ROWS, MOST_STATES, shown

N = MOST_STATES
# One block, of which the later half is marked, or everything; and as many blocks as states.
HALF = laid_out(range(N), [(0, N // 2, N)])
WHOLE = laid_out(range(N), [(0, 0, N)])
APART = laid_out(range(N), [(state, state, state + 1) for state in range(N)])
# Steps with the first and the last label from state 0 to every state: hidden ones that make no cycle.
STAR = tables.given(N, MOST_LABELS, [(0, label, state) for label in (0, MOST_LABELS - 1) for state in range(N)], N - 1)
# The same with visible labels: each step pushes a pair.
VISIBLE = tables.given(N, MOST_LABELS, [(0, label, state) for label in (1, MOST_LABELS - 1)
                                        for state in range(N)], N - 1)
# All states on one hidden cycle.
RING = tables.ring(N)
# The states differ one round after the other, from the last state on.
CHAIN = tables.chain(N, MOST_LABELS - 1)
# All states differ in round one, so that nothing becomes less.
DIFFERENT = tables.given(N, MOST_LABELS, [(state, label, 0) for state in range(N)
                                          for label in (state // 64, MOST_LABELS - 64 + state % 64)], N - 1)


def large(operation, values):
    return Case(operation, values, in_runs=True)


def of_partitions():
    """The last state and the last block."""
    for name, v in product(ON_PARTITION, (HALF, APART)):
        operation, last = BY_NAME[name], v['count'] - 1
        v = {**v, 'element': N - 1, 'block': last, 'left': 0, 'right': last, 'text': [9] * len(shown(v))}
        yield large(operation, as_records(v) if operation.of(RECORDS) else v)


def of_splits():
    """As many numbers as states; half of the states chosen; and as many blocks as states, the last one taken."""
    for operation, given in ((sample_split.DIVIDE, range(N)), (sample_split.SPLIT, [255] * (N // 2) + [0] * (N // 2))):
        yield large(operation, sample_split.case(operation, WHOLE, 0, list(given)).values)
        yield large(operation, sample_split.case(operation, APART, N - 1, [255] * N).values)


def on_star(operation, v, **more):
    """The star, with slices as long as needed."""
    v = {**STAR, **v, **dict.fromkeys(operation.of(FLAG), 0), 'state': 0, 'from': 0, 'block': 0, **more}
    return large(operation, {**v, **sample_table.lent(operation, v)})


def of_tables():
    """Tables, the closure of marks, and signatures, with lists of one pair for each state where lists are given."""
    yield from (on_star(BY_NAME[name], {}) for name in ON_TABLE)
    yield on_star(BY_NAME['next_incoming'], {}, **{'from': MOST_ROWS})
    yield on_star(BY_NAME['sort_topological'], RING)
    yield from (on_star(BY_NAME['mark_backward_closure'], v, block=v['count'] - 1) for v in (HALF, APART))
    lists = given_lists.laid_flat([[(0, 1)]] * N)
    yield from (on_star(BY_NAME[name], {**v, **lists}) for name, v in product(ON_STATE, (HALF, APART)))


def of_quotients():
    """Every switch off, and on; all states on a hidden cycle; and as many rounds as there may be."""
    for operation in ALL:
        if operation.maker == cases_quotient.__name__:
            switches = cases_quotient.every_switch(operation, [0])
            v = (APART, HALF) if cases_table.takes_partition(operation) else ({}, {})
            yield on_star(operation, v[0], **switches[0])
            if len(switches) > 1:
                yield on_star(operation, v[1], **switches[-1])
    yield from (on_star(BY_NAME[name], RING, state=N - 1) for name in ON_CYCLES)
    operation = BY_NAME['strong_reduction']
    yield from (large(operation, {**v, **sample_table.lent(operation, v)}) for v in (CHAIN, DIFFERENT))


def pushing(operation):
    """As many pairs pushed as may be: by visible steps, or by a list as long as `replay` takes it."""
    if not cases_table.takes_lists(operation):
        return on_star(operation, {**VISIBLE, **HALF})
    lists = given_lists.laid_flat([list(map(pair, range(ROOM))), []])
    return on_star(operation, {**tables.given(2, 1, [(0, 0, 0)]), **laid_out([0, 1], [(0, 0, 2)]), **lists})


def pair(number):
    """The pairs in their order."""
    return divmod(number, 65536)


def of_rooms():
    """As much room as may be needed, and one cell less in each slice."""
    text = [9] * (len(shown(APART)) - 1)
    yield large(BY_NAME['display'], {**APART, 'text': text})
    for name in ON_STATE:
        exact = pushing(BY_NAME[name])
        yield exact
        for slice in exact.operation.rooms:
            yield large(exact.operation, {**exact.values, slice: exact.values[slice][:-1]})


def of_lists():
    """Lists of pairs as long as `replay` takes them, the second less its last pair."""
    pairs = list(map(pair, range(ROOM)))
    yield large(BY_NAME['is_subset_of'], cases_signature.given(pairs, pairs[:-1], (1, 0)))


def of_files():
    """The largest input to read; to reduce, with the largest output; the largest output; room for it that is one byte
    short; one row more than may be."""
    star, different = (Table(v['n'], v['labels'], v['initial'], plain.rows(v)) for v in (STAR, DIFFERENT))
    yield sample_file.reading(bytes_of(star), in_runs=True)
    for room in (LARGEST_OUTPUT, LARGEST_OUTPUT - 1):
        yield sample_file.reducing(bytes_of(different), room, in_runs=True)
        yield sample_file.writing(star, in_runs=True, states=N, state_blocks=list(range(N)), bytes=[9] * room)
    over = bytes_of(Table(N, 1, 0, [(0, 0, 0)] * (MOST_ROWS + 1)))
    yield sample_file.reading(over, 0, in_runs=True)
    yield sample_file.reducing(over, 0, in_runs=True)


def entries():
    yield '# the largest of everything, in runs'
    yield from of_partitions()
    yield from of_splits()
    yield from of_tables()
    yield from of_quotients()
    yield from of_rooms()
    yield from of_lists()
    yield from of_files()
