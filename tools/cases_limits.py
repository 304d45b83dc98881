"""The largest cases of the operations that make a smaller table: words, values, and numbers that were found by hand."""
from itertools import product

import cases_quotient
import partitions
import tables
from cases_table import takes_partition, with_slices
from operations import FLAG
from refusals import MOST_LABELS, MOST_ROWS, MOST_STATES

N = MOST_STATES
HALF = MOST_ROWS // 2


def mixed(rng, n, number):
    """So many hidden rows, from each state as many, to any."""
    rows = {(state % n, 0, rng.randrange(n)) for state in range(number)}
    while len(rows) < number:
        rows.add((rng.randrange(n), 0, rng.randrange(n)))
    return tables.given(n, 1, sorted(rows), n - 1)


def shapes(rng):
    """Words and tables of the greatest size."""
    yield 'no rows', tables.given(N, 1, [], N - 1)
    yield 'a hidden chain', tables.chain(N)
    yield 'a hidden chain, falling', tables.chain(N, 0, False)
    yield 'a hidden ring', tables.ring(N)
    yield 'a hidden star', tables.star(N, 1, 0)
    yield 'a star of hidden and visible rows', tables.star(N, 2, N - 1)
    yield 'every hidden row between 90 states', tables.dense(N, 90)
    yield 'as many hidden rows as may be', mixed(rng, N, MOST_ROWS)
    yield 'as many rows as may be, of 1,024 labels', tables.full(rng, N)


def of_shapes(operation, rng):
    """Each shape; where a partition is taken in one block and in random ones, with every flag off and on."""
    for words, v in shapes(rng):
        switches = cases_quotient.every_switch(operation, [N - 1])
        for chosen in (switches[0], switches[-1])[:len(switches)]:
            for name, partition in divisions(operation, rng):
                case = {**v, **partition, **chosen}
                yield f'{words}{name}{switched(operation, chosen)}', with_slices(operation, rng, case), None


def switched(operation, chosen):
    """The flags in words."""
    flags = [f'{name} {chosen[name]}' for name in operation.of(FLAG)]
    return f' ({", ".join(flags)})' if flags else ''


def divisions(operation, rng):
    if not takes_partition(operation):
        return [('', {})]
    return [(', one block', partitions.laid_out(range(N), [(0, 0, N)])),
            (', 1,000 blocks', partitions.random_partition(rng, N, 1000))]


def two_labels(state):
    """Two labels, another two for each state."""
    return [(state, state // 64, 0), (state, 64 + state % 64, 0)]


def reductions():
    """Words, a table, and by hand: the result's states and rows, its initial state, and the rounds."""
    yield 'one state, no rows: P9', tables.given(1, 1, []), (1, 0, 0, 0)
    yield 'no rows, of 1,024 labels none used', tables.given(N, MOST_LABELS, [], N - 1), (1, 0, 0, 0)
    yield 'a chain', tables.chain(N, 1), (N, N - 1, N - 1, N - 1)
    yield 'a hidden chain, falling', tables.chain(N, 0, False), (N, N - 1, N - 1, N - 1)
    yield 'a ring', tables.ring(N), (1, 1, 0, 0)
    rows = [row for state in range(N) for row in two_labels(state)]
    yield 'all states differ in round one', tables.given(N, 128, rows, 7), (N, MOST_ROWS, 7, 1)
    rows = [(0, label, target) for label in (0, 1) for target in range(N)]
    yield '8,192 rows from one state', tables.given(N, 2, rows, N - 1), (2, 4, 1, 1)
    rows = [(state, label, 0) for state in (0, 1) for label in range(MOST_LABELS)]
    yield 'every label used, by two states alike', tables.given(N, MOST_LABELS, rows, 1), (2, MOST_LABELS, 0, 1)
    rows = [(state, state % MOST_LABELS, state) for state in range(N)]
    yield 'every label used, each by four states', tables.given(N, MOST_LABELS, rows, N - 1), (1024, 1024, 1023, 1)


def of_reduction(operation, rng):
    for words, v, (n, m, initial, rounds) in reductions():
        yield words, with_slices(operation, rng, v), [n, v['labels'], m, initial, rounds]
    sizes = product((700, 3000, N), (1, 2))
    for n, each in sizes:
        v = tables.random_table(rng, n, each * n)
        yield f'a random table of {n} states', with_slices(operation, rng, v), None
        v = tables.unfolded(rng, tables.random_table(rng, n // 10, n // 5), n)
        yield f'{n} states like those of a table of {n // 10}', with_slices(operation, rng, v), None


def values(operation, rng):
    """Words, values, and the outcome's numbers where they were found by hand."""
    return globals()[operation.largest](operation, rng)
