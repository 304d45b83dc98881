"""The tables on which the strong reduction is timed, alone and from file to file, and what it costs on them.

There is no Rust beside it. Its rounds and blocks are held against those that bench_refinement counts.
"""
import collections
import functools
import random

import bench_inputs
import bench_refinement
import bench_table
from bench_inputs import LABELS, SIZES, dense_rows, random_rows, shuffled, star_rows
from bench_program import BLOCK
from bench_quotients import REDUCTION

SHAPES = {
    'chain': 'a row from each state to the next, all with one label; each round splits off one state',
    'counter': 'the states are the numbers below n, in binary; a row leads to the next number, and its label tells how '
               'many bits change, a hidden row leads to 0; each round of the second half splits one pair of states',
    'random': 'two rows a state, hidden ones to later states; eight labels',
    'dense': 'about 2 √n states with a hidden row to each later one, the others without rows; each round splits off '
             'one state',
    'star': 'a hidden row from one state to each, and a visible one back, with one of seven labels',
    'hub': 'a chain through the states in random order, and a hidden row from its first state to each other; '
           'each round sorts the n pairs of that state',
    'differing': 'two rows from each state to 0, with two labels that no other state has both of; '
                 'the first round tells all states apart',
}
MORE_LABELS = 200
MORE_SIZES = {'random': (700, 3000)}
INPUTS = [(shape, n) for shape in SHAPES for n in sorted((*SIZES, *MORE_SIZES.get(shape, ())))]


def chain_rows(n):
    return {(state, 1, state + 1) for state in range(n - 1)}


def counter_rows(n):
    """The bits that change are those in which a number and the next one differ."""
    changes = {(state, bin(state ^ (state + 1)).count('1'), state + 1) for state in range(n - 1)}
    return changes | {(state, 0, 0) for state in range(n)}


def hub_rows(n):
    order = shuffled(random.Random(f'hub {n}'), n)
    steps = {(state, 1, next_state) for state, next_state in zip(order, order[1:])}
    return steps | {(order[0], 0, state) for state in order[1:]}


def differing_rows(n):
    return {(state, label, 0) for state in range(n) for label in (1 + state // 64, 100 + state % 64)}


def rows_of(shape, n):
    """The rows, and how many labels there are."""
    if shape == 'random':
        return random_rows(random.Random(f'{shape} {n}'), n), LABELS
    rows = {'chain': chain_rows, 'counter': counter_rows, 'dense': dense_rows, 'star': star_rows, 'hub': hub_rows,
            'differing': differing_rows}
    return rows[shape](n), MORE_LABELS


def made(shape, n, settings):
    """The bytes of an input."""
    rows, labels = rows_of(shape, n)
    return bench_inputs.table_alone(n, labels, rows, settings)


@functools.lru_cache(maxsize=None)
def counted(shape, n):
    return bench_refinement.counted(n, rows_of(shape, n)[0])


def expected(shape, n):
    """What the port counts for an answer."""
    return BLOCK * counted(shape, n).blocks + counted(shape, n).rounds


def signing(shape, n):
    """Steps of signing: each round, the last too, goes through states and rows and sorts each state's own pairs."""
    rows = rows_of(shape, n)[0]
    degrees = collections.Counter(source for source, _, _ in rows).values()
    return (counted(shape, n).rounds + 1) * (n + len(rows) + sum(k * (k - 1).bit_length() for k in degrees))


def times(best, shape, n):
    """Those of each line, or None where it was not measured."""
    return [best.get(bench_table.port_key(line, shape, n)) for line in REDUCTION]


def row(best, shape, n):
    core, public, of_file = times(best, shape, n)
    half_core, _, half_file = times(best, shape, n // 2) if n in SIZES else (None, None, None)
    count, signed = counted(shape, n), signing(shape, n)
    step = None if core is None else core / (signed + count.failing)
    return (shape, f'{n:,}', f'{len(rows_of(shape, n)[0]):,}', f'{count.rounds:,}', f'{count.blocks:,}', f'{signed:,}',
            f'{count.failing:,}', bench_table.micros(core), bench_table.short(bench_table.quotient(core, half_core)),
            bench_table.short(step), bench_table.micros(public), bench_table.micros(of_file),
            bench_table.short(bench_table.quotient(of_file, half_file)))


def report(best):
    """The shapes and the table as markdown, or nothing where nothing was measured."""
    heads = ('shape', 'n', 'm', 'rounds', 'blocks', 'steps of signing', 'failing comparisons', 'core', 'growth',
             'ns a step', 'public', '`reduce_file`', 'its growth')
    rows = [row(best, *given) for given in INPUTS if any(times(best, *given))]
    return f'{bench_table.listed(SHAPES)}\n{bench_table.table(heads, rows)}' if rows else ''
