"""The inputs of the benchmark: five shapes of tables and partitions, with n states and about 2 n rows.

An input is numbers, the columns of partitions, the other columns, all of them u16 with the low byte first, and the
table once more, as an input file.
"""
import random
import struct
from typing import NamedTuple

import file_model

SIZES = (512, 1024, 2048, 4096)
SHAPES = {
    'random': 'two rows a state, hidden ones to later states; '
              'signatures and quotients over about √n blocks, division into as many',
    'chain': 'a hidden and a visible row from each state to the next; '
             'signatures and quotients over one block, division into pairs',
    'dense': 'about 2 √n states with a hidden row to each later one, the others without rows; '
             'signatures and quotients over one block, nothing to divide',
    'star': 'a hidden row from one state to each, and a visible one back; '
            'signatures and quotients over blocks of one state, division into that one and the rest',
    'differing': 'the rows of random; signatures and quotients over blocks of one state, division into n',
}
LABELS = 8
NUMBERS = ('n', 'm', 'label_count', 'many_count', 'signed_count', 'listed_count', 'state', 'self_pairs', 'other_pairs',
           'given', 'least', 'batches', 'redundant', 'first', 'after')
SECOND = 1_000_000_000
# One block with all marked, many blocks, one block with its last state marked, that of signatures and quotients, and
# that of the sorted signature; each in six columns.
PARTITIONS = ('one', 'many', 'last', 'signed', 'listed')
SIX = ('elements', 'element_offset', 'element_to_block', 'begin', 'marked_split', 'end')
# The other columns, with their numbers of cells.
GIVEN = {
    'source': 'm', 'label': 'm', 'target': 'm', 'numbers': 'n', 'choice': 'n', 'state_to_key': 'n',
    'self_labels': 'self_pairs', 'self_blocks': 'self_pairs', 'other_labels': 'other_pairs',
    'other_blocks': 'other_pairs', 'given_labels': 'given', 'given_blocks': 'given',
}


def random_rows(rng, n):
    rows = set()
    for state in range(n):
        mine = set()
        while len(mine) < 2:
            label = rng.choice((0, *range(LABELS)))
            hidden = label == 0 and state < n - 1
            mine.add((state, 0, rng.randrange(state + 1, n)) if hidden else (state, max(label, 1), rng.randrange(n)))
        rows |= mine
    return rows


def chain_rows(n):
    return {(state, label, state + 1) for state in range(n - 1) for label in (0, 1 + state % 7)}


def dense_rows(n):
    size = 2
    while (size + 1) * size // 2 <= 2 * n:
        size += 1
    return {(one, 0, other) for one in range(n - size, n) for other in range(one + 1, n)}


def star_rows(n):
    return {(0, 0, state) for state in range(1, n)} | {(state, 1 + state % 7, 0) for state in range(1, n)}


def dense_numbers(numbers):
    """The numbers without gaps."""
    used = {number: place for place, number in enumerate(sorted(set(numbers)))}
    return [used[number] for number in numbers]


def shuffled(rng, n):
    states = list(range(n))
    rng.shuffle(states)
    return states


def rows_and_blocks(shape, rng, n):
    """The rows; a number for each state, by which it is divided; the choice for a split; the block of each state."""
    if shape == 'chain':
        halves = [int(state >= n // 2) for state in range(n)]
        return chain_rows(n), [state // 2 for state in range(n)], halves, halves
    if shape == 'dense':
        return dense_rows(n), [0] * n, [0] * n, [int(state == 0) for state in range(n)]
    if shape == 'star':
        others = [int(state != 0) for state in range(n)]
        return star_rows(n), others, [1 - other for other in others], others
    rows = random_rows(rng, n)
    if shape == 'differing':
        numbers = shuffled(rng, n)
        return rows, numbers, [state % 2 for state in range(n)], numbers
    numbers = dense_numbers([rng.randrange(int(n ** 0.5)) for _ in range(n)])
    return rows, numbers, [rng.randrange(2) for _ in range(n)], numbers


def generator(shape, n):
    """The random numbers of an input; the rows are made with the first of them."""
    return random.Random(f'{shape} {n}')


def rows_of(shape, n):
    return rows_and_blocks(shape, generator(shape, n), n)[0]


def inverse(order):
    offsets = [0] * len(order)
    for place, state in enumerate(order):
        offsets[state] = place
    return offsets


def one_block(order, split):
    """The columns of a partition of one block."""
    n = len(order)
    return [order, inverse(order), [0] * n, [0] * n, [split] + [0] * (n - 1), [n] + [0] * (n - 1)]


def blocks(home):
    """The columns of a partition with everything marked, by the block of each state."""
    order = sorted(range(len(home)), key=lambda state: home[state])
    begins = [place for place, state in enumerate(order) if place == 0 or home[state] != home[order[place - 1]]]
    unused = [0] * (len(home) - len(begins))
    return [order, inverse(order), home, begins + unused, begins + unused, begins[1:] + [len(home)] + unused]


def given_pairs(rng, n, blocks):
    """Four ascending pairs for each state, one state after the other."""
    pairs = []
    for _ in range(n):
        four = set()
        while len(four) < 4:
            four.add((rng.randrange(LABELS), rng.randrange(blocks)))
        pairs += sorted(four)
    return pairs


def other_pairs(shape, rng, pairs):
    """Which of the pairs the other list has: all, some at random, the last, the first half, every third."""
    some = {'chain': pairs, 'dense': pairs[-1:], 'star': pairs[:len(pairs) // 2], 'differing': pairs[::3]}
    return some[shape] if shape in some else [pair for pair in pairs if rng.randrange(2)]


def fields(records, number):
    return [[record[field] for record in records] for field in range(number)]


class Settings(NamedTuple):
    """How the calls are timed: a batch takes so many microseconds or more, and of so many batches the best is taken."""
    least: int
    batches: int
    redundant: bool  # whether the Rust's redundancy pass is timed
    first: int  # the lines of the port that are timed
    after: int


def packed(columns):
    """Numbers as bytes, one column after the other."""
    return b''.join(struct.pack(f'<{len(cells)}H', *cells) for cells in columns)


def input_file(n, labels, rows):
    """The bytes of a table as an input file."""
    return file_model.bytes_of(file_model.Table(n, labels, 0, rows))


def made(shape, n, settings):
    """The bytes of an input."""
    rng = generator(shape, n)
    rows, numbers, choice, home = rows_and_blocks(shape, rng, n)
    rows, many, count = sorted(rows), blocks(home), max(home) + 1
    order = list(range(n)) if shape == 'chain' else shuffled(rng, n)
    one, last = one_block(order, 0), one_block(list(range(n)), n - 1)
    split = shape in ('random', 'differing')
    alone = blocks(shuffled(rng, n))
    signed, signed_count = (many, count) if split else (alone, n) if shape == 'star' else (one, 1)
    listed, listed_count = (many, count) if split else (one, 1)
    pairs = sorted({(rng.randrange(LABELS), rng.randrange(n)) for _ in rows})
    others, given = other_pairs(shape, rng, pairs), given_pairs(rng, n, count if split else n)
    keys = [rng.randrange(n) for _ in range(n)]
    state = rows[0][0]
    head = (n, len(rows), LABELS, count, signed_count, listed_count, state, len(pairs), len(others), len(given),
            *settings)
    columns = [*one, *many, *last, *signed, *listed, *fields(rows, 3), numbers, choice, keys, *fields(pairs, 2),
               *fields(others, 2), *fields(given, 2)]
    return packed((head, *columns)) + input_file(n, LABELS, rows)


def table_alone(n, labels, rows, settings):
    """The bytes of an input for calls on a table alone: all other columns are zero, or have no cells."""
    head = (n, len(rows), labels, 1, 1, 1, 0, 0, 0, 0, *settings)
    before, after = len(PARTITIONS) * len(SIX), list(GIVEN.values()).count('n')
    rows = sorted(rows)
    return packed((head, *[[0] * n] * before, *fields(rows, 3), *[[0] * n] * after)) + input_file(n, labels, rows)
