"""What operations take beside the partition: a block, a number or byte for each state, work, room for the text."""
from functools import cache
from itertools import product

from partitions import LARGEST
from refusals import marked, shown
from rooms import ROOM


def junk_cells(rng, n, length):
    return rng.choices((0, 1, n, LARGEST, rng.randint(0, LARGEST)), k=length)


def junk_bytes(rng, length):
    return rng.choices((0, 1, 255, rng.randint(0, 255)), k=length)


def more(rng):
    """A number of cells beyond those that are needed: mostly none."""
    return rng.choice((0, 0, 1, 4))


def put(cells, states, values):
    """The cells, with the values in those of the states."""
    for state, value in zip(states, values):
        cells[state] = value
    return cells


def a_block(rng, v):
    """A block: mostly one with something marked, and rather a long one."""
    good = [block for block in range(v['count']) if v['marked_split'][block] < v['end'][block]]
    if not good or rng.random() < 0.05:
        return rng.randrange(v['count'])
    return max(rng.choices(good, k=3), key=lambda block: v['end'][block] - v['begin'][block])


@cache
def dense_numberings(size):
    """Every dense numbering of so many states."""
    every = product(range(size), repeat=size)
    return [numbers for numbers in every if len(set(numbers)) == max(numbers, default=-1) + 1]


def random_dense(rng, size):
    """A dense numbering: all equal, all different, equal sizes or any; with the states, against them, or mixed."""
    most = rng.choice((1, size, min(2, size), rng.randint(1, size), rng.randint(1, size)))
    rest = range(most, size)
    numbers = [*range(most)] + rng.choice(([place % most for place in rest], rng.choices(range(most), k=len(rest))))
    order = rng.choice(('up', 'down', 'mixed', 'mixed'))
    if order == 'mixed':
        rng.shuffle(numbers)
        return numbers
    return sorted(numbers, reverse=order == 'down')


def random_numbers(rng, v):
    """Dense numbers for the block's marked states, and junk for all others; for one state junk too."""
    cells, states = junk_cells(rng, v['n'], v['n'] + more(rng)), sorted(marked(v))
    if not states or v['end'][v['block']] - v['begin'][v['block']] == 1:
        return cells
    return put(cells, states, random_dense(rng, len(states)))


def random_choice(rng, v):
    """Nothing, everything, or some of the block's marked states chosen; junk for all others."""
    cells, states = junk_bytes(rng, v['n'] + more(rng)), marked(v)
    drawn = rng.choice(((0,), (1, 255), (0, 1), (0, 1, 255), (0, 0, 0, 128)))
    return put(cells, states, rng.choices(drawn, k=len(states)))


def random_work(rng, v):
    return junk_cells(rng, v['n'], v['n'] + 1 + more(rng))


def some_room(rng, v):
    """Room for the partition's text: exact or more, with any bytes."""
    return list(rng.randbytes(min(len(shown(v)) + rng.choice((0, 0, 1, 5)), ROOM)))


def unmark(rng, v):
    v['marked_split'][v['block']] = v['end'][v['block']]


def make_gap(rng, v):
    """The numbers of the marked states get a gap: a number passed over, one too large, 0 and the largest, no 0."""
    states = marked(v)
    held = [v['numbers'][state] for state in states]
    gap = rng.randint(0, max(held, default=0))
    changed = rng.choice((
        [min(number + (number >= gap), LARGEST) for number in held],
        [*held[1:], rng.choice((v['n'], LARGEST))],
        [0, *[LARGEST] * len(held)],
        [rng.choice((1, LARGEST))] * len(held),
    ))
    put(v['numbers'], states, changed)
