"""Partitions as values of a case: n, count and the six columns; sound ones, longer ones and damaged ones."""
from itertools import permutations, product

from refusals import COLUMNS, MOST_STATES

LARGEST = 65535


def laid_out(order, blocks, unused=0):
    """States in this order, blocks as (begin, marked_split, end) in this order; unused block cells hold `unused`."""
    n, offsets, numbers = len(order), [0] * len(order), [0] * len(order)
    for place, state in enumerate(order):
        offsets[state] = place
    for number, (begin, _, end) in enumerate(blocks):
        for place in range(begin, end):
            numbers[order[place]] = number
    rest = [(unused, unused, unused)] * (n - len(blocks))
    begins, splits, ends = (list(column) for column in zip(*blocks, *rest))
    columns = dict(zip(COLUMNS, (list(order), offsets, numbers, begins, splits, ends)))
    return {'n': n, 'count': len(blocks), **columns}


def stretches(n):
    """Every way to cut the positions 0..n-1 into stretches, each a list of (begin, end)."""
    for cuts in product((False, True), repeat=n - 1):
        places = [0] + [place + 1 for place, cut in enumerate(cuts) if cut] + [n]
        yield list(zip(places, places[1:]))


def every(n):
    """Every partition of n states: each order, each cut into blocks in each order, each marked_split."""
    for order in permutations(range(n)):
        for cut in stretches(n):
            for arranged in permutations(cut):
                for splits in product(*(range(begin, end + 1) for begin, end in arranged)):
                    yield laid_out(order, [(b, s, e) for (b, e), s in zip(arranged, splits)])


def random_split(rng, begin, end):
    """Nothing marked, all marked, or any split."""
    return rng.choice((begin, end, rng.randint(begin, end), rng.randint(begin, end)))


def random_partition(rng, n, count=None):
    """A sound partition of n states; unused block cells hold junk or 0."""
    order = list(range(n))
    rng.shuffle(order)
    count = count or rng.choice((1, n, rng.randint(1, n), rng.randint(1, n)))
    places = [0] + sorted(rng.sample(range(1, n), count - 1)) + [n]
    blocks = [(begin, random_split(rng, begin, end), end) for begin, end in zip(places, places[1:])]
    rng.shuffle(blocks)
    return laid_out(order, blocks, rng.choice((0, junk(rng, n))))


def junk(rng, n):
    return rng.choice((0, n - 1 if n else 0, n, LARGEST, rng.randint(0, LARGEST)))


def lengthen(rng, v):
    """Some columns get cells beyond n, with junk in them."""
    for column in COLUMNS:
        if rng.random() < 0.5:
            v[column] += [junk(rng, v['n']) for _ in range(rng.randint(0, 4))]
    return v


def copied(v):
    return {name: value[:] if isinstance(value, list) else value for name, value in v.items()}


def any_block(rng, v):
    return rng.randrange(v['count'])


def state_twice(rng, v):
    place, other = rng.randrange(v['n']), rng.randrange(v['n'])
    v['elements'][place] = v['elements'][other]


def element_past(rng, v):
    v['elements'][rng.randrange(v['n'])] = rng.choice((v['n'], LARGEST))


def offsets_swapped(rng, v):
    one, other = rng.randrange(v['n']), rng.randrange(v['n'])
    offsets = v['element_offset']
    offsets[one], offsets[other] = offsets[other], offsets[one]


def offset_past(rng, v):
    v['element_offset'][rng.randrange(v['n'])] = rng.choice((v['n'], LARGEST))


def states_swapped(rng, v):
    """Order and offsets still fit each other; a state of another block now lies in the block."""
    one, other = rng.randrange(v['n']), rng.randrange(v['n'])
    elements, offsets = v['elements'], v['element_offset']
    elements[one], elements[other] = elements[other], elements[one]
    offsets[elements[one]], offsets[elements[other]] = one, other


def block_past(rng, v):
    v['element_to_block'][rng.randrange(v['n'])] = rng.choice((v['count'], LARGEST))


def block_wrong(rng, v):
    v['element_to_block'][rng.randrange(v['n'])] = any_block(rng, v)


def block_unused(rng, v):
    """A state's number names an entry past the count that holds the state's position."""
    state = rng.randrange(v['n'])
    block, unused = v['element_to_block'][state], rng.randrange(v['count'], v['n'] + 1)
    if unused < v['n']:
        for column in ('begin', 'marked_split', 'end'):
            v[column][unused] = v[column][block]
        v['element_to_block'][state] = unused


def overlap(rng, v):
    """A block reaches into its neighbour's positions: only the sum of the lengths shows it."""
    block = any_block(rng, v)
    if v['end'][block] < v['n']:
        v['end'][block] += 1
    elif v['begin'][block] > 0:
        v['begin'][block] -= 1


def block_again(rng, v):
    """One block more, a copy of another: only the sum of the lengths shows it."""
    block = any_block(rng, v)
    add_block(v, v['begin'][block], v['marked_split'][block], v['end'][block])


def add_block(v, begin, marked_split, end):
    if v['count'] < min(len(v[column]) for column in COLUMNS):
        v['begin'][v['count']], v['marked_split'][v['count']], v['end'][v['count']] = begin, marked_split, end
        v['count'] += 1


def block_empty(rng, v):
    """One block more, without a position: the sum still is n."""
    place = rng.randint(0, v['n'])
    add_block(v, place, place, place)


def block_turned(rng, v):
    """An overlap, and a block with end below begin that makes up for it in the sum."""
    overlap(rng, v)
    place = rng.randint(1, v['n'])
    add_block(v, place, rng.choice((place - 1, place)), place - 1)


def split_before(rng, v):
    block = any_block(rng, v)
    v['marked_split'][block] = max(v['begin'][block], 1) - 1


def split_after(rng, v):
    block = any_block(rng, v)
    v['marked_split'][block] = rng.choice((v['end'][block] + 1, LARGEST))


def end_past(rng, v):
    v['end'][any_block(rng, v)] = rng.choice((v['n'] + 1, LARGEST))


def begin_moved(rng, v):
    block = any_block(rng, v)
    v['begin'][block] = rng.choice((v['begin'][block] + 1, v['end'][block], LARGEST))


def end_moved(rng, v):
    block = any_block(rng, v)
    v['end'][block] = rng.choice((v['end'][block] - 1, v['begin'][block], 0))


def count_changed(rng, v):
    v['count'] = rng.choice((0, v['count'] - 1, v['count'] + 1, v['n'] + 1, LARGEST))


def n_changed(rng, v):
    v['n'] = rng.choice((v['n'] - 1, v['n'] + 1))


def any_cell(rng, v):
    column = v[rng.choice(COLUMNS)]
    column[rng.randrange(len(column))] = rng.choice((rng.randint(0, v['n'] + 1), LARGEST))


DAMAGES = (
    state_twice, element_past, offsets_swapped, offset_past, states_swapped, block_past, block_wrong, block_unused,
    overlap, block_again, block_empty, block_turned, split_before, split_after, end_past, begin_moved, end_moved,
    count_changed, n_changed, any_cell,
)


def n_outside(rng, v):
    v['n'] = rng.choice((0, MOST_STATES + 1, LARGEST, rng.randint(MOST_STATES + 1, LARGEST)))


def wrapped_sum(n, blocks):
    """Overlapping blocks whose lengths add up to n + 65536."""
    v = laid_out(range(n), [(0, n, n)])
    lengths = [n] * (blocks - 1) + [n + LARGEST + 1 - n * (blocks - 1)]
    for block, length in enumerate(lengths):
        v['begin'][block], v['marked_split'][block], v['end'][block] = 0, length, length
    v['count'] = blocks
    return v
