"""Given lists of pairs, for the sorted branching signature: a start for each state and one more, and the pairs flat."""
from itertools import accumulate, chain, combinations, product

import partitions
import plain
import tables
from operations import ROOM
from partitions import LARGEST
from refusals import GIVEN, MOST_ROWS, MOST_STATES

LARGEST_START = 4294967295
FEW = tuple(product((0, 1), repeat=2))
# So many states have lists that are computed from the table.
FEW_STATES = 60


def laid_flat(lists, before=(), after=()):
    """Lists one after the other; the pairs before the first and after the last belong to none."""
    pairs = [*before, *chain.from_iterable(lists), *after]
    starts = accumulate((len(one) for one in lists), initial=len(before))
    return dict(zip(GIVEN, (list(starts), *([pair[field] for pair in pairs] for field in (0, 1)))))


def ascending(rng, labels, blocks, most):
    """An ascending list of pairs below these bounds."""
    return sorted({(rng.randrange(labels), rng.randrange(blocks)) for _ in range(rng.randint(0, most))})


def pairs_of(v, rows):
    """The set of the labels and blocks that the rows lead to."""
    return sorted({(label, v['element_to_block'][target]) for _, label, target in rows})


def own_pairs(v):
    """The pairs of the state's steps, those within the block among them."""
    return pairs_of(v, [row for row in plain.rows(v) if row[0] == v['state']])


def branching_signature(v, state):
    return pairs_of(v, plain.outer_rows({**v, 'state': state}))


def some_list(rng, v, kind, own):
    """A list: empty, the state's own pairs or some of them, pairs like these, or any."""
    if kind == 'own':
        return [pair for pair in own if rng.random() < 0.7]
    if kind == 'like':
        return ascending(rng, min(v['labels'] + 1, 4), min(v['count'] + 1, 4), 6)
    return ascending(rng, LARGEST + 1, LARGEST + 1, 4) if kind == 'any' else []


def some_lists(rng, v):
    """A list for each state: of one kind, of several, all the same, or the states' branching signatures."""
    kind = rng.choice(('empty', 'own', 'like', 'like', 'any', 'mixed', 'mixed', 'same', 'signatures'))
    few, own = v['n'] <= FEW_STATES, own_pairs(v) if v['n'] <= FEW_STATES else []
    if kind == 'signatures' and few:
        return [branching_signature(v, state) for state in range(v['n'])]
    kinds = (kind,) if kind in ('empty', 'own', 'like', 'any') else ('empty', 'own', 'like', 'any')
    if kind == 'same':
        return [some_list(rng, v, rng.choice(kinds), own)] * v['n']
    return [some_list(rng, v, rng.choice(kinds), own) for _ in range(v['n'])]


def junk_pairs(rng):
    """Mostly none; otherwise pairs in no order."""
    return [(rng.randint(0, 2), rng.randint(0, LARGEST)) for _ in range(rng.choice((0, 0, 0, 1, 4)))]


def some(rng, v):
    """Sound given lists; the starts and one of the columns may be longer than need be."""
    given = laid_flat(some_lists(rng, v), junk_pairs(rng), junk_pairs(rng))
    if rng.random() < 0.3:
        given['starts'] += [rng.choice((0, LARGEST_START)) for _ in range(rng.randint(1, 3))]
    if rng.random() < 0.3:
        given[rng.choice(GIVEN[1:])] += [rng.randint(0, LARGEST) for _ in range(rng.randint(1, 3))]
    return given


def two_states(blocks):
    """A partition of two states with these block numbers."""
    if blocks == (0, 0):
        return partitions.laid_out([0, 1], [(0, 1, 2)])
    return partitions.laid_out([1, 0] if blocks == (1, 0) else [0, 1], [(0, 0, 1), (1, 2, 2)])


def every_list():
    """Every table of two states and one label, in one block and in two, with every two lists of some of four pairs."""
    subsets = list(chain.from_iterable(combinations(FEW, size) for size in range(len(FEW) + 1)))
    blocks = ((0, 0), (0, 1), (1, 0))
    for v, numbers, state, lists in product(tables.every(2, 1), blocks, (0, 1), product(subsets, repeat=2)):
        yield {**v, **two_states(numbers), 'state': state, **laid_flat(lists)}


def every_start():
    """Two lists with every three starts around three pairs, which are any; and with columns of unequal length."""
    v = {**tables.given(2, 2, [(0, 0, 1), (0, 1, 0), (1, 0, 0)]), **two_states((0, 0)), 'state': 0}
    for starts, pairs in product(product(range(5), repeat=3), product(FEW[:3], repeat=3)):
        yield {**v, **laid_flat([pairs]), 'starts': list(starts)}
    for starts, lengths in product(product((0, 2, 3, LARGEST_START), repeat=3), product(range(5), repeat=2)):
        cells = dict(zip(GIVEN[1:], ([1] * lengths[0], list(range(lengths[1])))))
        yield {**v, **cells, 'starts': list(starts)}


def fan(n, visible, state):
    """A hidden step from the state to each one, and so many visible ones from it."""
    rows = [(state, 0, target) for target in range(n)] + [(state, 1 + row // n, row % n) for row in range(visible)]
    table, partition = tables.given(n, 2 + visible // n, rows, n - 1), partitions.laid_out(range(n), [(0, n // 2, n)])
    return {**table, **partition, 'state': state}


def spread(rng, n, each, step):
    """Lists of so many pairs each: all alike, one after the other, or mixed among one another."""
    if step == 'alike':
        return [[(3, place) for place in range(each)]] * n
    if step == 'rising':
        return [[(state // 8, state % 8 * each + place) for place in range(each)] for state in range(n)]
    order = [divmod(number, 9) for number in range(n * each)]
    rng.shuffle(order)
    return [sorted(order[state * each:(state + 1) * each]) for state in range(n)]


def large(rng):
    """All states of a block by hidden steps, with some pairs each; places above u16's range; the longest columns."""
    n = MOST_STATES
    for step, visible, each in product(('alike', 'rising', 'mixed'), (0, 1000, MOST_ROWS - n), (0, 1, 4)):
        yield {**fan(n, visible, rng.choice((0, 7, n - 1))), **laid_flat(spread(rng, n, each, step))}
    for step, visible in product(('alike', 'rising', 'mixed'), (0, ROOM - 17 * n)):
        yield {**fan(n, visible, 5), **laid_flat(spread(rng, n, 17, step))}
    for first in (65530, 65535, 65536):
        before = [(rng.randint(0, 3), rng.randint(0, 3)) for _ in range(first)]
        for v in (fan(3, 2, 1), fan(40, 3, 39)):
            yield {**v, **laid_flat(spread(rng, v['n'], 4, 'mixed'), before, [(0, 0)] * 5)}
            yield {**v, **laid_flat([[]] * v['n'], before)}
    longest = laid_flat(spread(rng, 3, 5, 'mixed'))
    yield {**fan(3, 2, 1), **longest, **{name: longest[name] + [1] * (ROOM - 15) for name in GIVEN[1:]}}
    yield {**fan(3, 2, 1), **longest, 'given_labels': longest['given_labels'] + [9] * (ROOM - 15)}


def tried(rng):
    yield from every_list()
    yield from every_start()
    yield from large(rng)


def starts_fall(rng, v):
    """A start put below the one before, or one put above the next."""
    index = rng.randrange(len(v['starts']))
    start, anywhere = v['starts'][index], rng.randint(0, len(v['given_labels']))
    v['starts'][index] = rng.choice((0, anywhere, max(start - 1, 0), min(start + 1, LARGEST_START)))


def starts_past(rng, v):
    """Starts past the end: the last one, or any, or the columns cut."""
    end = min(len(v[name]) for name in GIVEN[1:])
    if rng.random() < 0.3:
        del v[rng.choice(GIVEN[1:])][rng.randint(0, end):]
    else:
        index = rng.choice((min(v['n'], len(v['starts']) - 1), rng.randrange(len(v['starts']))))
        v['starts'][index] = rng.choice((end + 1, end + 2, LARGEST, LARGEST + 1, LARGEST_START))


def pairs_fall(rng, v):
    """A pair made equal to the one before, or changed over with it."""
    end = min(len(v[name]) for name in GIVEN[1:])
    if end < 2:
        return
    place, twice = rng.randrange(1, end), rng.random() < 0.5
    for name in GIVEN[1:]:
        one, other = v[name][place - 1:place + 1]
        v[name][place - 1:place + 1] = [one, one] if twice else [other, one]


def disorder(rng, v):
    """15: starts, pairs, or both."""
    faults = rng.choice(((starts_fall,), (starts_past,), (pairs_fall,), (pairs_fall, starts_past), (pairs_fall,) * 2))
    for fault in faults:
        fault(rng, v)
