"""Cases of `is_subset_of`, `tau_hat` and `is_tau_hat`: every small one, the limits, random ones, faulty ones."""
from itertools import chain, combinations, product

from faults import several
from lines import Case
from operations import OTHER, ROOM, SELF
from partitions import LARGEST
from refusals import MOST_LABELS, MOST_ROWS

FEW = tuple(product((0, 1), repeat=2))
EDGES = (0, 1, 2, MOST_LABELS - 1, MOST_LABELS, MOST_LABELS + 1, LARGEST - 1, LARGEST)


def given(this, other, excluded):
    """A case with these lists of pairs."""
    columns = [[pair[field] for pair in pairs] for pairs in (this, other) for field in (0, 1)]
    label, block = excluded
    return {**dict(zip(SELF + OTHER, columns)), 'label': label, 'block': block}


def subsets(pairs):
    """Every ascending list of some of the pairs."""
    return list(chain.from_iterable(combinations(pairs, size) for size in range(len(pairs) + 1)))


def every_small():
    """Every two ascending lists of a few pairs with every excluded pair, and every two short lists of any order."""
    for this, other, excluded in product(subsets(FEW), subsets(FEW), (*FEW, (0, 2))):
        yield given(this, other, excluded)
    short = list(chain.from_iterable(product(FEW, repeat=size) for size in range(4)))
    for this, other in product(short, short):
        yield given(this, other, (1, 0))


def every_length():
    """Columns of unequal length, what lies beyond the shorter one in no order."""
    columns = ([0, 2, 2, 1], [3, 1, 4, 0], [0, 2, 1, 1], [3, 1, 0, 0])
    for lengths in product(range(5), repeat=4):
        cut = [column[:length] for column, length in zip(columns, lengths)]
        yield {**dict(zip(SELF + OTHER, cut)), 'label': 2, 'block': 4}


def long_list(size, step=1):
    """So many ascending pairs."""
    return [(place * step // 64, place * step % 64) for place in range(size)]


def of_size():
    """Long lists, equal ones and ones that differ at the end, and numbers at their limits."""
    for size in (300, MOST_ROWS, ROOM):
        pairs = long_list(size)
        yield from (given(pairs, other, pairs[-1]) for other in (pairs, pairs[::7], [], long_list(size // 2, 2)))
        yield from (given(pairs[:-1], pairs, excluded) for excluded in (pairs[-1], (0, LARGEST)))
        yield given(pairs, [*pairs[:-1], pairs[-2]], (0, 0))
        yield given([pairs[0], *pairs[:-1]], pairs, (0, 0))
        yield given([*pairs[:-1], pairs[-2]], pairs, (0, 0))
    edges = list(product((0, 1, LARGEST - 1, LARGEST), repeat=2))
    for this, other in product(edges, repeat=2):
        yield from (given([this], [other], excluded) for excluded in (other, this, (0, 0)))
        yield given([this, other], [other, this], (0, 0))


def some_pairs(rng):
    """An ascending list, of few kinds of pairs or of many."""
    most = rng.choice((2, 3, 5, LARGEST))
    return sorted({(rng.randint(0, most), rng.randint(0, most)) for _ in range(rng.choice((0, 1, 3, 6, 12, 30)))})


def some_excluded(rng, this, other):
    """A pair of other, of self, or any."""
    drawn = [*(rng.choice(pairs) for pairs in (this, other, other) if pairs), (rng.randint(0, 3), rng.randint(0, 3))]
    return rng.choice(drawn)


def sound(rng):
    """Two ascending lists: other mostly some of self, and a pair or two more."""
    this = some_pairs(rng)
    kept = [pair for pair in this if rng.random() < rng.choice((0.3, 0.9, 1))]
    other = rng.choice((some_pairs(rng), sorted({*kept, *some_pairs(rng)[:rng.choice((0, 0, 1, 2))]})))
    v = given(this, other, some_excluded(rng, this, other))
    if rng.random() < 0.3:
        v[rng.choice(SELF + OTHER)] += [rng.randint(0, LARGEST) for _ in range(rng.randint(1, 3))]
    return v


def disorder(columns):
    """15: a pair again, two pairs changed over, or a pair put below the one before."""
    def fault(rng, v):
        end = min(len(v[column]) for column in columns)
        one, other = (rng.randrange(max(end, 1)) for _ in range(2))
        twice = rng.random() < 0.5
        for column in columns:
            cells = v[column] or [rng.randint(0, 1)]
            cells[one:one + 1] = [cells[one]] * 2 if twice else [cells[other]]
            v[column] = cells
    return fault


def of_lists(operation, rng, number):
    """Two lists of pairs and an excluded pair."""
    yield from every_small()
    yield from every_length()
    yield from of_size()
    yield from (sound(rng) for _ in range(number))
    yield from several(lambda: sound(rng), rng, [disorder(SELF), disorder(OTHER)], number // 8)


def of_numbers(operation, rng, number):
    """Every number of labels."""
    return ({'labels': labels} for labels in range(LARGEST + 1))


def of_labels(operation, rng, number):
    """Labels around the number of labels, and anywhere."""
    for label, labels in product(EDGES, EDGES):
        yield {'label': label, 'labels': labels}
    for _ in range(number * 8 // 5):
        labels = rng.choice((rng.randint(1, MOST_LABELS), rng.randint(1, MOST_LABELS), rng.randint(0, LARGEST)))
        near = (labels, max(labels - 1, 0), min(labels + 1, LARGEST), 0, rng.randint(0, LARGEST))
        yield {'label': rng.choice(near), 'labels': labels}


def cases(operation, rng, number):
    return (Case(operation, v) for v in globals()[operation.values](operation, rng, number))


def example(operation):
    """A sound case of the operation."""
    v = given([(0, 3), (2, 1)], [(2, 1)], (0, 3)) | {'labels': 3}
    return {name: v[name] for name in operation.parameters}
