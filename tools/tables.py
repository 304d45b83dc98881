"""Transition tables as values of a case: the header and three columns; sound ones, longer ones and damaged ones."""
from itertools import compress, product

import plain
from partitions import LARGEST, junk
from refusals import MOST_LABELS, MOST_ROWS, ROWS


def given(n, labels, rows, initial=0):
    """A table of these rows, with columns that are as long as need be."""
    columns = {column: [row[field] for row in rows] for field, column in enumerate(ROWS)}
    return {'n': n, 'labels': labels, 'm': len(rows), 'initial': initial, **columns}


def every(n, labels):
    """Every table of n states and so many labels: each set of rows."""
    rows = list(product(range(n), range(labels), range(n)))
    for chosen in product((False, True), repeat=len(rows)):
        yield given(n, labels, list(compress(rows, chosen)), sum(chosen) % n)


def chain(n, label=0, rising=True):
    """A step from each state to the next, or from each to the one before."""
    steps = zip(range(n - 1), range(1, n)) if rising else zip(range(1, n), range(n - 1))
    return given(n, label + 1, [(source, label, target) for source, target in steps], n - 1)


def star(n, labels, centre):
    """A step with each label from the centre to every other state."""
    targets = [state for state in range(n) if state != centre]
    return given(n, labels, [(centre, label, target) for label in range(labels) for target in targets], centre)


def ring(n, label=0):
    """A step from each state to the next, and from the last to the first."""
    return given(n, label + 1, [(state, label, (state + 1) % n) for state in range(n)], 0)


def dense(n, states, label=0):
    """Every step between so many of the states, the self-loops among them."""
    return given(n, label + 1, [(source, label, target) for source in range(states) for target in range(states)], 0)


def unfolded(rng, v, n):
    """A table of n states, each like a state of the given one: its steps lead to some of those like the targets."""
    like = [*range(v['n']), *(rng.randrange(v['n']) for _ in range(n - v['n']))]
    rng.shuffle(like)
    copies = {state: [copy for copy in range(n) if like[copy] == state] for state in range(v['n'])}
    rows = set()
    for copy, (source, label, target) in product(range(n), plain.rows(v)):
        if like[copy] == source:
            some = rng.sample(copies[target], rng.randint(1, len(copies[target])))
            rows |= {(copy, label, one) for one in some}
    return given(n, v['labels'], sorted(rows)[:MOST_ROWS], rng.randrange(n))


def full(rng, n, rising=False):
    """As many rows as there may be: any, or each from a lower state to a higher one."""
    rows = set()
    while len(rows) < MOST_ROWS:
        source, label, target = rng.randrange(n), rng.choice((0, rng.randrange(MOST_LABELS))), rng.randrange(n)
        if not rising or source < target:
            rows.add((source, label, target))
    return given(n, MOST_LABELS, sorted(rows), n - 1)


def random_row(rng, order, labels, shape):
    """A row: any, one that goes up in this order of the states, or one that does so only if it is hidden."""
    one, other = rng.randrange(len(order)), rng.randrange(len(order))
    label = rng.choice((0, rng.randrange(labels)))
    if shape == 'rising' or shape == 'hidden' and label == 0:
        one, other = sorted((one, other))
    return order[one], label, order[other]


def random_table(rng, n, number=None):
    """A sound table: rows of one shape, few or many of them."""
    order, shape = list(range(n)), rng.choice(('any', 'rising', 'rising', 'hidden'))
    rng.shuffle(order)
    labels = rng.choice((1, 1, 2, 2, 3, rng.randint(1, MOST_LABELS)))
    number = rng.choice((0, n // 2, n, n, 2 * n, 3 * n)) if number is None else number
    rows = {random_row(rng, order, labels, shape) for _ in range(number)}
    return given(n, labels, sorted(rows), rng.randrange(n))


def lengthen(rng, v):
    """Some columns get cells beyond m, with junk in them."""
    for column in ROWS:
        if rng.random() < 0.3:
            v[column] += [junk(rng, v['n']) for _ in range(rng.randint(0, 4))]
    return v


def add_row(v, place, row):
    for column, field in zip(ROWS, row):
        v[column].insert(place, field)
    v['m'] += 1


def any_row(rng, v):
    """The number of some row; a table without rows gets one first."""
    if v['m'] == 0:
        add_row(v, 0, (0, 0, rng.randrange(max(v['n'], 1))))
    return rng.randrange(v['m'])


def field_outside(rng, v):
    """5: a field of a row out of range, just so or by far."""
    place, (column, bound) = any_row(rng, v), rng.choice((('source', 'n'), ('label', 'labels'), ('target', 'n')))
    v[column][place] = rng.choice((v[bound], min(v[bound] + 1, LARGEST), LARGEST))


def row_again(rng, v):
    """6: a row twice."""
    place = any_row(rng, v)
    add_row(v, place, [v[column][place] for column in ROWS])


def rows_swapped(rng, v):
    """6: two rows that stand in the other order."""
    one, other = any_row(rng, v), any_row(rng, v)
    for column in ROWS:
        v[column][one], v[column][other] = v[column][other], v[column][one]


def any_field(rng, v):
    """Any field of a row changed: 5, 6, or none of them."""
    place, column = any_row(rng, v), rng.choice(ROWS)
    v[column][place] = rng.choice((0, v['n'], rng.randint(0, v['n']), rng.randint(0, LARGEST)))


def order_broken(rng, v):
    rng.choice((row_again, rows_swapped, any_field))(rng, v)


def rows_outside(rng, v):
    v['m'] = rng.choice((MOST_ROWS + 1, LARGEST, rng.randint(MOST_ROWS + 1, LARGEST)))


def labels_outside(rng, v):
    v['labels'] = rng.choice((0, MOST_LABELS + 1, LARGEST, rng.randint(MOST_LABELS + 1, LARGEST)))


def make_cycle(rng, v):
    """11: hidden steps that lead round through two states or more."""
    length = rng.randint(2, max(2, min(5, v['n'])))
    round_trip = rng.sample(range(v['n']), min(length, v['n']))
    steps = zip(round_trip, round_trip[1:] + round_trip[:1])
    rows = sorted({*plain.rows(v), *((source, 0, target) for source, target in steps)})
    v |= given(v['n'], v['labels'], rows, v['initial'])
