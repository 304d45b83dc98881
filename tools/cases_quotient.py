"""Cases of the operations that make a smaller table: every small one, the limits, shapes, random ones, faulty ones."""
from itertools import chain, permutations, product

import cases_table
import far
import partitions
import tables
from cases_table import completed, every_switch, takes_partition, with_slices
from faults import damaged, several
from lines import Case
from partitions import laid_out, random_split, stretches
from refusals import MOST_STATES

example = cases_table.example


def every_partition(rng, n):
    """Every order of the states with every cut into blocks, which stand in the order of their positions; any marks."""
    for order, cut in product(permutations(range(n)), stretches(n)):
        yield laid_out(order, [(begin, random_split(rng, begin, end), end) for begin, end in cut])


def every_small(operation, rng):
    """Every table of a few states with every partition, flag and state."""
    for n, labels in cases_table.SMALL:
        for v, switches in product(tables.every(n, labels), every_switch(operation, range(n))):
            for partition in every_partition(rng, n) if takes_partition(operation) else ({},):
                yield with_slices(operation, rng, {**v, **partition, **switches})


def shapes(n):
    """Hidden chains both ways, a ring, stars, a dense part; a chain of visible rows; no rows."""
    yield from (tables.chain(n, label, rising) for label, rising in product((0, 1), (True, False)))
    yield tables.ring(n)
    yield from (tables.star(n, labels, centre) for labels, centre in ((1, 0), (1, n - 1), (2, 0)))
    yield tables.dense(n, min(n, 90))
    yield tables.given(n, 1, [], n - 1)


def whole(rng, n):
    """One block, two, and as many as states, in any order."""
    order = list(range(n))
    rng.shuffle(order)
    yield laid_out(order, [(0, n, n)])
    yield laid_out(order, [(0, 0, n // 2), (n // 2, n, n)])
    yield laid_out(order, [(place, place, place + 1) for place in range(n)])


def of_shape(operation, rng, v):
    """A table with one block, two and n blocks where partitions are taken, with every flag and two states."""
    for partition in whole(rng, v['n']) if takes_partition(operation) else ({},):
        for switches in every_switch(operation, [v['n'] - 1]):
            yield with_slices(operation, rng, {**v, **partition, **switches})


def of_size(operation, rng):
    """Shapes of 120 states, the limits, and where the plain computation is quick, shapes of the greatest n."""
    largest = [*shapes(MOST_STATES), *cases_table.limits(rng)] if operation.quick else cases_table.limits(rng)
    for v in chain(shapes(120), largest):
        yield from of_shape(operation, rng, v)


def some_size(rng):
    return rng.randint(1, 12) if rng.random() < 0.985 else rng.randint(20, 90)


def some_table(rng, n):
    """Any table, or one whose states are like those of a smaller one."""
    if rng.random() < 0.5:
        return tables.random_table(rng, n)
    smaller = rng.randint(1, n)
    return tables.unfolded(rng, tables.random_table(rng, smaller, rng.choice((smaller, 2 * smaller))), n)


def sound(operation, rng):
    """A random sound case; columns exact or longer."""
    v = tables.lengthen(rng, completed(operation, rng, some_table(rng, some_size(rng))))
    return partitions.lengthen(rng, v) if takes_partition(operation) else v


def returning(operation):
    """12: a hidden cycle in a block of all states, so that the search may return to a state; room for its rows."""
    def fault(rng, v):
        before = v['m']
        tables.make_cycle(rng, v)
        order = list(range(v['n']))
        rng.shuffle(order)
        v |= {**laid_out(order, [(0, 0, v['n'])]), 'branching': 1}
        for slice in operation.changed:
            v[slice] = v[slice] + [9] * (v['m'] - before)
    return fault


def faults_of(operation):
    """What makes each refusal due, in an order in which all can be done."""
    faults = {**cases_table.FAULTS, 'bottom': returning(operation)}
    return [*(faults[thing] for thing in operation.takes), *cases_table.faults_of_table(operation)]


def values(operation, rng, number):
    yield from every_small(operation, rng)
    yield from cases_table.headers(operation, rng)
    yield from of_size(operation, rng)
    yield from cases_table.at_room(operation, rng)
    yield from cases_table.at_far_rows(operation, rng)
    if 'bottom' in operation.takes:
        yield from (with_slices(operation, rng, v) for v in far.without_bottom())
    yield from cases_table.every_short_slice(operation, rng)
    yield from cases_table.every_changed_field(operation, rng)
    faultless = lambda: sound(operation, rng)
    yield from (faultless() for _ in range(number))
    faults = faults_of(operation)
    yield from several(faultless, rng, faults, 10)
    yield from damaged(faultless, rng, faults, number // 2)


def cases(operation, rng, number):
    return (Case(operation, v) for v in values(operation, rng, number))
