"""Cases of the operations on a table: every small one, the limits, large ones, random ones, faulty ones."""
from itertools import product

import far
import given_lists
import partitions
import signatures
import splits
import tables
from cases_partition import small_size
from faults import above, damage, damaged, every_length, outside, several, shorten
from lines import Case, room
from operations import FLAG, STATE
from partitions import LARGEST, random_partition
from refusals import COLUMNS, GIVEN, MOST_LABELS, MOST_ROWS, MOST_STATES, ROWS
from splits import junk_cells, more

SMALL = ((1, 1), (1, 2), (2, 1), (2, 2), (3, 1))
# Of so many slices every length is tried together.
MOST_AT_ONCE = 6


def takes_partition(operation):
    return 'partition' in operation.takes


def argument_names(operation):
    """The flags and the start state."""
    return operation.of(FLAG, STATE)


def rows_to_ask(operation, rows):
    """The rows to ask from, where the operation takes one."""
    return [{'from': row} for row in rows] if 'from' in operation.takes else [{}]


def takes_lists(operation):
    return 'lists' in operation.takes


def signs(operation):
    return 'room' in operation.takes


def slices_besides(operation):
    """The result and work slices, keys, and the starts of given lists."""
    return [name for name in operation.lengths() if name not in ROWS + COLUMNS]


def lent(operation, rng, v):
    """Result and work slices for these values: mostly exact, with junk."""
    needed = {name: operation.lengths()[name](v) for name in slices_besides(operation) if name not in GIVEN}
    return {name: junk_cells(rng, v['n'], min(cells + more(rng), room(operation, name)))
            for name, cells in needed.items()}


def with_slices(operation, rng, v):
    """These values with given lists, where some are taken, and with result and work slices."""
    v = {**v, **given_lists.some(rng, v)} if takes_lists(operation) else v
    return {**v, **lent(operation, rng, v)}


def orderly_partitions(n):
    """Every partition whose blocks stand in the order of their positions."""
    return [v for v in partitions.every(n) if v['begin'][:v['count']] == sorted(v['begin'][:v['count']])]


def every_argument(operation, n):
    """Every flag, start state, partition and block."""
    if 'block' in operation.takes:
        return [{**v, 'block': block} for v in orderly_partitions(n) for block in range(v['count'])]
    if signs(operation):
        return signatures.every_argument(operation, n)
    return every_switch(operation, range(n))


def every_switch(operation, states):
    """Every flag, and each of these states."""
    choices = {name: (0, 1) if operation.parameters[name] == FLAG else states for name in argument_names(operation)}
    return [dict(zip(choices, chosen)) for chosen in product(*choices.values())]


def every_small(operation, rng):
    """Every table of a few states with every argument."""
    for n, labels in signatures.SMALL if signs(operation) else SMALL:
        arguments = every_argument(operation, n)
        for v, chosen in product(tables.every(n, labels), arguments):
            for row in rows_to_ask(operation, range(v['m'] + 1)):
                yield {**with_slices(operation, rng, {**v, **chosen}), **chosen, **row}


def arguments(operation, rng, v):
    """Flags, a start state, a row to ask from, a partition and a block, all in range."""
    chosen = {name: rng.randrange(2) for name in operation.of(FLAG)}
    if 'state' in operation.takes:
        chosen['state'] = rng.choice((0, v['initial'], rng.randrange(v['n'])))
    if 'from' in operation.takes:
        chosen['from'] = rng.choice((0, v['m'], rng.randint(0, v['m'])))
    if takes_partition(operation):
        chosen |= random_partition(rng, v['n'], rng.choice((None, min(2, v['n']), 1)))
    if 'block' in operation.takes:
        chosen |= {'block': splits.a_block(rng, chosen)}
    return chosen


def completed(operation, rng, v):
    """A sound case with this table."""
    return with_slices(operation, rng, {**v, **arguments(operation, rng, v)})


def sound(operation, rng):
    """A random sound case; columns exact or longer."""
    n = small_size(rng)
    number = signatures.number_of_rows(rng, n) if signs(operation) else None
    v = completed(operation, rng, tables.random_table(rng, n, number))
    tables.lengthen(rng, v)
    return partitions.lengthen(rng, v) if takes_partition(operation) else v


def every_header(v):
    """Each number of the header around its limits, alone and together."""
    numbers = {
        'n': (0, 1, 3, MOST_STATES, MOST_STATES + 1, LARGEST),
        'labels': (0, 1, 2, MOST_LABELS, MOST_LABELS + 1, LARGEST),
        'm': (0, 1, 2, 3, MOST_ROWS, MOST_ROWS + 1, LARGEST),
        'initial': (0, 2, 3, MOST_STATES, LARGEST),
    }
    for chosen in product(*numbers.values()):
        yield {**v, **dict(zip(numbers, chosen))}


def headers(operation, rng):
    return every_header(completed(operation, rng, tables.given(3, 2, [(0, 0, 1), (1, 1, 2)])))


def limits(rng):
    """Tables at the limits: no rows, as many as may be and one more, labels up to the last, the last initial state."""
    for n, labels in product((1, MOST_STATES), (1, MOST_LABELS)):
        yield tables.given(n, labels, [], n - 1)
        yield tables.given(n, labels, [(n - 1, labels - 1, n - 1)], 0)
    yield tables.full(rng, MOST_STATES)
    yield tables.full(rng, 100)
    over = tables.full(rng, MOST_STATES)
    tables.add_row(over, MOST_ROWS, (LARGEST, 0, 0))
    yield over
    yield {**tables.given(MOST_STATES, 1, []), 'n': MOST_STATES + 1}
    yield {**tables.given(MOST_STATES, 1, []), 'initial': MOST_STATES}


def large(rng):
    """Chains and stars of the greatest n, and random tables."""
    yield from (tables.chain(MOST_STATES, label, rising) for label, rising in product((0, 1), (True, False)))
    yield from (tables.star(MOST_STATES, labels, centre) for labels, centre in product((1, 2), (0, 7, MOST_STATES - 1)))
    for n in (700, 3000, MOST_STATES):
        yield from (tables.random_table(rng, n, number) for number in (n // 2, n, 2 * n))


def many_arguments(operation, rng, v):
    """Arguments for a large table: flags, states and rows at both ends; one block with little marked, and any."""
    if signs(operation):
        return [{**arguments(operation, rng, v), 'state': state} for state in {0, v['n'] - 1, v['initial']}]
    if not takes_partition(operation):
        ends = every_switch(operation, (0, v['n'] - 1))
        return [{**one, **row} for one, row in product(ends, rows_to_ask(operation, sorted({0, v['m'] // 2, v['m']})))]
    order, cuts = list(range(v['n'])), sorted({max(v['n'] - 1, 0), 0, v['n'], v['n'] // 2})
    rng.shuffle(order)
    whole = [{**partitions.laid_out(order, [(0, split, v['n'])]), 'block': 0} for split in cuts]
    return whole + [arguments(operation, rng, v) for _ in range(3)]


def of_size(operation, rng):
    """The limits and the large tables."""
    for v in (*limits(rng), *large(rng)):
        chosen = many_arguments(operation, rng, v)
        yield from (with_slices(operation, rng, {**v, **one}) for one in chosen)


def at_room(operation, rng):
    """The largest table with every slice as long as `replay` takes it, and with each slice one short."""
    v = completed(operation, rng, tables.full(rng, MOST_STATES))
    yield {**v, **{name: v[name] + [1] * (room(operation, name) - len(v[name])) for name in operation.lengths()}}
    yield from ({**v, name: v[name][:needed(v) - 1]} for name, needed in operation.lengths().items())


def at_far_rows(operation, rng):
    """The far places of the largest table, its states one by one in blocks; just below the greatest n, accepted."""
    v = tables.full(rng, MOST_STATES)
    v |= {**arguments(operation, rng, v), **(far.apart() if takes_partition(operation) else {})}
    v = with_slices(operation, rng, v)
    yield from far.at_rows(v)
    yield from far.at_bounds(operation, v)
    for n in (MOST_STATES - 2, MOST_STATES - 1):
        yield completed(operation, rng, tables.full(rng, n, rising=True))


def at_far_pairs(operation, rng):
    """The far places of given lists, and the most pairs with room for one less."""
    v = far.many_given(rng) if takes_lists(operation) else far.many_pairs()
    if takes_lists(operation):
        yield from ({**bad, **lent(operation, rng, bad)} for bad in far.at_lists(v))
    yield from far.one_short(operation, {**v, **lent(operation, rng, v)})


def every_short_slice(operation, rng):
    """The columns of rows and the slices besides at every length, some at a time."""
    v = completed(operation, rng, tables.given(2, 1, [(0, 0, 1), (1, 0, 1)]))
    names = [*ROWS, *slices_besides(operation)]
    for first in range(0, len(names), MOST_AT_ONCE):
        yield from every_length(operation, v, names[first:first + MOST_AT_ONCE])


def every_field(v):
    """Each field of the first three rows changed to each small number and the largest."""
    for column, place, number in product(ROWS, range(3), (0, 1, 2, 3, LARGEST)):
        yield {**v, column: [*v[column][:place], number, *v[column][place + 1:]]}


def every_changed_field(operation, rng):
    return every_field(completed(operation, rng, tables.given(3, 2, [(0, 0, 1), (0, 1, 0), (1, 0, 2)])))


def faults_of_table(operation):
    """What makes a refusal of the table or of a length due, in an order in which all can be done."""
    of_rows = [tables.order_broken, tables.field_outside, shorten(operation)]
    of_header = [outside('initial', 'n'), tables.rows_outside, tables.labels_outside, partitions.n_outside]
    return of_rows + of_header


# What makes faulty what an operation takes.
FAULTS = {'order': tables.make_cycle, 'lists': given_lists.disorder,
          'from': above('from', 'm'), 'state': outside('state', 'n'), 'block': outside('block', 'count'),
          'partition': damage}


def faults_of(operation):
    """What makes each refusal due, in such an order."""
    faults = {**FAULTS, 'room': signatures.little_room(operation)}
    return [*(faults[thing] for thing in operation.takes if thing in faults), *faults_of_table(operation)]


def values(operation, rng, number):
    yield from every_small(operation, rng)
    yield from headers(operation, rng)
    yield from of_size(operation, rng)
    yield from at_room(operation, rng)
    yield from at_far_rows(operation, rng)
    yield from every_short_slice(operation, rng)
    yield from every_changed_field(operation, rng)
    yield from (sound(operation, rng) for _ in range(number))
    if signs(operation):
        yield from at_far_pairs(operation, rng)
        yield from signatures.every_room(operation, lambda: sound(operation, rng), 400)
    if takes_lists(operation):
        yield from ({**v, **lent(operation, rng, v)} for v in given_lists.tried(rng))
    faults, faultless = faults_of(operation), lambda: sound(operation, rng)
    yield from several(faultless, rng, faults, 10 if takes_lists(operation) else 20)
    yield from damaged(faultless, rng, faults, number // 2)


def example(operation):
    """A sound case of the operation."""
    v = {**tables.given(4, 2, [(0, 0, 1), (1, 1, 2), (2, 0, 3)], 3), 'state': 2, 'from': 1}
    v |= dict.fromkeys(operation.of(FLAG), 1)
    v |= {**partitions.laid_out([2, 3, 0, 1], [(0, 1, 3), (3, 4, 4)]), 'block': 0}
    v |= given_lists.laid_flat([[(0, 1)], [], [(1, 0), (1, 1)], [(0, 1), (2, 0)]]) if takes_lists(operation) else {}
    v |= {name: [7] * operation.lengths()[name](v) for name in slices_besides(operation) if name not in GIVEN}
    return {name: v[name] for name in operation.parameters}


def cases(operation, rng, number):
    """A table's order is tried with more random cases than the rest."""
    number = number * 3 if 'order' in operation.takes else number
    return (Case(operation, v) for v in values(operation, rng, number))
