"""Cases of the operations on a partition: every small one, the limits, random sound ones, damaged ones."""
from itertools import product

import far
import partitions
from faults import damage, every_length, every_two, of_partition, shorten
from lines import Case
from operations import BYTES, ROOM
from partitions import LARGEST, copied, laid_out, lengthen, random_partition
from refusals import COLUMNS, MOST_STATES, shown


def argument_names(operation):
    """The parameters after the partition."""
    return [name for name in operation.parameters if name not in COLUMNS and name not in ('n', 'count')]


def rooms(v):
    """Room for the text: exact, one short, none, more with other bytes beyond."""
    needed = len(shown(v))
    return [[7] * needed, [0] * (needed - 1), [], [255] * (needed + 3)]


def every_argument(operation, v):
    """Every argument, the first that is out of range, and the largest number."""
    choices = []
    for name in argument_names(operation):
        kind = operation.parameters[name]
        choices.append(rooms(v) if kind == BYTES else [*range(v[kind.bound] + 1), LARGEST])
    for chosen in product(*choices):
        yield dict(zip(argument_names(operation), chosen))


def below(bound):
    """Makes a number below the bound."""
    return lambda rng, v: rng.randrange(v[bound])


def good_arguments(rng, operation, v):
    """Arguments in range for a sound partition."""
    chosen = {}
    for name in argument_names(operation):
        made = operation.made.get(name) or below(operation.parameters[name].bound)
        chosen[name] = made(rng, {**v, **chosen})
    return chosen


def bad_arguments(rng, operation, v, chosen):
    """The arguments with one or more out of range."""
    for name in argument_names(operation):
        kind = operation.parameters[name]
        if kind == BYTES:
            del chosen[name][rng.randrange(max(len(chosen[name]), 1)):]
        elif rng.random() < 0.7:
            bound = v[kind.bound]
            chosen[name] = rng.choice((bound, min(bound + 1, LARGEST), LARGEST, rng.randint(0, LARGEST)))
    return chosen


def small_size(rng):
    return rng.randint(1, 12) if rng.random() < 0.975 else rng.randint(50, 300)


def every_small(operation):
    """Every partition of up to three states with every argument."""
    for n in (1, 2, 3):
        for v in partitions.every(n):
            for chosen in every_argument(operation, v):
                yield {**v, **chosen}


def every_changed_cell(operation, rng):
    """Every partition of up to two states with one cell, n or count changed to each small number and the largest."""
    for n in (1, 2):
        for v in partitions.every(n):
            chosen = good_arguments(rng, operation, v)
            for name in ('n', 'count'):
                for number in (0, 1, 2, 3, LARGEST):
                    yield {**v, **chosen, name: number}
            for column, place, number in product(COLUMNS, range(n), (0, 1, 2, 3, LARGEST)):
                changed = copied(v)
                changed[column][place] = number
                yield {**changed, **chosen}


def every_short_column(operation, rng):
    """A partition with its columns at every length."""
    v = laid_out([1, 0], [(0, 1, 2)])
    return every_length(operation, {**v, **good_arguments(rng, operation, v)}, COLUMNS)


def every_two_faults(operation, rng):
    """A partition of two states with every two faults."""
    v = laid_out([1, 0], [(0, 1, 2)])
    v |= good_arguments(rng, operation, v)
    return every_two(v, of_partition(operation))


def large(operation, rng):
    """Partitions at the greatest n, and sums of lengths that would wrap."""
    for n, count in ((MOST_STATES, 1), (MOST_STATES, MOST_STATES), (MOST_STATES, 60), (MOST_STATES - 1, 2)):
        v = random_partition(rng, n, count)
        yield {**v, **good_arguments(rng, operation, v)}
    v = random_partition(rng, MOST_STATES, 7)
    for column in COLUMNS:
        v[column] += [LARGEST] * (ROOM - MOST_STATES)
    yield {**v, **good_arguments(rng, operation, v)}
    for v in (partitions.wrapped_sum(257, 257), partitions.wrapped_sum(MOST_STATES, 17)):
        yield {**v, **good_arguments(rng, operation, v)}
    v = random_partition(rng, MOST_STATES + 1, 3)
    yield {**v, **good_arguments(rng, operation, v)}
    if 'text' in operation.takes:
        yield {**random_partition(rng, 5), 'text': [9] * ROOM}


def at_far_blocks(operation, rng):
    """As many blocks as there may be: arguments at the first number out of range and the last in it; little room."""
    v = far.apart()
    v |= good_arguments(rng, operation, v)
    yield from far.at_bounds(operation, v)
    yield far.at_last(operation, v)
    if 'text' in operation.takes:
        v = far.apart(marked=True)
        yield from ({**v, 'text': [9] * (len(shown(v)) - less)} for less in (0, 1))


def sound(operation, rng, number):
    """Random sound partitions with arguments in range; columns exact or longer."""
    for _ in range(number):
        v = lengthen(rng, random_partition(rng, small_size(rng)))
        yield {**v, **good_arguments(rng, operation, v)}


def faults(rng):
    """Which faults a damaged case has: one of them, or several at once."""
    names = ('damage', 'damage', 'damage', 'short', 'arguments', 'n')
    return set(rng.sample(names, rng.choice((1, 1, 1, 1, 2, 2, 3, 6))))


def damaged(operation, rng, number):
    """Random sound cases with one fault or several."""
    for _ in range(number):
        v = random_partition(rng, small_size(rng))
        v = lengthen(rng, v) if rng.random() < 0.5 else v
        chosen, wrong = good_arguments(rng, operation, v), faults(rng)
        if 'arguments' in wrong:
            chosen = bad_arguments(rng, operation, v, chosen)
        if 'damage' in wrong:
            damage(rng, v)
        if 'short' in wrong:
            shorten(operation)(rng, v)
        if 'n' in wrong:
            partitions.n_outside(rng, v)
        yield {**v, **chosen}


def values(operation, rng, number):
    yield from every_small(operation)
    yield from every_changed_cell(operation, rng)
    yield from every_short_column(operation, rng)
    yield from every_two_faults(operation, rng)
    yield from large(operation, rng)
    yield from at_far_blocks(operation, rng)
    yield from sound(operation, rng, number)
    yield from damaged(operation, rng, number // 2)


def values_of_new(operation, rng, number):
    """`BlockPartition::new`: n and columns of any content."""
    for n, lengths in product((0, 1, 2), product((0, 1, 2, 3), repeat=6)):
        yield {'n': n, **{column: [LARGEST] * length for column, length in zip(COLUMNS, lengths)}}
    for n in (0, MOST_STATES - 1, MOST_STATES, MOST_STATES + 1, LARGEST):
        for length in (0, min(n, ROOM), ROOM):
            yield {'n': n, **{column: [n] * length for column in COLUMNS}}
    for index in range(number + number // 2):
        n = small_size(rng)
        v = {'n': n, **{column: [junk_cell(rng) for _ in range(n)] for column in COLUMNS}}
        lengthen(rng, v)
        if index >= number:
            rng.choice((shorten(operation), shorten(operation), partitions.n_outside))(rng, v)
        if index >= number and rng.random() < 0.2:
            partitions.n_outside(rng, v)
        yield v


def junk_cell(rng):
    return rng.choice((0, 1, LARGEST, rng.randint(0, LARGEST)))


def example(operation):
    """A sound case of the operation."""
    v = laid_out([2, 3, 0, 1], [(0, 2, 3), (3, 4, 4)])
    chosen = {name: [7] * 20 if operation.parameters[name] == BYTES else 1 for name in argument_names(operation)}
    return {**v, **chosen}


def cases(operation, rng, number):
    return (Case(operation, v) for v in globals()[operation.values](operation, rng, number))
