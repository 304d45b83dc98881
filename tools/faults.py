"""Faulty cases: a sound case with one fault, or with several at once. A fault changes the values of a case."""
from itertools import chain, combinations, product

from operations import BYTES, RECORDS
from partitions import DAMAGES, LARGEST, copied
from refusals import COLUMNS, MOST_STATES


def faulty(sound, rng, wrong):
    """A sound case with these faults."""
    v = copied(sound())
    for fault in wrong:
        fault(rng, v)
    return v


def several(sound, rng, faults, times=30):
    """Every set of faults, so many times. The faults stand in an order in which all can be done."""
    sets = chain.from_iterable(combinations(faults, size) for size in range(len(faults) + 1))
    for wrong, _ in product(sets, range(times)):
        yield faulty(sound, rng, wrong)


def damaged(sound, rng, faults, number):
    """Random cases with one fault, or with two."""
    for _ in range(number):
        first, second = rng.sample(range(len(faults)), 2)
        both = [faults[place] for place in sorted((first, second))]
        yield faulty(sound, rng, both if rng.random() < 0.2 else [faults[first]])


def every_two(v, changes):
    """A sound case with every two of the changes; a change is a parameter, and what is made of its value."""
    for (one, first), (other, second) in combinations(changes, 2):
        changed = {**v, one: first(v[one])}
        yield {**changed, other: second(changed[other])}


def to(number):
    """Makes any value this number."""
    return lambda value: number


def first_wrong(cells):
    return [LARGEST, *cells[1:]]


def last_gone(cells):
    return cells[:-1]


def of_partition(operation):
    """Changes of a partition of two states and of what is taken with it, each of which is wrong whatever the others do:
    arguments, of different values; no room; the count, and a cell of each column; a slice too short; n."""
    bounded = [name for name, kind in operation.parameters.items() if kind.bound]
    arguments = [(name, to(LARGEST - place)) for place, name in enumerate(bounded)]
    rooms = [(name, lambda room: []) for name in operation.changed if operation.parameters.get(name) == BYTES]
    damages = [('count', to(0)), *((column, first_wrong) for column in COLUMNS)]
    short = [(name, last_gone) for name in operation.needs]
    return [*arguments, *rooms, *damages, *short, ('n', to(MOST_STATES + 1)), ('n', to(0))]


def outside(argument, bound):
    """A state or block argument at its bound, past it, or far past it."""
    def fault(rng, v):
        v[argument] = rng.choice((v[bound], min(v[bound] + 1, LARGEST), LARGEST))
    return fault


def above(argument, bound):
    """A row argument just above its bound, or far above it."""
    def fault(rng, v):
        v[argument] = rng.choice((min(v[bound] + 1, LARGEST), LARGEST))
    return fault


def damage(rng, v):
    """14: any damage of the partition."""
    rng.choice(DAMAGES)(rng, v)


def shorten(operation):
    """7: one slice, or several, one short, empty, or anything between."""
    def fault(rng, v):
        names = list(operation.needs)
        for name in rng.sample(names, rng.choice((1, 1, 1, 2, len(names)))):
            needed = max(operation.needs[name](v), 1)
            del v[name][rng.choice((needed - 1, 0, rng.randrange(needed))):]
    return fault


def every_length(operation, v, names):
    """These slices exact, one short, empty, or one longer, in all combinations."""
    for changes in product((0, -1, None, 1), repeat=len(names)):
        needed = {name: operation.lengths()[name](v) for name in names}
        lengths = {name: 0 if change is None else needed[name] + change for name, change in zip(names, changes)}
        more = {name: [(1, 1, 1)] if operation.parameters[name] == RECORDS else [1] for name in names}
        yield {**v, **{name: (v[name] + more[name])[:length] for name, length in lengths.items()}}
