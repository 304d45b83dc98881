"""What the signatures of a state take beside the table: a partition, a state, keys, and room for the pairs."""
from itertools import product

import partitions
from refusals import RESULT

# States and labels of the tables that are tried with every argument.
SMALL = ((1, 1), (1, 2), (2, 1), (2, 2))


def number_of_rows(rng, n):
    """As many rows as any table has, or so many that each state pushes a lot of pairs."""
    return rng.choice((None, None, 8 * n))


def every_argument(operation, n):
    """Every partition and state; where there are keys, every two of them."""
    every = [{**v, 'state': state} for v, state in product(partitions.every(n), range(n))]
    if 'keys' not in operation.takes:
        return every
    return [{**v, 'state_to_key': list(keys)} for v, keys in product(every, product((0, 2), repeat=n))]


def little_room(operation):
    """16: room for one pair less than is pushed, for the distinct ones alone, for any fewer, or for none."""
    def fault(rng, v):
        pairs = operation.pushes(v)
        lengths = (max(len(pairs) - 1, 0), len(set(pairs)), rng.randrange(max(len(pairs), 1)), 0)
        for column in rng.choice((RESULT, RESULT[:1], RESULT[1:])):
            del v[column][rng.choice(lengths):]
    return fault


def every_room(operation, sound, number):
    """Random sound cases, each with room for the pairs pushed, one less, one more, the distinct ones and none."""
    for _ in range(number):
        v = sound()
        pairs = operation.pushes(v)
        lengths = sorted({len(pairs), max(len(pairs) - 1, 0), len(pairs) + 1, len(set(pairs)), 0})
        for chosen in product(lengths, repeat=len(RESULT)):
            yield {**v, **{column: [9] * length for column, length in zip(RESULT, chosen)}}
