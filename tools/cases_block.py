"""Cases of the operations on one block: every small one, the limits, random ones."""
from itertools import product

from lines import Case
from refusals import MOST_STATES

EDGES = (0, 1, 2, MOST_STATES - 1, MOST_STATES, MOST_STATES + 1, 65534, 65535)
EXAMPLE = {'begin': 1, 'marked_split': 2, 'end': 4}


def numbers(rng, width):
    """Numbers that lie close together, near the limits, or anywhere."""
    draw = rng.random()
    if draw < 0.6:
        return sorted(rng.randint(0, MOST_STATES + 4) for _ in range(width))
    if draw < 0.8:
        middle = rng.choice(EDGES)
        return [min(max(middle + rng.randint(-2, 2), 0), 65535) for _ in range(width)]
    return [rng.randint(0, rng.choice((8, MOST_STATES + 4, 65535))) for _ in range(width)]


def cases(operation, rng, number):
    """Every small block and every edge, and random ones until `number` of them can be expected to be sound."""
    width = len(operation.parameters)
    made = [*product(range(6), repeat=width), *product(EDGES, repeat=width)]
    for chosen in made:
        yield Case(operation, dict(zip(operation.parameters, chosen)))
    for _ in range(number * 8 // 5):
        yield Case(operation, dict(zip(operation.parameters, numbers(rng, width))))


def example(operation):
    """A sound case of the operation."""
    return {name: EXAMPLE[name] for name in operation.parameters}
