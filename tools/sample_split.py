"""The sample's part for the operations that split a block: each easy error is told apart by a case."""
import cases_bad
import cases_split
from lines import Case
from operations import BY_NAME
from partitions import LARGEST, laid_out

DIVIDE, SPLIT = BY_NAME['partition_marked_with'], BY_NAME['split_marked']
# Stands where nothing is read.
X = LARGEST

# Three blocks in another order than positions, each with another kind of marks; junk in unused block cells.
THREE = laid_out([6, 4, 0, 5, 2, 3, 1], [(5, 5, 7), (1, 3, 5), (0, 1, 1)], 9)
# Two blocks, the first with marked states in falling order.
TWO = laid_out([4, 5, 3, 2, 1, 0], [(1, 3, 6), (0, 0, 1)], X)

# Words, the partition, the block, and the number of each state.
DIVIDED = (
    ('P1', laid_out(range(4), [(0, 0, 4)]), 0, [0, 1, 1, 0]),
    ('P2', laid_out([2, 3, 0, 1], [(0, 2, 4)]), 0, [1, 0, X, X]),
    ('all equal, nothing unmarked: sorted and unmarked', laid_out([3, 1, 2, 0], [(0, 0, 4)]), 0, [0, 0, 0, 0]),
    ('all equal, something unmarked', laid_out([3, 1, 2, 0], [(0, 2, 4)]), 0, [0, X, 0, X]),
    ('all different, rising', laid_out([2, 0, 3, 1], [(0, 0, 4)]), 0, [0, 1, 2, 3]),
    ('all different, falling', laid_out([2, 0, 3, 1], [(0, 0, 4)]), 0, [3, 2, 1, 0]),
    ('equal numbers keep the order of the states', laid_out([5, 4, 3, 2, 1, 0], [(0, 0, 6)]), 0, [1, 0, 1, 0, 1, 0]),
    ('the first of three is largest', laid_out([3, 2, 1, 0], [(0, 0, 4)]), 0, [0, 2, 0, 1]),
    ('the second of three is largest', laid_out([3, 2, 1, 0], [(0, 0, 4)]), 0, [1, 2, 1, 0]),
    ('the last of three is largest', laid_out([3, 2, 1, 0], [(0, 0, 4)]), 0, [2, 1, 2, 0]),
    ('first and second are equal', laid_out([0, 2, 4, 1, 3], [(0, 0, 5)]), 0, [0, 1, 2, 1, 0]),
    ('first and last are equal', laid_out([0, 2, 4, 1, 3], [(0, 0, 5)]), 0, [0, 2, 1, 2, 0]),
    ('second and last are equal', laid_out([0, 2, 4, 1, 3], [(0, 0, 5)]), 0, [1, 2, 0, 2, 1]),
    ('unmarked and the first are equal', laid_out([0, 2, 4, 1, 3], [(0, 2, 5)]), 0, [X, 0, X, 1, 0]),
    ('unmarked and the last are equal', laid_out([0, 2, 4, 1, 3], [(0, 2, 5)]), 0, [X, 1, X, 0, 1]),
    ('unmarked is largest and keeps the index', laid_out([0, 2, 4, 1, 3], [(0, 3, 5)]), 0, [X, 1, X, 0, X]),
    ('unmarked is least and gives the index up', laid_out([4, 2, 0, 1, 3], [(0, 1, 5)]), 0, [1, 0, 1, 1, X]),
    ('unmarked and one state, equal', laid_out([1, 0], [(0, 1, 2)]), 0, [0, X]),
    ('one state: its number is not read', laid_out([0], [(0, 0, 1)]), 0, [X]),
    ('one state among others', TWO, 1, [1, X, X, X, X, X]),
    ('two blocks, something unmarked', TWO, 0, [1, 1, 0, X, X, X]),
    ('as many blocks as states', laid_out([1, 2, 0], [(2, 2, 3), (0, 0, 1), (1, 2, 2)]), 1, [X, X, X]),
    ('three blocks, the first', THREE, 0, [X, 1, X, 0, X, X, X]),
    ('three blocks, the second', THREE, 1, [X, X, 1, X, X, 0, X]),
)

# Words, the partition, the block, and the byte of each state.
CHOSEN = (
    ('P3', laid_out(range(3), [(0, 0, 3)]), 0, [1, 0, 0]),
    ('P4', laid_out(range(3), [(0, 0, 3)]), 0, [1, 1, 1]),
    ('all chosen of four: marks stay, swaps stay', laid_out([3, 1, 0, 2], [(0, 0, 4)]), 0, [255, 1, 2, 128]),
    ('nothing chosen: marks stay', laid_out([2, 0, 1], [(0, 0, 3)]), 0, [0, 0, 0]),
    ('nothing chosen, something unmarked', laid_out([2, 0, 1], [(0, 1, 3)]), 0, [0, 0, 9]),
    ('all that is marked is chosen, something unmarked', laid_out([2, 0, 1], [(0, 1, 3)]), 0, [1, 1, 0]),
    ('nothing marked: bytes are not read', laid_out([2, 0, 1], [(0, 3, 3)]), 0, [1, 1, 1]),
    ('the last chosen', laid_out(range(4), [(0, 0, 4)]), 0, [0, 0, 0, 255]),
    ('two chosen side by side', laid_out(range(4), [(0, 0, 4)]), 0, [1, 1, 0, 0]),
    ('the one swapped in is chosen too', laid_out(range(5), [(0, 0, 5)]), 0, [1, 0, 0, 0, 1]),
    ('every other one', laid_out([5, 3, 1, 0, 2, 4], [(0, 1, 6)]), 0, [0, 1, 0, 1, 0, 1]),
    ('one state, chosen', laid_out([0], [(0, 0, 1)]), 0, [1]),
    ('one state, not chosen', laid_out([0], [(0, 0, 1)]), 0, [0]),
    ('two blocks, bytes of the other one not read', TWO, 0, [1, 0, 0, 1, 1, 1]),
    ('as many blocks as states', laid_out([1, 2, 0], [(2, 2, 3), (0, 0, 1), (1, 2, 2)]), 1, [1, 1, 1]),
    ('three blocks, the first', THREE, 0, [1, 1, 1, 0, 1, 1, 1]),
    ('three blocks, the second, all that is marked', THREE, 1, [0, 0, 1, 0, 0, 1, 0]),
)


def works(n):
    return {'old_elements': [9] * (n + 1), 'block_sizes': [X] * (n + 1), 'spare': [0] * n + [1]}


def case(operation, v, block, cells):
    """A case of either operation: the cells are numbers or bytes."""
    if 'numbers' in operation.takes:
        return Case(operation, {**v, 'block': block, 'numbers': cells, **works(v['n'])})
    return Case(operation, {**v, 'block': block, 'choice': cells})


def of_length(operation, values):
    """Every slice longer than it need be; each slice one short; n outside."""
    yield f'# {operation.name}: slices longer, one short; n outside its range'
    yield Case(operation, {**values, **{name: values[name] + [7, 0, 3] for name in operation.needs}})
    for name, needed in operation.needs.items():
        yield Case(operation, {**values, name: values[name][:needed(values) - 1]})
    yield from (Case(operation, {**values, 'n': n}) for n in (0, 4097, X))


def of_order(operation, values):
    """Faults in the order in which 01 ranks them, the first taken away each time."""
    last = list(operation.needs)[-1]
    broken = {'elements': [values['elements'][1], *values['elements'][1:]]}
    faults = [{'n': 4097}, {last: values[last][:values['n'] - 1]}, broken, {'block': X}]
    if 'numbers' in operation.takes:
        faults += [{'marked_split': values['end']}, {'numbers': [X] * values['n']}]
    yield f'# {operation.name}: a damaged partition, a block out of range, several faults at once'
    yield from (Case(operation, {**values, **fault}) for fault in (broken, {'end': [7] * 7}))
    yield from (Case(operation, {**values, 'count': count}) for count in (0, values['n'] + 1, X))
    yield from (Case(operation, {**values, 'block': block}) for block in (values['count'], X))
    for first in range(len(faults)):
        wrong = {}
        for fault in faults[first:]:
            wrong |= fault
        yield Case(operation, {**values, **wrong})


def of_numbers():
    """9 and 10."""
    v = laid_out([4, 1, 3, 0, 2], [(3, 4, 5), (0, 0, 3)], X)
    unmarked = laid_out([1, 0, 2], [(0, 2, 2), (2, 3, 3)])
    yield '# partition_marked_with: nothing marked, in a block of two and of one, whatever the numbers'
    yield from (case(DIVIDE, unmarked, block, [X, X, X]) for block in (0, 1))
    yield '# partition_marked_with: numbers that are not dense'
    for numbers in ([X, 0, X, X, X], [X, 1, X, 1, 1], [X, 0, X, 0, 2], [X, 2, X, 3, 1], [X, 0, X, 1, 3],
                    [X, 3, X, 3, 0], [X, 256, X, 0, 1]):
        yield case(DIVIDE, v, 1, numbers)
    yield '# partition_marked_with: one state marked of two, number 1'
    yield case(DIVIDE, v, 0, [1, 0, 1, 0, 0])


def of_size():
    """More blocks than a byte counts, and blocks of more states than that."""
    n = 300
    v = laid_out([7 * place % n for place in range(n)], [(0, 1, n)])
    yield '# partition_marked_with: 300 states, all numbers different and falling, then three numbers'
    yield case(DIVIDE, v, 0, [X, *range(n - 2, -1, -1)])
    yield case(DIVIDE, v, 0, [state % 3 for state in range(n)])
    yield '# split_marked: 300 states, every other one chosen'
    yield case(SPLIT, v, 0, [state % 2 for state in range(n)])


def of_divide():
    for words, v, block, numbers in DIVIDED:
        yield f'# partition_marked_with: {words}'
        yield case(DIVIDE, v, block, numbers)
    values = case(DIVIDE, THREE, 1, [X, X, 1, X, X, 0, X]).values
    yield from of_length(DIVIDE, values)
    yield from of_order(DIVIDE, values)
    yield from of_numbers()


def of_split():
    for words, v, block, choice in CHOSEN:
        yield f'# split_marked: {words}'
        yield case(SPLIT, v, block, choice)
    values = case(SPLIT, THREE, 1, [0, 0, 1, 0, 0, 0, 0]).values
    yield from of_length(SPLIT, values)
    yield from of_order(SPLIT, values)


def of(operation):
    return of_divide() if 'numbers' in operation.takes else of_split()


def of_no_case():
    """A word too few, a word too many, and a cell that is too large in the last slice."""
    for operation in (DIVIDE, SPLIT):
        lines = list(cases_bad.cases(operation, cases_split.example(operation)))
        yield from (lines[0], lines[2], lines[-1])
