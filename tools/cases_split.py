"""Cases of the operations that split a block: every small one, equal sizes, the limits, random ones, faulty ones."""
from itertools import chain, product

import far
import partitions
import splits
from cases_partition import (every_changed_cell, every_short_column, every_two_faults, good_arguments, large,
                             small_size, sound)
from faults import damage, damaged, every_length, outside, several, shorten
from lines import Case
from operations import ROOM
from partitions import LARGEST, laid_out, lengthen, random_partition, random_split
from refusals import COLUMNS, MOST_STATES, WORK, marked
from splits import junk_bytes, junk_cells, put


def works(rng, n):
    """Work slices of exact length, with junk."""
    return {slice: junk_cells(rng, n, n + 1) for slice in WORK}


def with_numbers(rng, v, numbers):
    """The case in which the block's marked states, ascending, have these numbers; the others have junk."""
    return {**v, 'numbers': put(junk_cells(rng, v['n'], v['n']), sorted(marked(v)), numbers), **works(rng, v['n'])}


def with_choice(rng, v, cells):
    """The case in which the block's marked states, in the order of the elements, have these bytes; junk for others."""
    return {**v, 'choice': put(junk_bytes(rng, v['n']), marked(v), cells)}


def every_numbering(rng, v):
    """Up to three states: all numbers up to 3 and the largest. Four: all that are dense, and junk for one alone."""
    size = len(marked(v))
    if v['n'] <= 3:
        return product((0, 1, 2, 3, LARGEST), repeat=size)
    alone = v['end'][v['block']] - v['begin'][v['block']] == 1
    return [junk_cells(rng, v['n'], size)] if alone else splits.dense_numberings(size)


def every_choice(rng, v):
    """Up to three states: all of 0, 1 and 255. Four: chosen or not, by 1 or by another byte."""
    return product((0, 1, 255) if v['n'] <= 3 else (0, rng.choice((1, 1, 2, 255))), repeat=len(marked(v)))


def every_small(operation, rng):
    """Every partition of up to four states with every block, and every numbering or choice of what is marked."""
    every, made = (every_choice, with_choice) if 'choice' in operation.takes else (every_numbering, with_numbers)
    for n in (1, 2, 3, 4):
        for v in partitions.every(n):
            for block in range(v['count']):
                v['block'] = block
                yield from (made(rng, v, cells) for cells in every(rng, v))


def every_block_outside(operation, rng):
    """Every partition of up to three states with a block of the count, and the largest number."""
    for n in (1, 2, 3):
        for v in partitions.every(n):
            chosen = good_arguments(rng, operation, v)
            yield from ({**v, **chosen, 'block': outside} for outside in (v['count'], LARGEST))


def every_size(rng):
    """Up to three unmarked states, then up to four numbers of one to three states each: equal sizes in each place."""
    for unmarked, most in product(range(4), (1, 2, 3, 4)):
        for sizes in product((1, 2, 3), repeat=most):
            numbers = [number for number, size in enumerate(sizes) for _ in range(size)]
            rng.shuffle(numbers)
            yield with_numbers(rng, among_blocks(rng, unmarked, len(numbers)), numbers)


def among_blocks(rng, unmarked, size):
    """A block of so many unmarked and so many marked states, with other blocks before it, after it, or none."""
    begin, after = rng.randint(0, 2), rng.randint(0, 2)
    end = begin + unmarked + size
    block, order = (begin, begin + unmarked, end), list(range(end + after))
    others = [(first, random_split(rng, first, last), last) for first, last in ((0, begin), (end, end + after))
              if first < last]
    blocks = [block, *others]
    rng.shuffle(blocks)
    rng.shuffle(order)
    return {**laid_out(order, blocks, rng.choice((0, LARGEST))), 'block': blocks.index(block)}


def every_short_slice(operation, rng):
    """The slices besides the columns at every length."""
    v = laid_out([1, 0], [(0, 1, 2)])
    v |= good_arguments(rng, operation, v)
    return every_length(operation, v, [name for name in operation.needs if name not in COLUMNS])


def at_limit(operation, rng):
    """One block of the greatest n, marked from its begin, from the next state, from the middle: orderly arguments."""
    for split in (0, 1, MOST_STATES // 2):
        order = list(range(MOST_STATES))
        rng.shuffle(order)
        v, size = {**laid_out(order, [(0, split, MOST_STATES)]), 'block': 0}, MOST_STATES - split
        places = range(size)
        if 'choice' in operation.takes:
            choices = ([0] * size, [255] * size, [1, 0] * size, [1, *[0] * size], [*[0] * (size - 1), 1])
            yield from (with_choice(rng, v, cells) for cells in choices)
        else:
            numbers = (places, places[::-1], [0] * size, [place % 2 for place in places],
                       [place // 64 for place in places], [place + 1 for place in places])
            yield from (with_numbers(rng, v, cells) for cells in numbers)


def at_room(operation, rng):
    """The greatest n with every slice as long as `replay` takes it, and with each slice one short."""
    v = random_partition(rng, MOST_STATES, 3)
    v |= good_arguments(rng, operation, v)
    yield {**v, **{name: v[name] + [1] * (ROOM - len(v[name])) for name in operation.needs}}
    yield from ({**v, name: v[name][:needed(v) - 1]} for name, needed in operation.needs.items())


def at_far_blocks(operation, rng):
    """The far places: a block and a number of the greatest n."""
    v = far.apart(marked=True)
    v |= good_arguments(rng, operation, v)
    yield from far.at_bounds(operation, v)
    yield far.at_last(operation, v)
    if 'numbers' in operation.takes:
        yield from (with_numbers(rng, v, numbers) for v, numbers in far.numbered())


def faults_of(operation):
    """What makes each refusal due, in an order in which all can be done."""
    numbers = [splits.make_gap, splits.unmark] if 'numbers' in operation.takes else []
    return [*numbers, outside('block', 'count'), damage, shorten(operation), partitions.n_outside]


def some_sound(operation, rng):
    """A random sound case."""
    v = random_partition(rng, small_size(rng))
    v = lengthen(rng, v) if rng.random() < 0.5 else v
    return {**v, **good_arguments(rng, operation, v)}


def values(operation, rng, number):
    yield from every_small(operation, rng)
    yield from every_block_outside(operation, rng)
    yield from chain.from_iterable(every_size(rng) for _ in range(5) if 'numbers' in operation.takes)
    yield from every_changed_cell(operation, rng)
    yield from every_short_column(operation, rng)
    yield from every_short_slice(operation, rng)
    yield from every_two_faults(operation, rng)
    yield from large(operation, rng)
    yield from at_limit(operation, rng)
    yield from at_room(operation, rng)
    yield from at_far_blocks(operation, rng)
    yield from sound(operation, rng, number)
    faults, faultless = faults_of(operation), lambda: some_sound(operation, rng)
    yield from several(faultless, rng, faults)
    yield from damaged(faultless, rng, faults, number // 2)


def example(operation):
    """A sound case of the operation."""
    v = {**laid_out([2, 3, 0, 1], [(0, 1, 3), (3, 4, 4)]), 'block': 0}
    arguments = {'numbers': [1, 9, 9, 0], 'choice': [1, 9, 9, 0], **{slice: [7] * 5 for slice in WORK}}
    return {**v, **{name: value for name, value in arguments.items() if name in operation.parameters}}


def cases(operation, rng, number):
    return (Case(operation, v) for v in values(operation, rng, number))
