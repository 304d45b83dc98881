"""The strong reduction from document 01 alone: the greatest bisimulation by Park's definition, and 01's rounds.

The blocks come from the relation, the number of rounds from the rounds; that both give the same blocks is checked.
"""
from itertools import combinations

from plain import over, rows
from quotients import between, header, laid

# Up to so many states all pairs are tried; beyond it the blocks are those of the rounds.
MOST_IN_PAIRS = 48


def steps_of(n, table):
    """For each state its steps, each a label and a target."""
    steps = [[] for _ in range(n)]
    for source, label, target in table:
        steps[source].append((label, target))
    return steps


def answers(steps, related, one, other):
    """Whether each step of one has an equal-labelled step of the other, the targets again related."""
    return all(any(label == again and frozenset((target, match)) in related for again, match in steps[other])
               for label, target in steps[one])


def greatest_bisimulation(n, table):
    """All pairs, and of these each taken away whose steps are not answered, until nothing changes.

    What is left is a bisimulation, and every bisimulation is within it. A pair is a set, since the relation is
    symmetric; a state is always related to itself.
    """
    steps = steps_of(n, table)
    related = {frozenset(pair) for pair in combinations(range(n), 2)} | {frozenset((state,)) for state in range(n)}
    changing = True
    while changing:
        changing = False
        for one, other in combinations(range(n), 2):
            pair = frozenset((one, other))
            if pair in related and not (answers(steps, related, one, other) and answers(steps, related, other, one)):
                related.remove(pair)
                changing = True
    return related


def by_least_member(n, same):
    """The number of each state's block, blocks numbered by least member; `same` says whether two states share one."""
    numbers, count = [None] * n, 0
    for state in range(n):
        if numbers[state] is None:
            for other in range(state, n):
                if numbers[other] is None and same(state, other):
                    numbers[other] = count
            count += 1
    return numbers


def split(block, steps, block_of):
    """A block's states by their strong signatures."""
    parts = {}
    for state in block:
        signature = frozenset((label, block_of[target]) for label, target in steps[state])
        parts.setdefault(signature, []).append(state)
    return list(parts.values())


def rounds(n, table):
    """All states in one block; each round splits every block by signature under the partition that it begins with.

    The last partition, as a block for each state, and how many rounds split something.
    """
    steps, blocks, number = steps_of(n, table), [list(range(n))], -1
    while True:
        block_of = {state: index for index, block in enumerate(blocks) for state in block}
        parts, number = [part for block in blocks for part in split(block, steps, block_of)], number + 1
        if len(parts) == len(blocks):
            return block_of, number
        blocks = parts


def reduced(n, table):
    """The number of each state's block, and the number of rounds."""
    block_of, number = rounds(n, table)
    numbers = by_least_member(n, lambda one, other: block_of[one] == block_of[other])
    if n <= MOST_IN_PAIRS:
        related = greatest_bisimulation(n, table)
        by_park = by_least_member(n, lambda one, other: frozenset((one, other)) in related)
        assert numbers == by_park, f'the rounds and the greatest bisimulation differ on {table}'
    return numbers, number


def strong_reduction(v):
    numbers, number = reduced(v['n'], rows(v))
    left = between(rows(v), numbers, False, False)
    answer = [*header(v, max(numbers) + 1, left, numbers[v['initial']]), number]
    return answer, {**laid(v, left), 'state_blocks': over(numbers, v['state_blocks'])}
