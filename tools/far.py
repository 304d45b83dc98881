"""Cases whose refusals lie at the far places: the last rows, states, blocks and pairs, and the largest room, one short.

Each is made of a sound case, or is one without the result and work slices. They are large, so there are few.
"""
import given_lists
import tables
from partitions import LARGEST, laid_out
from refusals import GIVEN, MOST_ROWS, MOST_STATES, ROWS

N = MOST_STATES
MIDDLE, LAST = MOST_ROWS // 2, MOST_ROWS - 1


def outside(v, place, column):
    """A field of a row that is just out of range."""
    bound = {'source': 'n', 'label': 'labels', 'target': 'n'}[column]
    return {**v, column: [*v[column][:place], v[bound], *v[column][place + 1:]]}


def again(v, place):
    """A row that is the one before."""
    return {**v, **{column: [*v[column][:place], v[column][place - 1], *v[column][place + 1:]] for column in ROWS}}


def below(v, place):
    """A row that starts with 0, where those before do not."""
    return {**v, 'source': [*v['source'][:place], 0, *v['source'][place + 1:]]}


def at_rows(v):
    """A table of 8,192 rows: 5 and 6 in the first rows, the middle one and the last; both in one row, and in two."""
    for place, column in ((0, 'source'), (1, 'label'), (MIDDLE, 'target'), *((LAST, column) for column in ROWS)):
        yield outside(v, place, column)
    yield from (again(v, place) for place in (1, MIDDLE, LAST))
    yield outside(below(v, LAST), LAST, 'label')
    yield outside(again(v, MIDDLE), LAST, 'target')
    yield again(outside(v, MIDDLE, 'label'), LAST)


def at_bounds(operation, v):
    """8: each argument at the first number out of range."""
    bounded = {name: kind for name, kind in operation.parameters.items() if kind.bound}
    return ({**v, name: v[kind.bound] + kind.itself} for name, kind in bounded.items())


def at_last(operation, v):
    """All arguments at the last number in range."""
    bounded = {name: kind for name, kind in operation.parameters.items() if kind.bound}
    return {**v, **{name: v[kind.bound] + kind.itself - 1 for name, kind in bounded.items()}}


def one_short(operation, v):
    """16: each result with room for one less than is needed."""
    return ({**v, name: [9] * (needed(v) - 1)} for name, needed in operation.rooms.items())


def apart(marked=False):
    """As many blocks as states, with nothing marked or everything."""
    return laid_out(range(N), [(state, state + (not marked), state + 1) for state in range(N)])


def many_pairs():
    """All rows leave state 0, so that it has as many pairs as there may be rows."""
    rows = [(0, label, target) for label in (1, 2) for target in range(N)]
    return {**tables.given(N, 3, rows, N - 1), **laid_out(range(N), [(0, 5, 9), (9, 9, N)]), 'state': 0}


def many_given(rng):
    """Hidden steps to all states of the block, each with 17 given pairs."""
    return {**given_lists.fan(N, 0, 5), **given_lists.laid_flat(given_lists.spread(rng, N, 17, 'rising'))}


def at_lists(v):
    """15: the last start past the end, the last pair like the one before, and both."""
    starts = {'starts': [*v['starts'][:-1], v['starts'][-1] + 1]}
    pairs = {name: [*v[name][:-1], v[name][-2]] for name in GIVEN[1:]}
    return ({**v, **starts}, {**v, **pairs}, {**v, **pairs, **starts})


def without_bottom():
    """12: of 2,048 blocks of two states the last has no bottom state, or the middle one too, or the first."""
    partition = laid_out(range(N), [(place, place, place + 2) for place in range(0, N, 2)])
    for blocks in ((N - 2,), (N // 2, N - 2), (0, N - 2)):
        rows = [row for state in blocks for row in ((state, 0, state + 1), (state + 1, 0, state))]
        yield {**tables.given(N, 1, rows, 0), **partition, 'branching': 1, 'eliminate_tau_loops': 0}


def numbered():
    """9 and 10: the last block, with nothing marked; all states marked, with every number but the last.

    Each is a partition, a block, and the numbers of its marked states.
    """
    yield {**apart(), 'block': N - 1}, []
    yield {**laid_out(range(N), [(0, 0, N)]), 'block': 0}, [*range(N - 1), LARGEST]
