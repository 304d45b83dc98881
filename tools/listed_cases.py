"""The cases of absence and of limit that the sample must have: for some operations, words, the outcome, and a test."""
from functools import cached_property
from itertools import product
from typing import Callable, NamedTuple

from operations import BLOCK, BY_NAME, FLAG, INDEX, RECORDS, ROOM, STATE
from refusals import COLUMNS, MOST_LABELS, MOST_ROWS, MOST_STATES, RESULT, ROWS, shown

LARGEST = 65535


class Listed(NamedTuple):
    words: str
    outcome: str  # `done`, or `refused` and the number
    test: Callable  # whether a case's values are this case; of a slice, if it is to be there for several
    only: tuple = ()  # the operations that can have it, where not all of the section can
    each: tuple = ()  # the slices for each of which there is to be such a case


class Section(NamedTuple):
    title: str
    operations: tuple
    cases: tuple


class Values(dict):
    """The values of a case, with the operation that takes them; a list of block records is there as columns too."""

    def __init__(self, operation, values):
        super().__init__(values)
        self.operation = operation
        for records in operation.of(RECORDS):
            self.update({field: [record[place] for record in values[records]] for place, field in enumerate(BLOCK)})

    @cached_property
    def rooms(self):
        """For each slice whose shortness is 16 the cells needed."""
        if 'text' in self.operation.takes:
            return {'text': len(shown(self))}
        return {slice: cells(self) for slice, cells in self.operation.rooms.items()}


def rows(v):
    return list(zip(*(v[column][:v['m']] for column in ROWS)))


def blocks(v):
    """The blocks of a partition, each (begin, marked_split, end)."""
    return list(zip(*(v[column] for column in COLUMNS[3:])))[:v['count']]


def argument(v, kind):
    """The first argument of this kind."""
    return v[v.operation.of(kind)[0]]


def block(v):
    """The block that is given, or that of the state that is."""
    number = argument(v, INDEX) if v.operation.of(INDEX) else v['element_to_block'][argument(v, STATE)]
    return blocks(v)[number]


def size(v):
    """The states of that block."""
    begin, _, end = block(v)
    return end - begin


def marked(v):
    """The marked ones of them."""
    begin, split, end = block(v)
    return v['elements'][split:end]


def numbers(v):
    """The numbers that the marked states are given."""
    return {v['numbers'][state] for state in marked(v)}


def chosen(v):
    """The marked states that are chosen."""
    return [state for state in marked(v) if v['choice'][state]]


def empty(v, names):
    return all(not v[name] for name in names)


def outside(name, number, refusal):
    return Listed(f'{name} = {number:,}', f'refused {refusal}', lambda v: v[name] == number)


def beyond(v):
    """The arguments that are out of the ranges of their kinds."""
    bounded = ((name, kind) for name, kind in v.operation.parameters.items() if kind.bound)
    return [name for name, kind in bounded if v[name] >= v[kind.bound] + kind.itself]


def taking(operations, wanted):
    """For each thing that an operation wants, of those that are named, the operations that do; none if all do."""
    found = {}
    for name in operations:
        for thing in wanted(BY_NAME[name]):
            found.setdefault(thing, []).append(name)
    return {thing: () if len(names) == len(operations) else tuple(names) for thing, names in found.items()}


def arguments(operations):
    """8: each argument just out of range, and the largest number, the other arguments in range."""
    bounded = taking(operations, lambda operation: [item for item in operation.parameters.items() if item[1].bound])
    for (name, kind), only in bounded.items():
        def is_bound(v, name=name, kind=kind):
            return beyond(v) == [name] and v[name] == v[kind.bound] + kind.itself

        def is_largest(v, name=name):
            return beyond(v) == [name] and v[name] == LARGEST

        bound = f'{kind.bound} + 1' if kind.itself else kind.bound
        yield Listed(f'{name} = {bound}, just out of range', 'refused 8', is_bound, only)
        yield Listed(f'{name} = 65,535', 'refused 8', is_largest, only)


def flags(operations):
    """Each way to set the flags, on a table that has rows."""
    for names, only in taking(operations, lambda operation: [tuple(operation.of(FLAG))]).items():
        for chosen in product((0, 1), repeat=len(names)) if names else ():
            def are_chosen(v, names=names, chosen=chosen):
                return v['m'] > 0 and tuple(v[name] for name in names) == chosen

            yield Listed(', '.join(f'{name} {value}' for name, value in zip(names, chosen)), 'done', are_chosen, only)


# How many blocks there are.
COUNTS = (
    Listed('one block', 'done', lambda v: v['count'] == 1 < v['n']),
    Listed('as many blocks as states', 'done', lambda v: v['count'] == v['n'] > 1),
    Listed('the most blocks, 4,096', 'done', lambda v: v['count'] == MOST_STATES),
    Listed('no block', 'refused 14', lambda v: v['count'] == 0),
    Listed('a block more than states', 'refused 14', lambda v: v['count'] == v['n'] + 1),
    outside('count', LARGEST, 14),
)
ONE_STATE = Listed('one state, no rows', 'done', lambda v: (v['n'], v['m']) == (1, 0))
NO_ROWS = Listed('no rows', 'done', lambda v: v['n'] > 1 and v['m'] == 0)


def nothing_marked(v):
    return all(split == end for _, split, end in blocks(v))


def all_marked(v):
    return all(split == begin for begin, split, _ in blocks(v))


def alone(v, is_marked):
    return v['n'] == 1 and blocks(v) == [(0, 0 if is_marked else 1, 1)]


NUMBERS = (
    Section('One block, by its bounds', ('Block::new', 'Block::new_unmarked'), (
        Listed('no element: end = begin', 'refused 8', lambda v: v['begin'] == v['end'] < MOST_STATES),
        Listed('end below begin', 'refused 8', lambda v: v['end'] < v['begin']),
        Listed('one element', 'done', lambda v: v['end'] == v['begin'] + 1),
        Listed('the longest block, 0 to 4,096', 'done', lambda v: (v['begin'], v['end']) == (0, MOST_STATES)),
        Listed('the last element, 4,095', 'done', lambda v: (v['begin'], v['end']) == (MOST_STATES - 1, MOST_STATES)),
        outside('end', MOST_STATES + 1, 8),
        outside('end', LARGEST, 8),
    )),
    Section('One block, given alone', ('Block::len', 'Block::len_marked', 'Block::has_marked', 'Block::has_unmarked',
                                       'Block::unmark_all'), (
        Listed('no element', 'refused 14', lambda v: v['begin'] == v['end'] < MOST_STATES),
        Listed('nothing marked', 'done', lambda v: v['marked_split'] == v['end']),
        Listed('all marked', 'done', lambda v: v['marked_split'] == v['begin']),
        Listed('one element, marked', 'done', lambda v: v['marked_split'] == v['begin'] == v['end'] - 1),
        Listed('one element, unmarked', 'done', lambda v: v['marked_split'] == v['end'] == v['begin'] + 1),
        Listed('the longest block, 0 to 4,096', 'done', lambda v: (v['begin'], v['end']) == (0, MOST_STATES)),
        outside('end', MOST_STATES + 1, 14),
        outside('end', LARGEST, 14),
    )),
    Section('The label beside the others', ('tau_hat', 'is_tau_hat'), (
        Listed('no label', 'refused 2', lambda v: v['labels'] == 0),
        Listed('one label', 'done', lambda v: v['labels'] == 1),
        Listed('the most labels, 1,024', 'done', lambda v: v['labels'] == MOST_LABELS),
        outside('labels', MOST_LABELS + 1, 2),
        outside('labels', LARGEST, 2),
        Listed('the label is that one, the largest, 1,024', 'done', lambda v: v['label'] == v['labels'] == MOST_LABELS,
               ('is_tau_hat',)),
        Listed('the label is 0', 'done', lambda v: v['label'] == 0, ('is_tau_hat',)),
        Listed('the label is 65,535', 'done', lambda v: v['label'] == LARGEST, ('is_tau_hat',)),
    )),
    Section('Lists of pairs', ('is_subset_of',), (
        Listed('both empty', 'done', lambda v: empty(v, ('self_labels', 'other_labels'))),
        Listed('self empty', 'done', lambda v: not v['self_labels'] and v['other_labels']),
        Listed('other empty', 'done', lambda v: v['self_labels'] and not v['other_labels']),
        Listed('other has only the excluded pair', 'done', lambda v: pairs(v, 'other') == [(v['label'], v['block'])]),
        Listed('self empty, other only the excluded pair', 'done',
               lambda v: not v['self_labels'] and pairs(v, 'other') == [(v['label'], v['block'])]),
        Listed('a column of no cell beside one that has some', 'done',
               lambda v: not v['self_blocks'] and v['self_labels']),
        Listed('the largest numbers', 'done', lambda v: (LARGEST, LARGEST) in pairs(v, 'self')),
        Listed('lists as long as `replay` takes them, 70,000', 'done', lambda v: len(pairs(v, 'self')) == ROOM),
    )),
)


def pairs(v, side):
    return list(zip(v[f'{side}_labels'], v[f'{side}_blocks']))


def columns(v):
    """The columns of the partition, or those that its list of records stands for."""
    return [name for name in v.operation.needs if name in COLUMNS] + v.operation.of(RECORDS)


# The number of states, where columns for each of them are lent.
SIZES = (
    outside('n', 0, 1),
    outside('n', MOST_STATES + 1, 1),
    outside('n', LARGEST, 1),
    Listed('columns of no cell', 'refused 7', lambda v: v['n'] > 0 and empty(v, columns(v))),
    Listed('the most states, 4,096', 'done', lambda v: v['n'] == MOST_STATES),
)


ON_PARTITION = ('block_number', 'is_element_marked', 'read_block', 'num_of_blocks', 'len', 'iter_block',
                'iter_block_refusal', 'display', 'mark_element', 'swap_blocks', 'swap_blocks_host')
PARTITIONS = (
    Section('A new partition', ('BlockPartition::new',), (
        Listed('one state', 'done', lambda v: v['n'] == 1),
        *SIZES,
    )),
    Section('A partition', ON_PARTITION, (
        Listed('one state, marked', 'done', lambda v: alone(v, True)),
        Listed('one state, unmarked', 'done', lambda v: alone(v, False)),
        Listed('one block, nothing marked', 'done', lambda v: v['count'] == 1 < v['n'] and nothing_marked(v)),
        Listed('one block, all marked', 'done', lambda v: v['count'] == 1 < v['n'] and all_marked(v)),
        *COUNTS,
        *SIZES,
        *arguments(ON_PARTITION),
        Listed('a block with itself', 'done', lambda v: v['left'] == v['right'], ('swap_blocks', 'swap_blocks_host')),
        Listed('a state that is marked already', 'done', lambda v: v['n'] > 1 and all_marked(v), ('mark_element',)),
    )),
    Section('The marked states divided by number', ('partition_marked_with',), (
        Listed('nothing marked', 'refused 9', lambda v: not marked(v) and size(v) > 1),
        Listed('nothing marked, in a block of one', 'refused 9', lambda v: not marked(v) and size(v) == 1),
        Listed('one state, whose number is not read', 'done', lambda v: size(v) == 1 and numbers(v) == {LARGEST}),
        Listed('one state marked, another not', 'done', lambda v: len(marked(v)) == 1 < size(v)),
        Listed('all one number, nothing unmarked', 'done',
               lambda v: len(marked(v)) == size(v) > 1 and numbers(v) == {0}),
        Listed('as many numbers as states', 'done', lambda v: len(marked(v)) > 1 and len(numbers(v)) == v['n']),
        Listed('the most numbers, 4,096', 'done', lambda v: len(marked(v)) > 1 and len(numbers(v)) == MOST_STATES),
        Listed('number 0 missing', 'refused 10', lambda v: 0 not in numbers(v)),
        Listed('the largest number', 'refused 10', lambda v: LARGEST in numbers(v)),
        *COUNTS,
        *SIZES,
        *arguments(('partition_marked_with',)),
    )),
    Section('The chosen states split off', ('split_marked',), (
        Listed('nothing marked', 'done', lambda v: not marked(v)),
        Listed('nothing chosen', 'done', lambda v: marked(v) and not chosen(v)),
        Listed('the whole block chosen', 'done', lambda v: len(chosen(v)) == size(v) > 1),
        Listed('all that is marked chosen, something unmarked', 'done',
               lambda v: 0 < len(marked(v)) < size(v) and chosen(v) == marked(v)),
        Listed('one state, chosen', 'done', lambda v: v['n'] == 1 and chosen(v)),
        Listed('one state, not chosen', 'done', lambda v: v['n'] == 1 and marked(v) and not chosen(v)),
        Listed('the largest byte', 'done', lambda v: 255 in v['choice']),
        *COUNTS,
        *SIZES,
        *arguments(('split_marked',)),
    )),
)


def header():
    """The limits of a table's header."""
    return (
        *(outside('n', number, 1) for number in (0, MOST_STATES + 1, LARGEST)),
        *(outside('labels', number, 2) for number in (0, MOST_LABELS + 1, LARGEST)),
        *(outside('m', number, 3) for number in (MOST_ROWS + 1, LARGEST)),
        Listed('the initial state just none', 'refused 4', lambda v: v['initial'] == v['n']),
        outside('initial', LARGEST, 4),
        Listed('columns of no cell where there are rows', 'refused 7', lambda v: v['m'] > 0 and empty(v, ROWS)),
    )


def largest():
    return (
        Listed('the most states, 4,096', 'done', lambda v: v['n'] == MOST_STATES),
        Listed('the most labels, 1,024', 'done', lambda v: v['labels'] == MOST_LABELS),
        Listed('the most rows, 8,192', 'done', lambda v: v['m'] == MOST_ROWS),
    )


def lent(v):
    """The result and work slices: those that may change, without the partition's columns."""
    return [name for name in v.operation.changed if name not in COLUMNS]


def no_room(*only):
    return Listed('result and work slices of no cell', 'refused 7', lambda v: lent(v) and empty(v, lent(v)), only)


def hidden(v):
    return [row for row in rows(v) if row[1] == 0]


def only_self_loop(v):
    return [(row[0] == row[2], row[1]) for row in rows(v)] == [(True, 0)]


def unreached(v):
    """No row of another state leads to the initial state, and there are other states and rows."""
    return v['n'] > 1 and v['m'] > 0 and not any(row[2] == v['initial'] != row[0] for row in rows(v))


def is_ring(v):
    """A hidden step from each state to the next, and from the last to the first."""
    return v['n'] > 1 and {(state, 0, (state + 1) % v['n']) for state in range(v['n'])} <= set(rows(v))


def cycle_of_two(v):
    """Two states have rows to each other, and no state has a row to any other state."""
    steps = {(source, target) for source, _, target in rows(v) if source != target}
    return len(steps) == 2 and steps == {(target, source) for source, target in steps}


ON_TABLE = ('incoming', 'reachable', 'outgoing_transitions', 'next_incoming', 'sort_topological')
TABLES = (
    Section('A table', ON_TABLE, (
        ONE_STATE,
        NO_ROWS,
        Listed('no hidden row', 'done', lambda v: v['m'] > 0 and not hidden(v)),
        Listed('only hidden rows', 'done', lambda v: v['m'] > 0 and len(hidden(v)) == v['m']),
        Listed('only self-loops', 'done', lambda v: v['m'] > 0 and all(row[0] == row[2] for row in rows(v))),
        Listed('the initial state reached by no other', 'done', unreached),
        Listed('one label', 'done', lambda v: v['labels'] == 1),
        Listed('a label that no row has', 'done', lambda v: len({row[1] for row in rows(v)}) < v['labels']),
        Listed('no way out of the state', 'done',
               lambda v: v['m'] > 0 and not any(row[0] == v['state'] for row in rows(v)),
               ('reachable', 'outgoing_transitions')),
        Listed('no way into the state', 'done',
               lambda v: v['m'] > 0 and not any(row[2] == v['state'] for row in rows(v)), ('next_incoming',)),
        Listed('asked from m on', 'done', lambda v: v['from'] == v['m'] > 0, ('next_incoming',)),
        Listed('asked from the most rows on, 8,192', 'done', lambda v: v['from'] == v['m'] == MOST_ROWS,
               ('next_incoming',)),
        Listed('a hidden self-loop is no cycle', 'done',
               lambda v: v['hidden'] and any(row[0] == row[2] for row in hidden(v)), ('sort_topological',)),
        Listed('a cycle of two', 'refused 11', cycle_of_two, ('sort_topological',)),
        Listed('a cycle of all states, 4,096', 'refused 11', lambda v: v['n'] == MOST_STATES and is_ring(v),
               ('sort_topological',)),
        *flags(ON_TABLE),
        no_room('incoming', 'reachable', 'sort_topological'),
        *arguments(ON_TABLE),
        *header(),
        *largest(),
    )),
    Section('The closure of marks', ('mark_backward_closure',), (
        ONE_STATE,
        NO_ROWS,
        Listed('nothing marked', 'done', lambda v: size(v) > 1 and not marked(v)),
        Listed('all marked', 'done', lambda v: len(marked(v)) == size(v) > 1),
        Listed('no hidden row', 'done', lambda v: v['m'] > 0 and not hidden(v)),
        Listed('a block of one state', 'done', lambda v: size(v) == 1 < v['n']),
        *COUNTS,
        no_room(),
        *arguments(('mark_backward_closure',)),
        *header(),
        *largest(),
    )),
)

ON_STATE = ('strong_bisim_signature', 'branching_bisim_signature_inductive', 'branching_bisim_signature',
            'branching_bisim_signature_sorted')
SORTED = ('branching_bisim_signature_sorted',)


def no_way_out(v):
    return not any(row[0] == v['state'] for row in rows(v))


SIGNATURES = (
    Section('Signatures of a state', ON_STATE, (
        ONE_STATE,
        NO_ROWS,
        Listed('no way out of the state', 'done', lambda v: v['m'] > 0 and no_way_out(v)),
        Listed('no room, and nothing pushed', 'done', lambda v: no_way_out(v) and empty(v, RESULT)),
        Listed('no room, and something pushed', 'refused 16', lambda v: empty(v, RESULT)),
        Listed('a hidden self-loop alone', 'done', only_self_loop),
        Listed('nothing marked', 'done', lambda v: nothing_marked(v)),
        Listed('all marked', 'done', lambda v: all_marked(v)),
        Listed('every list empty', 'done', lambda v: len(set(v['starts'])) == 1, SORTED),
        Listed('starts all at the end', 'done',
               lambda v: v['given_labels'] and set(v['starts']) == {len(v['given_labels'])}, SORTED),
        Listed('no pairs given', 'done', lambda v: not v['given_labels'] and not v['given_blocks'], SORTED),
        *COUNTS,
        no_room(),
        *arguments(ON_STATE),
        *header(),
        *largest(),
    )),
)
