"""The cases of absence and of limit of the operations that make a smaller table, or number its states."""
from listed_cases import (COUNTS, NO_ROWS, ONE_STATE, Listed, Section, arguments, blocks, flags, header, hidden,
                          is_ring, largest, no_room, only_self_loop, rows, unreached)
from refusals import MOST_STATES

QUOTIENTS = ('quotient_lts_naive', 'quotient_lts_block')
ON_CYCLES = ('tau_scc_decomposition', 'tau_cycle_elimination_and_reorder')


def own_rows(v, state):
    return [row for row in rows(v) if row[0] == state]


def rowless_choice(v):
    """The first state of a block has no rows, and other states have."""
    return v['m'] > 0 and any(not own_rows(v, v['elements'][begin]) for begin, _, _ in blocks(v))


def of_tables(*more):
    """A table, small and largest."""
    return (
        ONE_STATE,
        NO_ROWS,
        Listed('no hidden row', 'done', lambda v: v['m'] > 0 and not hidden(v)),
        Listed('a hidden self-loop alone', 'done', only_self_loop),
        Listed('a state with no way out among others', 'done',
               lambda v: v['m'] > 0 and any(not own_rows(v, state) for state in range(v['n']))),
        Listed('the initial state reached by no other', 'done', unreached),
        *more,
        no_room(),
        *header(),
        *largest(),
    )


def is_longest_chain(v):
    """A step from each state to the next, all with one label: a round splits one state off, from the last one on."""
    steps = [(source, target) for source, _, target in rows(v)]
    return steps == list(zip(range(MOST_STATES - 1), range(1, MOST_STATES))) and len({row[1] for row in rows(v)}) == 1


def sections(by_name):
    """The operations are given by name: some of the tests ask what they answer or refuse."""
    redundant, chosen = by_name['remove_redundant_transitions'], by_name['quotient_lts_block']

    def left(v):
        """The rows that stay."""
        return redundant.computed(v)[0][2]

    return (
        Section('Quotients by a partition', QUOTIENTS, of_tables(
            *COUNTS,
            *flags(QUOTIENTS),
            Listed('a chosen state without rows', 'done', rowless_choice, ('quotient_lts_block',)),
            Listed('no bottom state in the last block', 'refused 12',
                   lambda v: chosen.refusal(v)[1] == v['count'] - 1 > 0, ('quotient_lts_block',)),
        )),
        Section('Redundant rows', ('remove_redundant_transitions',), of_tables(
            Listed('every row redundant', 'done', lambda v: v['m'] > 0 and left(v) == 0),
            Listed('no row redundant', 'done', lambda v: v['m'] > 0 and left(v) == v['m']),
        )),
        Section('Hidden components and cycles', ON_CYCLES, of_tables(
            Listed('all states on one hidden cycle', 'done', is_ring),
            Listed('the same, 4,096 states', 'done', lambda v: v['n'] == MOST_STATES and is_ring(v)),
            *flags(ON_CYCLES),
            *arguments(ON_CYCLES),
        )),
        Section('The strong reduction', ('strong_reduction',), of_tables(
            Listed('every label used', 'done', lambda v: len({row[1] for row in rows(v)}) == v['labels'] > 1),
            Listed('no label used', 'done', lambda v: v['m'] == 0 and v['labels'] > 1),
            Listed('the most rounds, 4,095: a chain of 4,096 states', 'done', is_longest_chain),
        )),
    )
