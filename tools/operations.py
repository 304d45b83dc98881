"""The operations of docs/REPLAY.md: what each takes, refuses and changes, and how its cases are made and compared."""
from typing import Callable, NamedTuple

import alike
import bisimulation
import plain
import plain_file
import plain_order
import plain_partition as parts
import quotients
import refusals
import splits
from refusals import (COLUMNS, GIVEN, RESULT, ROWS, WORK, a_row, a_start, a_state, gives, in_range, worked,
                      worked_alone)
from rooms import HELD_ROOM, RECORDS_ROOM, ROOM


def always(values):
    """Every case."""
    return True


class Kind(NamedTuple):
    """What a parameter is: `replay`'s letter for it, the largest number it or a cell of it may be; for an argument that
    01 bounds, the number that it lies below, or, with `itself`, is not above."""
    letter: str
    largest: int = 65535
    bound: str = None
    itself: bool = False


NUMBER, STATE, INDEX, ROW = Kind('n'), Kind('n', bound='n'), Kind('n', bound='count'), Kind('n', bound='m', itself=True)
FLAG, CELLS, WIDE, BYTES, RECORDS = Kind('f', 1), Kind('c'), Kind('w', 4294967295), Kind('b', 255), Kind('r')


def all_of(kind, *names):
    """These parameters, all of one kind."""
    return dict.fromkeys(names, kind)


class Operation(NamedTuple):
    name: str
    parameters: dict  # in their order, each with its kind
    tests: tuple  # 01's refusals in 01's order
    changed: tuple = ()  # the parameters that are `&mut` slices; a block's three numbers are one of them
    needs: dict = {}  # for a slice that has a length in 01, the cells needed
    rooms: dict = {}  # the same for a slice whose shortness is 16
    maker: str = 'cases_partition'  # the module that makes its cases
    values: str = 'values'  # the function of that module that makes their values
    made: dict = {}  # how that makes arguments: of random numbers and the values so far; if not here, below the bound
    takes: tuple = ()  # what that has to make beside the table or the partition, and can make faulty, in such an order
    quick: bool = False  # its plain computation is quick, so that many cases of the greatest n are tried
    largest: str = 'of_shapes'  # the function of cases_limits that makes its largest cases
    sampled: str = 'sample_partition'  # the module that makes its part of the sample
    has_rust: bool = True
    asked: Callable = always  # whether the Rust is asked about these values, where it has the operation
    pushes: Callable = None  # for a signature, the pairs pushed, in their order and with duplicates
    computed: Callable = None  # a plain computation of the answer
    alike: Callable = alike.same  # whether the Rust's answer is the one that was computed
    answers_part: bool = False  # what is computed is then the part
    holds: bool = False  # its call holds its `&mut` slices itself, in shorter arrays

    def refuses(self):
        """The numbers that it can refuse with, in 01's order."""
        given = {number for test in self.tests for number in test.gives}
        return [number for number in refusals.ORDER if number in given]

    def refusal(self, values):
        """None, or the number and the place that 01 gives."""
        for test in self.tests:
            found = test(values)
            if found:
                return found
        return None

    def lengths(self):
        """For each slice the cells needed."""
        return {**self.needs, **self.rooms}

    def work(self):
        """The work slices."""
        return [slice for slice, cells in self.needs.items() if cells in (worked, worked_alone)]

    def is_slice(self, parameter):
        """Whether the parameter is a slice, or else a number."""
        return self.parameters[parameter].letter in 'cwbr'

    def of(self, *kinds):
        """The parameters of these kinds."""
        return [name for name, kind in self.parameters.items() if kind in kinds]


PARTITION = {**all_of(NUMBER, 'n', 'count'), **all_of(CELLS, *COLUMNS)}
TABLE = {**all_of(NUMBER, 'n', 'labels', 'm', 'initial'), **all_of(CELLS, *ROWS)}
# A partition of a table's states.
DIVIDED = all_of(CELLS, *COLUMNS) | {'count': NUMBER}
# Two lists of pairs, each in two columns.
SELF = ('self_labels', 'self_blocks')
OTHER = ('other_labels', 'other_blocks')
PAIRS = SELF + OTHER
# The work slices of a signature, and those of the sorted one.
PUSHING = ('pushed_labels', 'pushed_blocks', 'order', 'spare')
MERGING = ('own_labels', 'own_blocks', 'high', 'low', 'end_high', 'end_low', 'tree')
# The work slices of the quotients, of what searches along rows turned round, of hidden cycles, and of the reduction.
ROWS_WORK = ('a', 'b', 'c', 'order', 'spare')
TURNED = ('order', 'back_source', 'back_label', 'back_target', 'forward', 'backward', 'queue')
CYCLES = ('numbers', 'mid_source', 'mid_label', 'mid_target') + ROWS_WORK
REDUCING = tuple(f'work_{column}' for column in COLUMNS) + ('numbers', 'pair_labels', 'pair_blocks', 'spare')
BLOCK = ('begin', 'marked_split', 'end')
# How the block and the work slices of the operations that split a block are made.
DIVIDING = {'block': splits.a_block, **dict.fromkeys(WORK, splits.random_work)}
# The columns that have a cell for each state, without those of the blocks.
STATES = COLUMNS[:3]
EACH_STATE = dict.fromkeys(COLUMNS, a_state)


def ranges(parameters):
    """8: the tests of the arguments in their order."""
    return tuple(in_range(name, kind) for name, kind in parameters.items() if kind.bound)


def on_partition(name, arguments={}, changed=(), tests=(), besides={}, **more):
    """An operation on a lent partition: n, lengths, the partition, then the arguments in their order, then the rest."""
    needs = {**EACH_STATE, **besides}
    chain = (refusals.states, refusals.short(needs), refusals.partition, *ranges(arguments), *tests)
    return Operation(name, PARTITION | arguments, chain, changed, needs, **more)


def on_records(name, arguments, changed, computed):
    """An operation on a partition whose block table is a list of records: the refusals are those of `on_partition`."""
    slices = {**all_of(CELLS, *STATES), 'blocks': RECORDS}
    needs = dict.fromkeys(slices, a_state)
    chain = (refusals.states, refusals.short(needs), refusals.of_records(refusals.partition), *ranges(arguments))
    return Operation(name, all_of(NUMBER, 'n', 'count') | slices | arguments, chain, changed, needs,
                     maker='cases_host', sampled='sample_host', computed=computed)


def on_block(name, computed, parameters=BLOCK, test=refusals.block, changed=()):
    """An operation on one block."""
    return Operation(name, all_of(NUMBER, *parameters), (test,), changed, maker='cases_block', sampled='sample_block',
                     computed=computed)


def on_table(name, arguments, needs, changed, tests=(), last=(), maker='cases_table', sampled='sample_table', **more):
    """An operation on a lent table: its header, lengths, the rows, tests, the arguments in order, the last tests."""
    needs = {**dict.fromkeys(ROWS, a_row), **needs}
    header = (refusals.states, refusals.labels, refusals.rows, refusals.initial)
    chain = (*header, refusals.short(needs), refusals.each_row, *tests, *ranges(arguments), *last)
    return Operation(name, TABLE | arguments, chain, changed, needs, maker=maker, sampled=sampled, **more)


def reducing(name, arguments, results, work, tests=(), last=(), needs={}, **more):
    """An operation that makes a smaller table or numbers its states: result slices, with the cells needed, and work."""
    needs = {**needs, **results, **dict.fromkeys(work, worked)}
    changed = (*results, *work)
    return on_table(name, arguments | all_of(CELLS, *changed), needs, changed, tests, last, maker='cases_quotient',
                    sampled='sample_quotient', holds=True, **more)


def signature(name, pushes, given={}, needs={}, work=PUSHING, tests=(), takes=(), alike_many=None):
    """A signature of a state: the pairs pushed, what it is given besides, the cells needed of that, the work slices,
    tests of its own, what has to be made for it besides; and where the pairs hold keys, others that are as many."""
    counted = alike_many or pushes
    needs = {**EACH_STATE, **needs, **dict.fromkeys(work, worked)}
    arguments = all_of(CELLS, *COLUMNS) | {'count': NUMBER, 'state': STATE} | given | all_of(CELLS, *RESULT, *work)
    last = (*tests, refusals.pairs_room(counted))
    return on_table(name, arguments, needs, RESULT + work, (refusals.partition,), last,
                    takes=('room', *takes, 'state', 'partition'),
                    rooms=dict.fromkeys(RESULT, lambda v: len(counted(v))), sampled='sample_signature',
                    pushes=pushes, computed=plain.signature(pushes))


def on_labels(name, parameters, tests, values, computed):
    """An operation on lists of pairs, or on the number of labels."""
    return Operation(name, parameters, tests, maker='cases_signature', values=values, sampled='sample_signature',
                     computed=computed)


def on_file(name, parameters, tests, changed, computed, values, needs={}, rooms={}):
    """An operation on a file."""
    return Operation(name, parameters, tests, changed, needs, rooms, maker='cases_file', values=values,
                     sampled='sample_file', has_rust=False, computed=computed, holds=True)


def contents(slice):
    """13 for an input file."""
    return gives(13)(plain_file.contents(slice))


def in_file(slice, *tests):
    """Tests of the table in an input file."""
    return gives(*(number for test in tests for number in test.gives))(plain_file.in_file(slice, *tests))


def bytes_room(slice, size):
    """16 for a file to write."""
    return gives(16)(plain_file.room(slice, size))


def few_rows(v):
    """The Rust's redundancy pass is cubic."""
    return v['m'] <= 400


def few_states(v):
    """The Rust answers one state's number a call, and every state's is asked."""
    return v['n'] <= 300


RESULT_ROWS = dict.fromkeys(quotients.RESULT_ROWS, a_row)
FILE_ROWS = dict.fromkeys(ROWS, plain_file.a_row)
WRITTEN = {**dict.fromkeys(ROWS, a_row), 'state_blocks': plain_file.a_source_state}

ALL = (
    on_block('Block::new', parts.new, ('begin', 'end'), refusals.constructor),
    on_block('Block::new_unmarked', parts.new_unmarked, ('begin', 'end'), refusals.constructor),
    on_block('Block::len', parts.length),
    on_block('Block::len_marked', parts.len_marked),
    on_block('Block::has_marked', parts.has_marked),
    on_block('Block::has_unmarked', parts.has_unmarked),
    Operation('BlockPartition::new', {'n': NUMBER} | all_of(CELLS, *COLUMNS),
              (refusals.states, refusals.short(EACH_STATE)), COLUMNS, EACH_STATE, values='values_of_new',
              computed=parts.new_partition),
    on_partition('block_number', {'element': STATE}, computed=parts.block_number),
    on_partition('is_element_marked', {'element': STATE}, computed=parts.is_element_marked),
    on_partition('read_block', {'block': INDEX}, computed=parts.read_block),
    on_partition('num_of_blocks', computed=parts.num_of_blocks),
    on_partition('len', computed=parts.number_of_states),
    on_partition('iter_block', {'block': INDEX}, answers_part=True, computed=parts.iter_block),
    on_partition('iter_block_refusal', {'block': INDEX}, has_rust=False, computed=plain.iter_block_refusal),
    on_partition('display', {'text': BYTES}, ('text',), (refusals.room,), takes=('text',),
                 made={'text': splits.some_room}, computed=parts.display),
    on_partition('mark_element', {'element': STATE}, ('elements', 'element_offset', 'marked_split'),
                 computed=parts.mark_element),
    on_partition('swap_blocks', all_of(INDEX, 'left', 'right'), ('element_to_block', 'begin', 'marked_split', 'end'),
                 computed=parts.swap_blocks),
    on_partition('partition_marked_with', {'block': INDEX} | all_of(CELLS, 'numbers', *WORK), COLUMNS + WORK,
                 (refusals.nothing_marked, refusals.not_dense),
                 {'numbers': a_state, **dict.fromkeys(WORK, worked_alone)}, maker='cases_split', takes=('numbers',),
                 made={**DIVIDING, 'numbers': splits.random_numbers}, sampled='sample_split',
                 computed=parts.partition_marked_with),
    on_partition('split_marked', {'block': INDEX, 'choice': BYTES}, COLUMNS, besides={'choice': a_state},
                 maker='cases_split', takes=('choice',), made={**DIVIDING, 'choice': splits.random_choice},
                 sampled='sample_split', computed=parts.split_marked),
    on_block('Block::unmark_all', parts.unmark_all, changed=(BLOCK,)),
    on_records('swap_blocks_host', all_of(INDEX, 'left', 'right'), ('element_to_block', 'blocks'),
               parts.swap_blocks_host),
    on_table('incoming', all_of(CELLS, 'incoming', 'spare'), {'incoming': a_row, 'spare': worked},
             ('incoming', 'spare'), has_rust=False, computed=plain.incoming),
    on_table('reachable', {'hidden': FLAG, 'state': STATE} | all_of(CELLS, 'reached', 'queue'),
             {'reached': a_state, 'queue': worked},
             ('reached', 'queue'), takes=('state',), has_rust=False, computed=plain.reachable),
    on_table('outgoing_transitions', {'state': STATE}, {}, (), takes=('state',), computed=plain.outgoing_transitions,
             alike=alike.by_rows),
    on_table('next_incoming', {'state': STATE, 'from': ROW}, {}, (), takes=('from', 'state'), has_rust=False,
             computed=plain.next_incoming),
    on_table('mark_backward_closure',
             all_of(CELLS, *COLUMNS) | {'count': NUMBER, 'block': INDEX} | all_of(CELLS, 'order', 'spare'),
             {**EACH_STATE, 'order': worked, 'spare': worked},
             ('elements', 'element_offset', 'marked_split', 'order', 'spare'), (refusals.partition,),
             takes=('block', 'partition'), computed=plain.mark_backward_closure, alike=alike.by_marked_sets),
    on_table('sort_topological', all_of(FLAG, 'hidden', 'reversed') | all_of(CELLS, 'places', 'marks', 'stack'),
             {'places': a_state, 'marks': worked, 'stack': worked}, ('places', 'marks', 'stack'), (refusals.cycle,),
             takes=('order',), computed=plain_order.sort_topological),
    signature('strong_bisim_signature', plain.strong_pairs),
    signature('branching_bisim_signature_inductive', plain.inductive_pairs, {'state_to_key': CELLS},
              {'state_to_key': a_state}, takes=('keys',), alike_many=plain.strong_pairs),
    signature('branching_bisim_signature', plain.branching_pairs, work=PUSHING + ('marks', 'queue')),
    signature('branching_bisim_signature_sorted', plain.sorted_pairs, dict(zip(GIVEN, (WIDE, CELLS, CELLS))),
              {'starts': a_start}, MERGING, (refusals.given_lists,), takes=('lists',)),
    on_labels('is_subset_of', all_of(CELLS, *PAIRS) | all_of(NUMBER, 'label', 'block'),
              (refusals.not_ascending(*SELF), refusals.not_ascending(*OTHER)), 'of_lists', plain_order.is_subset_of),
    on_labels('tau_hat', {'labels': NUMBER}, (refusals.labels,), 'of_numbers', plain_order.tau_hat),
    on_labels('is_tau_hat', all_of(NUMBER, 'label', 'labels'), (refusals.labels,), 'of_labels', plain_order.is_tau_hat),
    reducing('quotient_lts_naive', DIVIDED | all_of(FLAG, 'eliminate_inert_taus', 'eliminate_tau_loops'), RESULT_ROWS,
             ROWS_WORK, (refusals.partition,), needs=EACH_STATE, takes=('partition',), quick=True,
             computed=quotients.quotient_lts_naive),
    reducing('quotient_lts_block', DIVIDED | all_of(FLAG, 'branching', 'eliminate_tau_loops'), RESULT_ROWS,
             ROWS_WORK + ('chosen',), (refusals.partition,), (gives(12)(quotients.no_bottom),), EACH_STATE,
             takes=('bottom', 'partition'), quick=True, computed=quotients.quotient_lts_block),
    reducing('remove_redundant_transitions', {}, RESULT_ROWS, TURNED, asked=few_rows,
             computed=quotients.remove_redundant_transitions),
    reducing('tau_scc_decomposition', {}, {'numbers': a_state}, TURNED, computed=quotients.tau_scc_decomposition,
             alike=alike.by_classes),
    reducing('tau_cycle_elimination_and_reorder', {'state': STATE, 'eliminate_tau_selfloops': FLAG}, RESULT_ROWS,
             CYCLES, takes=('state',), asked=few_states, computed=quotients.tau_cycle_elimination_and_reorder,
             alike=alike.by_renumbering),
    reducing('strong_reduction', {}, {**RESULT_ROWS, 'state_blocks': a_state}, REDUCING, largest='of_reduction',
             has_rust=False, computed=bisimulation.strong_reduction),
    on_file('read_file', {'bytes': BYTES} | all_of(CELLS, *ROWS),
            (contents('bytes'), in_file('bytes', *plain_file.HEADER), refusals.short(FILE_ROWS),
             in_file('bytes', refusals.each_row)),
            ROWS, plain_file.read_file, 'to_read', FILE_ROWS),
    on_file('write_file', TABLE | {'states': NUMBER, 'state_blocks': CELLS, 'bytes': BYTES},
            (gives(1)(plain_file.source_states), *plain_file.HEADER, refusals.short(WRITTEN), refusals.each_row,
             bytes_room('bytes', plain_file.size_written)),
            ('bytes',), plain_file.write_file, 'to_write', WRITTEN, {'bytes': plain_file.size_written}),
    on_file('reduce_file', all_of(BYTES, 'input', 'output'),
            (contents('input'), in_file('input', *plain_file.HEADER, refusals.each_row),
             bytes_room('output', plain_file.size_reduced)),
            ('output',), plain_file.reduce_file, 'to_reduce', rooms={'output': plain_file.size_reduced}),
)
BY_NAME = {operation.name: operation for operation in ALL}
