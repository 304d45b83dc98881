"""The lines of the benchmark: for each operation its public entry and its core, with what they are called on."""
from bench_files import FILES
from bench_inputs import SIX
from bench_line import Line, both, copy, one, present
from bench_quotients import QUOTIENTS, REDUCTION


def signature(name, public, core, partition='signed'):
    """A signature: of one state by the public entry and by the core, and of each state by the core."""
    every = f'{name} of each state'
    return (*both(name, one(public), core, partition=partition),
            Line(every, 'core', core, partition=partition, each=True, rust=every))


def pushed(path):
    """A signature's core: what is pushed, and then made a set."""
    return ('d', path), ('', 'signatures::flat::flatten')


# One of the blocks, and the number of labels, which is tau_hat too.
SOME = {'block_index': 'some', 'b': 'some'}
ALPHABET = dict.fromkeys(('labels', 'label'), 'label_counts[state]')


def reader(name, has_rust=True):
    """A call that reads a partition of many blocks. It has no core: once the check is made it reads a cell or two."""
    return Line(name, 'public', one(f'partition_calls::readers::{name}'), partition='many', values=SOME,
                rust=name if has_rust else '')


def of_block(name):
    """A call on one block, or one that makes it."""
    fields = {field: f'records[some].{field}' for field in ('begin', 'end')}
    return Line(f'Block::{name}', 'public', one(f'partition::block::{name}'), rust=f'Block::{name}',
                values={'self': 'records[some]', **fields})


ANEW = copy('now', 'one')
DIVIDED = dict(partition='now', before=ANEW, reset='all columns copied')
# Elements and offsets as they were, and where the marks begin.
REMARKED = dict(partition='closing', reset='two columns copied')
UNCLOSED = copy('closing', 'last', SIX[:2]) + 'closing_marked_split[0] = (n - 1) as u16;\n'
UNMARKED = copy('closing', 'one', SIX[:2]) + 'closing_marked_split[0] = n as u16;\n'
SORTED = present(one('signatures_sorted::cores::branching_bisim_signature_sorted'),
                 (('taken', 'signatures_sorted::cores::take'), ('', 'signatures_sorted::cores::finish')))
# What is called on the inputs of bench_inputs, beside the Rust where there is one. The readers come before the lines
# that swap blocks, so that both sides read the same.
CALLS = (
    Line('all columns copied', 'reset', (), before=ANEW, counted='now_elements[0]', rust='all columns copied'),
    Line('two columns copied', 'reset', (), before=UNCLOSED, counted='closing_marked_split[0]',
         rust='two columns copied'),
    *map(reader, ('num_of_blocks', 'len', 'block_number', 'is_element_marked', 'iter_block')),
    reader('iter_block_refusal', has_rust=False),
    *both('read_block', one('partition_calls::readers::read_block'), one('partition::cores::read_block'),
          partition='many', values=SOME),
    *map(of_block, ('new', 'new_unmarked', 'len', 'len_marked', 'has_marked', 'has_unmarked')),
    Line('Block::unmark_all', 'public', one('partition_records::unmarking::unmark_all'),
         values={'block': 'records[some]'}, counted='records[some].marked_split', rust='Block::unmark_all'),
    *(Line(name, 'public', one(f'signatures::tau_hat::{name}'), rust=name, values=ALPHABET)
      for name in ('tau_hat', 'is_tau_hat')),
    *both('BlockPartition::new', one('partition_calls::changes::new'), one('partition::cores::new'), partition='now',
          counted='now_end[0]'),
    Line('mark_element', 'public', one('partition_calls::changes::mark_element'), partition='closing',
         counted='closing_marked_split[0]', rust='mark_element'),
    Line('mark_element of each state', 'core', one('partition::cores::mark_element'), before=UNMARKED, **REMARKED,
         counted='closing_marked_split[0]', each=True, rust='mark_element of each state'),
    *both('swap_blocks', one('partition_calls::changes::swap_blocks'), one('partition::cores::swap_blocks'),
          partition='many', counted='many_begin[0]'),
    Line('swap_blocks of records', 'public', one('partition_records::swapping::swap_blocks'), partition='hosted',
         values={'blocks': 'records[..n]'}, counted='records[0].begin', rust='swap_blocks'),
    *both('partition_marked_with', one('partition_division::partition_marked_with'),
          one('partition_division::cores::partition_marked_with'), values={'spare': 'spare[..n + 1]'}, **DIVIDED),
    *both('split_marked', one('partition_split::split_marked'), one('partition_split::cores::split_marked'), **DIVIDED),
    *both('display', one('partition_display::display'), one('partition_display::writers::write_blocks'),
          partition='many'),
    Line('outgoing_transitions', 'public', one('table::transitions::outgoing_transitions'),
         rust='outgoing_transitions'),
    Line('outgoing_transitions of each state', 'core', one('table::cores::rows_of'), each=True,
         rust='outgoing_transitions of each state'),
    *both('next_incoming', one('table::transitions::next_incoming'), one('table::cores::next_incoming'), rust=''),
    *both('incoming', one('table::incoming::incoming'), one('table::cores::sort_incoming'), alike=False,
          values={'order': 'incoming[..m]'}),
    *both('reachable', one('table::reach::reachable'), one('table::cores::reach'),
          values={'hidden': 'false', 'starts': 'source[..0]'}),
    Line('mark_backward_closure', 'public', one('table_closure::mark_backward_closure'), before=UNCLOSED, **REMARKED,
         counted='closing_marked_split[0]', rust='incoming, mark_backward_closure'),
    Line('mark_backward_closure', 'core', one('table_closure::cores::mark_backward_closure'), before=UNCLOSED,
         **REMARKED, counted='closing_marked_split[0]', rust='mark_backward_closure'),
    *both('sort_topological', one('table_order::sort_topological'), one('table_order::cores::sort_topological'),
          counted='places[0]'),
    *signature('strong_bisim_signature', 'signatures::strong::strong_bisim_signature',
               pushed('signatures::cores::push_strong')),
    *signature('branching_bisim_signature_inductive', 'signatures::inductive::branching_bisim_signature_inductive',
               pushed('signatures::cores::push_inductive')),
    *signature('branching_bisim_signature', 'signatures_branching::branching_bisim_signature',
               pushed('signatures_branching::cores::push_branching')),
    *signature('branching_bisim_signature_sorted', 'signatures_sorted::branching_bisim_signature_sorted', SORTED,
               'listed'),
    *both('is_subset_of', one('pairs::is_subset_of'), one('pairs::cores::subset'), values={'label': '2000'}),
    *QUOTIENTS,
    *FILES,
    Line('the check of a partition', 'check', one('partition::checks::check'), partition='signed'),
    Line('the check of a table', 'check', one('table::checks::check')),
    Line('the check of both', 'check', one('table_partition::check'), partition='signed'),
)
LINES = (*CALLS, *REDUCTION)
