"""The fixed sample: every operation, each refusal, absence, several faults at once, the limits.

An entry is a case, or a line that has no answer (a comment or an empty line).
"""
from importlib import import_module

import cases_bad
import sample_absence
import sample_file
import sample_host
import sample_largest
import sample_partition
import sample_quotient
import sample_signature
import sample_split
import sample_table
import tables
from lines import Case
from operations import ALL, BY_NAME, ROOM
from partitions import laid_out, wrapped_sum
from refusals import MOST_STATES


def of_limits():
    """The greatest n, and lengths of blocks that add up to n + 65536."""
    operation = BY_NAME['mark_element']
    order = [MOST_STATES - 1 - state for state in range(MOST_STATES)]
    v = laid_out(order, [(2000, MOST_STATES, MOST_STATES), (0, 1000, 2000)])
    yield '# mark_element: the greatest n'
    yield Case(operation, {**v, 'element': MOST_STATES - 1})
    yield '# mark_element: a sum of lengths that would wrap'
    yield Case(operation, {**wrapped_sum(257, 257), 'element': 0})


def of_room():
    """A slice that is read and one that is changed, each as long as `replay` takes it."""
    v = sample_partition.SOUND[5][1]
    yield '# the longest slices'
    yield Case(BY_NAME['len'], {**v, 'element_offset': v['element_offset'] + [7] * (ROOM - v['n'])})
    table = tables.given(2, 1, [(0, 0, 1), (1, 0, 1)])
    yield Case(BY_NAME['incoming'], {**table, 'incoming': [8] * ROOM, 'spare': [7] * 5})


def of_line_ends():
    """Lines that end in a carriage return too: it is a byte of the last word. A comment has no answer."""
    yield '# lines that end in a carriage return\r'
    for line in ('Block::len 1 2 4\r', 'tau_hat 3\r', 'tau_hat 3 \r', 'tau_hat\r', '\r'):
        yield Case(BY_NAME['tau_hat'], None, line)


def of_no_case():
    """Lines that are no case, the short ones, and one slice that is too long."""
    yield '# no case'
    for operation in (BY_NAME['Block::len'], BY_NAME['display']):
        cases = list(cases_bad.cases(operation, import_module(operation.maker).example(operation)))
        yield from (case for case in cases if len(case.line) < 300)
    yield next(case for case in cases if len(case.line) > ROOM)
    yield Case(operation, None, 'no_such_operation 1')
    yield from sample_host.of_no_case()
    yield from sample_split.of_no_case()
    yield from sample_table.of_no_case()
    yield from sample_signature.of_no_case()
    yield from sample_quotient.of_no_case()
    yield from sample_file.of_no_case()


def of_runs():
    """Runs in another form than the longest, with leading zeros too; and words that are none, or that don't fit."""
    operation = BY_NAME['is_subset_of']
    v = {'self_labels': [3, 3, 3, 4], 'self_blocks': [0, 1, 2, 0], 'other_labels': [], 'other_blocks': [], 'label': 1,
         'block': 1}
    yield '# runs'
    for cells in ('3*1 3*2 4', '3 3*2 4*1', '03*003 4', '3*2 3+2'):
        for blocks in ('0+3 0', '0*1 1+2 0', '0 1+1 2 0+1'):
            yield Case(operation, v, f'is_subset_of 4 {cells} 4 {blocks} 0 0 1 1', in_runs=True)
    for word in ('3*', '3+', '*4', '+4', '3*0', '3+0', '3*5', '3+5', '65533+4', '65536*4', '3*2*2', '3-4', '3*4x',
                 '3**4', '3*+4', '3*18446744073709551617', '3*4*', '3*3', '3*3 4*2', '3*4 3'):
        yield Case(operation, None, f'is_subset_of 4 {word} 4 0+3 0 0 0 1 1')
    for line in ('is_subset_of 4*1 3*4 0 0 0 1 1', 'is_subset_of 0*0 0 0 0 1 1', 'is_subset_of 0 0 0 0 1*1 1',
                 'is_subset_of 0 0 0 0 1*2', 'tau_hat 3*1', 'tau_hat 3+1', 'Block::len 1*3', 'Block::unmark_all 1*3',
                 'Block::unmark_all 1*2', 'display 1*8'):
        yield Case(operation, None, line)


def entries():
    for operation in ALL:
        yield ''
        yield f'# {operation.name}'
        yield from import_module(operation.sampled).of(operation)
    yield ''
    yield from of_limits()
    yield from sample_split.of_size()
    yield from sample_table.of_size()
    yield from of_room()
    yield from sample_absence.entries()
    yield from sample_quotient.of_room()
    yield from sample_file.of_room()
    yield from sample_largest.entries()
    yield from of_runs()
    yield from of_no_case()
    yield from of_line_ends()
