"""A line of the benchmark: which functions it calls, with what, and the Rust's call that stands beside it.

A call's arguments go by the names of its parameters, so that their order is nowhere said here.
"""
from typing import NamedTuple

import bench_signatures
import needs
from bench_inputs import GIVEN, SIX

# Copies of partitions that calls change, each with what it is a copy of.
COPIES = {'now': 'one', 'closing': 'last', 'hosted': 'many'}
# The number of blocks, where it is not 1.
COUNTS = {'many': 'many_count', 'hosted': 'many_count', 'signed': 'signed_count', 'listed': 'listed_count'}
# The work slices and the result slices, with their cells.
WORK = {**dict.fromkeys(('old_elements', 'block_sizes'), 'n + 1'),
        **dict.fromkeys(('pushed_labels', 'pushed_blocks', 'order', 'spare', 'marks', 'queue', 'stack', 'own_labels',
                         'own_blocks', 'high', 'low', 'end_high', 'end_low', 'tree'), 'n + m + 1')}
RESULTS = {'labels': 'given + m + 1', 'blocks': 'given + m + 1', 'places': 'n', 'reached': 'n', 'incoming': 'm',
           'text': '70000', 'block_of': 'n'}
# Those of the quotients and of the reduction, whose parameters have many names.
WORK_SLICES = tuple(f'work_{place}' for place in range(10))
RESULT_COLUMNS = tuple(f'result_{place}' for place in range(3))
LENT = {**dict.fromkeys(WORK_SLICES, 'n + m + 1'), **dict.fromkeys(RESULT_COLUMNS, 'm')}
# Where a core needs fewer cells than 01 asks of a work slice.
CORE = {'marks': 'n', 'stack': 'm + 1'}
NUMBERS = {'n': 'n', 'm': 'm', 'b': '0', 'block': '0', 'block_index': '0', 'l': '0', 'r': '1',
           'left_index': '0', 'right_index': '1', 'from': '0', 'hidden': 'true', 'reversed': 'true', 'room': 'true'}
STATE = ('state', 's', 'element', 'u')
TABLE = {'table': 'table', 'system': 'Lts { table, source: &source[..m], label: &label[..m], target: &target[..m] }'}


class Line(NamedTuple):
    name: str  # as the Rust program and the table call it
    side: str  # 'public', 'core' or 'check'
    calls: tuple  # each the name that its answer gets, or '', and the function's path
    partition: str = ''
    values: dict = {}  # where a parameter's value is not the usual one
    before: str = ''  # what is done before each call; `reset` names the line that does it alone
    reset: str = ''
    counted: str = ''  # what is added to the sum, besides or in place of the answer
    each: bool = False  # the calls are made for each state
    rust: str = ''  # the Rust's call; '' for none
    alike: bool = True  # both sides count the same


def slices(lengths):
    return {name: f'{name}[..{length}]' for name, length in lengths.items()}


def values_of(line):
    """The value of every parameter by its name."""
    lengths = {**GIVEN, 'starts': 'n + 1', **WORK, **RESULTS, **(CORE if line.side == 'core' else {})}
    values = {**NUMBERS, **TABLE, **slices(lengths), **dict.fromkeys(STATE, 'each' if line.each else 'state')}
    if line.partition:
        count = COUNTS.get(line.partition, '1')
        header = f'BlockPartition {{ n: n as u16, count: {count} as u16 }}'
        columns = {column: f'{line.partition}_{column}[..n]' for column in SIX}
        lent = ', '.join(f'{column}: &{cells}' for column, cells in columns.items())
        values |= {**columns, 'columns': f'PartitionColumns {{ {lent} }}', 'count': count, 'partition': header,
                   'self': header}
    return {**values, **{name: name for name, _ in line.calls if name}, **line.values}


def functions(line):
    """The functions called."""
    found = [bench_signatures.function(path) for _, path in line.calls]
    if None in found:
        needs.stop(f'there is no pub fn {line.calls[found.index(None)][1]} for tools/bench_lines.py')
    return found


def copy(to, origin, columns=SIX):
    return ''.join(f'copy(&{origin}_{column}[..n], &mut {to}_{column}[..n]);\n' for column in columns)


def present(*choices):
    """The first of some lists of calls whose functions are all there."""
    return next((calls for calls in choices if all(bench_signatures.function(path) for _, path in calls)), choices[0])


def one(path):
    return (('', path),)


def both(name, public, core, rust=None, **more):
    """The public entry of an operation and its core."""
    rust = name if rust is None else rust
    return Line(name, 'public', public, rust=rust, **more), Line(name, 'core', core, rust=rust, **more)
