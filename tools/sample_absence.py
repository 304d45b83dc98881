"""The sample's part for what else can be absent, and for the greatest numbers of states and labels without a row."""
from importlib import import_module

import given_lists
import sample_split
import sample_table
import tables
from cases_host import as_records
from listed_cases import ON_PARTITION, ON_STATE, ON_TABLE
from lines import Case
from operations import ALL, BY_NAME, BYTES, FLAG, INDEX, RECORDS, ROW, STATE
from partitions import LARGEST, laid_out
from refusals import COLUMNS, MOST_LABELS, MOST_STATES

TWO = laid_out([1, 0], [(0, 1, 1), (1, 1, 2)])


def of_count():
    """No block, a block more than states, and the largest number."""
    for operation in map(BY_NAME.get, ON_PARTITION):
        yield f'# {operation.name}: no block, more blocks than states'
        v = {**TWO, **dict.fromkeys(operation.of(STATE, INDEX), 0), **dict.fromkeys(operation.of(BYTES), [])}
        v = as_records(v) if operation.of(RECORDS) else v
        yield from (Case(operation, {**v, 'count': count}) for count in (0, TWO['n'] + 1, LARGEST))


def of_columns():
    """Columns of no cell."""
    for operation in (sample_split.DIVIDE, sample_split.SPLIT):
        yield f'# {operation.name}: columns of no cell'
        values = sample_split.case(operation, TWO, 0, [0, 0]).values
        yield Case(operation, {**values, **dict.fromkeys(COLUMNS, [])})


def of_slices():
    """Each slice of no cell where some are needed, the others as long as need be."""
    for operation in ALL:
        v = import_module(operation.maker).example(operation)
        if operation.needs:
            yield f'# {operation.name}: each slice alone of no cell'
            yield from (Case(operation, {**v, slice: []}) for slice in operation.needs)


def of_one_state():
    """One state and no row, the state marked and unmarked."""
    for name in ('mark_backward_closure', *ON_STATE):
        operation = BY_NAME[name]
        yield f'# {name}: one state, no rows'
        for split in (0, 1):
            v = {**tables.given(1, 1, []), **laid_out([0], [(0, split, 1)]), **given_lists.laid_flat([[]])}
            v |= dict.fromkeys(operation.of(STATE, INDEX), 0)
            yield Case(operation, {**v, **sample_table.lent(operation, v)})


def of_states():
    """As many states and labels as may be, and no row."""
    for name in ON_TABLE:
        operation = BY_NAME[name]
        v = {**tables.given(MOST_STATES, MOST_LABELS, [], MOST_STATES - 1), **dict.fromkeys(operation.of(FLAG, ROW), 0)}
        v |= dict.fromkeys(operation.of(STATE), MOST_STATES - 1)
        yield f'# {name}: 4,096 states, 1,024 labels, no rows'
        yield Case(operation, {**v, **sample_table.lent(operation, v)}, in_runs=True)


def entries():
    yield from of_count()
    yield from of_columns()
    yield from of_slices()
    yield from of_one_state()
    yield from of_states()
