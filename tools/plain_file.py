"""The operations on files by document 01: their own refusals, and answers by file_model and file_reduction."""
import file_model
import file_reduction
import refusals
import tables
from plain import over, rows
from refusals import ROWS

HEADER = (refusals.states, refusals.labels, refusals.rows, refusals.initial)
# Where the number of rows stands in an input file.
NUMBER_OF_ROWS = 26


def contents(slice):
    """13: the contents of an input file or a length are wrong; the place is that of the first wrong field."""
    def test(v):
        data = bytes(v[slice])
        place = 0 if file_model.is_output(data) else file_model.wrong_place(data)
        return None if place is None else (13, place)
    return test


def in_file(slice, *tests):
    """Tests of the table in a file whose contents are right."""
    def test(v):
        table = file_model.held(bytes(v[slice]))
        values = tables.given(table.n, table.labels, table.rows, table.initial)
        return next((found for found in (one(values) for one in tests) if found), None)
    return test


def a_row(v):
    """The cells of a column for the rows of a file."""
    return file_model.little(bytes(v['bytes']), NUMBER_OF_ROWS, 2)


def source_states(v):
    """1: the number of source states is outside the range of n."""
    return refusals.states({'n': v['states']})


def a_source_state(v):
    """The cells of the column of the source states' blocks."""
    return v['states']


def written(v):
    """The output file of a table and the blocks of the source states."""
    blocks = v['state_blocks'][:v['states']]
    return file_model.bytes_of(file_model.Table(v['n'], v['labels'], v['initial'], rows(v), blocks))


def size_written(v):
    return len(written(v))


def reduced(v):
    """The table of the input, its reduction, and the rounds."""
    table, _ = file_model.read(bytes(v['input']))
    return (table, *file_reduction.reduced(table))


def size_reduced(v):
    """The bytes of the reduction's output file."""
    return len(file_model.bytes_of(reduced(v)[1]))


def room(slice, size):
    """16: room below the bytes to write; the place is the number needed."""
    def test(v):
        needed = size(v)
        return None if needed <= len(v[slice]) else (16, needed)
    return test


def read_file(v):
    table = file_model.held(bytes(v['bytes']))
    columns = {column: [row[field] for row in table.rows] for field, column in enumerate(ROWS)}
    numbers = [table.n, table.labels, len(table.rows), table.initial]
    return numbers, {column: over(cells, v[column]) for column, cells in columns.items()}


def write_file(v):
    data = written(v)
    return [len(data)], {'bytes': over(data, v['bytes'])}


def reduce_file(v):
    table, result, rounds = reduced(v)
    data = file_model.bytes_of(result)
    numbers = [len(data), table.n, table.labels, len(table.rows), result.n, len(result.rows), rounds]
    return numbers, {'output': over(data, v['output'])}
