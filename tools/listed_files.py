"""The cases of absence and of limit of the operations on files."""
import file_model
import plain_file
from listed_cases import LARGEST, NO_ROWS, ONE_STATE, Listed, Section, argument, empty, header, largest, outside
from operations import BYTES
from refusals import MOST_LABELS, MOST_ROWS, MOST_STATES, ROWS

CONTENTS = 22
LARGEST_INPUT = 49182
LARGEST_OUTPUT = 57384


def data(v):
    """The input file: the first slice of bytes."""
    return bytes(argument(v, BYTES))


def table(v):
    return file_model.held(data(v))


def one_too_many(v):
    """A right file, and a byte behind it."""
    return len(data(v)) > CONTENTS and file_model.wrong_place(data(v)[:-1]) is None


# The limits of the header in a file.
HEADERS = (
    ('n = 0', 'refused 1', lambda table: table.n == 0),
    ('n = 4,097', 'refused 1', lambda table: table.n == MOST_STATES + 1),
    ('n = 65,535', 'refused 1', lambda table: table.n == LARGEST),
    ('labels = 0', 'refused 2', lambda table: table.labels == 0),
    ('labels = 1,025', 'refused 2', lambda table: table.labels == MOST_LABELS + 1),
    ('labels = 65,535', 'refused 2', lambda table: table.labels == LARGEST),
    ('m = 8,193, in a complete file', 'refused 3', lambda table: len(table.rows) == MOST_ROWS + 1),
    ('the initial state just none', 'refused 4', lambda table: table.initial == table.n),
    ('initial = 65,535', 'refused 4', lambda table: table.initial == LARGEST),
    ('the most states, 4,096', 'done', lambda table: table.n == MOST_STATES),
    ('the most labels, 1,024', 'done', lambda table: table.labels == MOST_LABELS),
    ('the most rows, 8,192', 'done', lambda table: len(table.rows) == MOST_ROWS),
)


def files_read():
    """The cases of whoever reads a file."""
    yield Listed('no byte', 'refused 13', lambda v: not data(v))
    yield Listed('cut within the contents', 'refused 13', lambda v: 0 < len(data(v)) < CONTENTS)
    yield Listed('the contents, and nothing behind', 'refused 13', lambda v: len(data(v)) == CONTENTS)
    yield Listed('a byte too many', 'refused 13', one_too_many)
    yield Listed('an output file', 'refused 13', lambda v: file_model.is_output(data(v)))
    yield Listed('one state, no rows', 'done', lambda v: (table(v).n, table(v).rows) == (1, []))
    yield Listed('no rows', 'done', lambda v: table(v).n > 1 and not table(v).rows)
    yield Listed('columns of no cell', 'refused 7', lambda v: empty(v, ROWS), ('read_file',))
    yield from (Listed(words, outcome, lambda v, test=test: test(table(v))) for words, outcome, test in HEADERS)
    yield Listed('the largest file, 49,182 bytes', 'done', lambda v: len(data(v)) == LARGEST_INPUT)


SECTIONS = (
    Section('Files read and reduced', ('read_file', 'reduce_file'), (
        *files_read(),
        Listed('the largest output, 57,384 bytes', 'done', lambda v: plain_file.size_reduced(v) == LARGEST_OUTPUT,
               ('reduce_file',)))),
    Section('Files written', ('write_file',), (
        ONE_STATE,
        NO_ROWS,
        Listed('no source state', 'refused 1', lambda v: v['states'] == 0),
        Listed('one source state', 'done', lambda v: v['states'] == 1),
        *header(),
        *largest(),
        Listed('the most source states, 4,096', 'done', lambda v: v['states'] == MOST_STATES),
        outside('states', MOST_STATES + 1, 1),
        outside('states', LARGEST, 1),
        Listed('the largest output, 57,384 bytes', 'done', lambda v: plain_file.size_written(v) == LARGEST_OUTPUT))),
)
