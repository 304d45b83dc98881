"""The sample's part for the operations on files: 01's example, absences, each refusal, several faults at once."""
import cases_bad
import cases_file
import file_model
import needs
import plain_file
import tables
from file_cases import CONTENTS, EXAMPLE, EXAMPLE_OUTPUT, HEADER, put
from file_model import Table, bytes_of
from lines import Case
from operations import ALL, BY_NAME, HELD_ROOM, ROOM
from refusals import MOST_LABELS, MOST_ROWS, MOST_STATES, ROWS

# Words, and a sound table.
SOUND = (
    ('document 01\'s example', Table(3, 2, 0, [(0, 1, 1), (0, 1, 2)])),
    ('one state, no rows', Table(1, 1, 0, [])),
    ('no rows', Table(3, 2, 2, [])),
    ('P8', Table(3, 2, 0, [(0, 1, 1), (1, 1, 2)])),
    ('a self-loop with the last label', Table(2, MOST_LABELS, 1, [(1, MOST_LABELS - 1, 1)])),
    ('numbers above a byte', Table(258, 257, 257, [(0, 256, 257), (256, 1, 255), (257, 256, 0)])),
)


def reading(data, cells=None, in_runs=False):
    """A file to read, with columns of so many cells, or as many as needed."""
    cells = plain_file.a_row({'bytes': data}) if cells is None else cells
    values = {'bytes': list(data), 'source': [9] * cells, 'label': [65535] * cells, 'target': [1] * cells}
    return Case(BY_NAME['read_file'], values, in_runs=in_runs)


def reducing(data, room, in_runs=False):
    return Case(BY_NAME['reduce_file'], {'input': list(data), 'output': [9] * room}, in_runs=in_runs)


def writing(table, in_runs=False, **others):
    """A table to write, with two source states more than it has, and room as needed; and what is otherwise."""
    values = {**tables.given(table.n, table.labels, table.rows, table.initial), 'states': table.n + 2,
              'state_blocks': [*range(table.n), 0, 65535]}
    values['bytes'] = [9] * plain_file.size_written(values)
    return Case(BY_NAME['write_file'], {**values, **others}, in_runs=in_runs)


def given_by_01():
    """The example, as 01 has it: what is computed must be that."""
    if bytes_of(SOUND[0][1]) != EXAMPLE or bytes_of(plain_file.reduced({'input': EXAMPLE})[1]) != EXAMPLE_OUTPUT:
        needs.stop('the example is not computed as document 01 has it')


def header_faults():
    """The header's numbers out of range in a file."""
    for at, values in zip((22, 24, 28), ((0, MOST_STATES + 1, 65535), (0, MOST_LABELS + 1, 65535), (3, 65535))):
        yield from (put(EXAMPLE, at, 2, value) for value in values)


def row_faults():
    """A field of each row out of range, rows alike, rows that fall, and which comes first."""
    for rows in ([(3, 0, 0), (3, 0, 0)], [(0, 2, 1), (0, 0, 0)], [(0, 0, 3), (1, 0, 0)], [(0, 0, 1), (0, 0, 65535)],
                 [(0, 0, 1), (0, 0, 1)], [(0, 1, 0), (0, 0, 1)], [(1, 0, 0), (0, 2, 0)],
                 [(0, 0, 1), (0, 0, 0), (3, 0, 0)]):
        yield bytes_of(Table(3, 2, 0, rows))


def contents_faults():
    """Each field of the contents off by one, and with its high byte set; one wrong, and a later one cut."""
    for at, width in CONTENTS:
        value = file_model.little(EXAMPLE, at, width)
        yield from (put(EXAMPLE, at, width, other) for other in (value - 1, value + 1, value | 255 << 8 * (width - 1)))
    yield from (put(EXAMPLE, 4, 4, 23)[:15], put(EXAMPLE, 18, 4, 13)[:29], put(EXAMPLE, 26, 2, 1), EXAMPLE_OUTPUT)


def at_once():
    """Faults in the order in which 01 ranks them, the first taken away each time."""
    faults = [(0, 3), (HEADER[0][0], 0), (HEADER[1][0], 0), (HEADER[3][0], 3), (30, 4), (36, 0)]
    for first in range(len(faults)):
        data = put(EXAMPLE, 34, 2, 0)
        for at, value in faults[first:]:
            data = put(data, at, 2, value)
        yield data


def of_read():
    for words, table in SOUND:
        yield f'# read_file: {words}'
        yield from (reading(bytes_of(table)), reading(bytes_of(table), len(table.rows) + 2))
    yield '# read_file: every size, from an empty file to a byte too many'
    yield from (reading((EXAMPLE + b'\0')[:size], 2) for size in range(len(EXAMPLE) + 2))
    yield '# read_file: contents'
    yield from (reading(data, 2) for data in contents_faults())
    yield '# read_file: the header, and rows'
    yield from (reading(data, 3) for data in (*header_faults(), *row_faults()))
    yield '# read_file: columns one short, and empty'
    exact = reading(EXAMPLE).values
    yield from (Case(BY_NAME['read_file'], {**exact, name: cells}) for name in ROWS for cells in ([9], []))
    yield reading(EXAMPLE, 0)
    yield '# read_file: several faults at once, with columns that are short and that are not'
    yield from (reading(data, cells) for data in at_once() for cells in (1, 2))


def of_write():
    for words, table in SOUND:
        yield f'# write_file: {words}'
        exact = writing(table).values
        needed = len(exact['bytes'])
        yield from (writing(table), writing(table, bytes=[9] * (needed + 2), state_blocks=exact['state_blocks'] + [7]))
        yield from (writing(table, bytes=[9] * room) for room in (needed - 1, 0))
    yield '# write_file: one source state'
    yield writing(SOUND[1][1], states=1, state_blocks=[0])
    table = SOUND[0][1]
    yield '# write_file: the header and the number of source states out of range'
    outside = {'states': (0, MOST_STATES + 1, 65535), 'n': (0, MOST_STATES + 1, 65535),
               'labels': (0, MOST_LABELS + 1, 65535), 'm': (MOST_ROWS + 1, 65535), 'initial': (3, 65535)}
    yield from (writing(table, **{name: number}) for name, numbers in outside.items() for number in numbers)
    yield '# write_file: columns one short, and empty'
    for name in (*ROWS, 'state_blocks'):
        cells = writing(table).values[name]
        yield from (writing(table, **{name: cells[:-1]}), writing(table, **{name: []}))
    yield writing(table, **dict.fromkeys(ROWS, []))
    yield '# write_file: rows'
    yield from (writing(file_model.held(data)) for data in row_faults())
    yield '# write_file: several faults at once'
    faults = [{'states': 0}, {'labels': 0}, {'m': MOST_ROWS + 1}, {'initial': 3}, {'state_blocks': []},
              {'target': [3, 2]}, {'label': [1, 0]}, {'bytes': []}]
    for first in range(len(faults)):
        yield writing(table, **{name: value for fault in faults[first:] for name, value in fault.items()})


def of_reduce():
    given_by_01()
    for words, table in SOUND:
        data = bytes_of(table)
        needed = plain_file.size_reduced({'input': data})
        yield f'# reduce_file: {words}'
        yield from (reducing(data, room) for room in (needed, needed + 2, needed - 1, 0))
    yield '# reduce_file: an empty file, and files cut or a byte too long'
    yield from (reducing((EXAMPLE + b'\0')[:size], 60) for size in (0, 1, 2, 21, 22, 29, 30, 41, 43))
    yield '# reduce_file: contents, the header, and rows'
    yield from (reducing(data, 60) for data in (*contents_faults(), *header_faults(), *row_faults()))
    yield '# reduce_file: several faults at once'
    yield from (reducing(data, 0) for data in at_once())


# By what is computed.
SAMPLES = {plain_file.read_file: of_read, plain_file.write_file: of_write, plain_file.reduce_file: of_reduce}


def of(operation):
    return SAMPLES[operation.computed]()


def of_room():
    """A column and bytes as long as `replay` takes them."""
    yield '# read_file and reduce_file: the longest slices'
    yield reading(EXAMPLE, HELD_ROOM, in_runs=True)
    yield reducing(EXAMPLE, ROOM, in_runs=True)


def of_no_case():
    """A word too few, a word too many, and a cell that is too large in the last slice."""
    for operation in ALL:
        if operation.maker == cases_file.__name__:
            lines = list(cases_bad.cases(operation, cases_file.example(operation)))
            yield from (lines[0], lines[2], lines[-1])
