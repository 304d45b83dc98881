"""Cases of the operations on files: file_cases' files, tables to write, every length of what is lent, faulty ones."""
from itertools import chain, combinations, product

import cases_table
import far
import file_cases
import file_model
import partitions
import plain
import plain_file
import tables
from faults import damaged, every_length, outside, several, shorten
from file_cases import CONTENTS, EXAMPLE, SMALL, changed, put
from lines import Case
from operations import HELD_ROOM, ROOM
from refusals import MOST_LABELS, MOST_ROWS, MOST_STATES, ROWS
from splits import junk_cells, more

# So many cells where a file does not say how many are needed.
SOME = 3
# Cases of more cells are written in runs.
LONG = 10000


def junk_bytes(rng, number):
    return [rng.randrange(256) for _ in range(number)]


def file_of(v):
    """The input file of a table, sound or not."""
    return file_model.bytes_of(file_model.Table(v['n'], v['labels'], v['initial'], plain.rows(v)))


def reading(rng, data):
    """A file to read, and columns: mostly exact, with junk."""
    needed = plain_file.a_row({'bytes': data}) or SOME
    columns = {column: junk_cells(rng, 9, min(needed + more(rng), HELD_ROOM)) for column in ROWS}
    return {'bytes': list(data), **columns}


def reducing(rng, data):
    """A file to reduce, and room: mostly exact, with junk."""
    needed = SOME if file_model.read(data)[1] else plain_file.size_reduced({'input': data})
    return {'input': list(data), 'output': junk_bytes(rng, needed + more(rng))}


def writing(rng, v, states=None):
    """A table to write, with the blocks of some states, and room: mostly exact, with junk."""
    states = states or rng.choice((1, v['n'], rng.randint(1, 40)))
    v = {**v, 'states': states, 'state_blocks': junk_cells(rng, v['n'], states + more(rng))}
    return {**v, 'bytes': junk_bytes(rng, min(plain_file.size_written(v) + more(rng), ROOM))}


def many_rows(rng):
    """A row too many, and many, with other faults in the header beside it; as many as `replay` has room for."""
    most = (ROOM - len(file_model.bytes_of(file_model.Table(1, 1, 0, [])))) // 6
    for n, labels, initial in product((0, 1, MOST_STATES, MOST_STATES + 1), (0, 1, MOST_LABELS), (0, 1)):
        for m in (MOST_ROWS + 1, rng.randint(MOST_ROWS + 2, most - 1), most):
            yield file_model.bytes_of(file_model.Table(n, labels, initial, [(0, 0, 0)] * m))


# A number of the example's header or of its rows out of range, or a row like the one before: where, bytes, value.
WRONG = ((22, 2, 0), (22, 2, MOST_STATES + 1), (24, 2, 0), (28, 2, 65535), (30, 2, 65535), (38, 2, 65535), (40, 2, 1))
# What makes the table in a file faulty.
TABLE_FAULTS = (tables.order_broken, tables.field_outside, outside('initial', 'n'), tables.labels_outside,
                partitions.n_outside)


def faulty_file(rng):
    """A file of a table with any faults; its contents changed in a field, and cut or longer, or none of these."""
    v = tables.random_table(rng, rng.randint(1, 6))
    for fault in TABLE_FAULTS:
        if rng.random() < 0.25:
            fault(rng, v)
    data = file_of(v)
    if rng.random() < 0.2:
        data = rng.choice(list(changed(data, CONTENTS)))
    if rng.random() < 0.2:
        data = (data + b'\1')[:rng.choice((len(data) - 1, len(data) + 1, rng.randrange(len(data))))]
    return data


def at_far_rows(rng):
    """The largest table with wrong rows at the far places; just below the greatest n, sound."""
    yield from far.at_rows(tables.full(rng, MOST_STATES))
    yield from (tables.full(rng, n) for n in (MOST_STATES - 2, MOST_STATES - 1))


def every_table():
    """The file of every small table."""
    return (file_of(v) for n, labels in cases_table.SMALL for v in tables.every(n, labels))


def contents_and_more():
    """Each fault of the table with a field of the contents wrong, with a byte less or more, and with each other one."""
    for wrong in WRONG:
        data = put(EXAMPLE, *wrong)
        yield from changed(data, CONTENTS)
        yield from (data[:-1], data + b'\0')
    yield from (put(put(EXAMPLE, *one), *other) for one, other in combinations(WRONG, 2))


def every_file(rng, number):
    """file_cases' files that `replay` has room for, every small table, rows too many, far places, faulty ones."""
    known = chain.from_iterable(file_cases.kinds(rng.randrange(2 ** 32), number).values())
    large, faulty = map(file_of, at_far_rows(rng)), (faulty_file(rng) for _ in range(number))
    made = chain(known, every_table(), many_rows(rng), contents_and_more(), large, faulty)
    return (data for data in made if len(data) <= ROOM)


def some_short(operation, rng, v):
    """The case; where the file is short, and sometimes else, another with columns too short."""
    yield v
    if len(v['bytes']) < 100 or rng.random() < 0.3:
        short = {name: list(value) for name, value in v.items()}
        shorten(operation)(rng, short)
        yield short


def to_read(operation, rng, number):
    for data in every_file(rng, number):
        yield from some_short(operation, rng, reading(rng, data))
    for data in (EXAMPLE, file_model.bytes_of(SMALL), file_model.bytes_of(file_model.Table(1, 1, 0, []))):
        yield from every_length(operation, reading(rng, data), ROWS)


def every_room(rng, data, every):
    """A file to reduce with every room up to what is needed, or with none, and a byte less than that."""
    v = reducing(rng, data)
    if file_model.read(data)[1]:
        return
    needed = plain_file.size_reduced(v)
    for size in range(needed + 2) if every else (0, needed - 1, needed):
        yield {**v, 'output': junk_bytes(rng, size)}


def to_reduce(operation, rng, number):
    for place, data in enumerate(every_file(rng, number)):
        yield reducing(rng, data)
        if place % 10 == 0 and len(data) < 1000:
            yield from every_room(rng, data, False)
    for data in (EXAMPLE, file_model.bytes_of(file_model.Table(1, 1, 0, [])), file_model.bytes_of(SMALL)):
        yield from every_room(rng, data, True)
    yield from every_room(rng, file_model.bytes_of(file_cases.apart()), False)


def little_room(rng, v):
    """16: a byte less than needed, none, or anything between."""
    needed = plain_file.size_written(v)
    del v['bytes'][rng.choice((needed - 1, 0, rng.randrange(needed))):]


def states_outside(rng, v):
    v['states'] = rng.choice((0, MOST_STATES + 1, 65535))


def large_tables(rng):
    """The limits and the large tables, with few source states and with as many as may be."""
    for v, states in product(chain(cases_table.limits(rng), cases_table.large(rng)), (1, MOST_STATES)):
        yield writing(rng, v, states)


def tables_to_write(rng):
    """Every small table; headers and rows around their limits."""
    for n, labels in cases_table.SMALL:
        yield from (writing(rng, v) for v in tables.every(n, labels))
    yield from cases_table.every_header(writing(rng, tables.given(3, 2, [(0, 0, 1), (1, 1, 2)])))
    yield from cases_table.every_field(writing(rng, tables.given(3, 2, [(0, 0, 1), (0, 1, 0), (1, 0, 2)])))
    v = writing(rng, tables.given(2, 1, [(0, 0, 1), (1, 0, 1)]), 2)
    yield from ({**v, 'states': states} for states in (0, 1, 2, 3, MOST_STATES, MOST_STATES + 1, 65535))


def to_write(operation, rng, number):
    yield from tables_to_write(rng)
    yield from large_tables(rng)
    yield from (writing(rng, v, MOST_STATES) for v in at_far_rows(rng))
    yield from far.one_short(operation, writing(rng, tables.full(rng, MOST_STATES), MOST_STATES))
    v = writing(rng, tables.given(2, 1, [(0, 0, 1), (1, 0, 1)]), 2)
    yield from every_length(operation, v, list(operation.lengths()))
    yield from ({**v, 'bytes': junk_bytes(rng, size)} for size in range(plain_file.size_written(v) + 2))
    sound = lambda: writing(rng, tables.lengthen(rng, tables.random_table(rng, rng.randint(1, 12))))
    yield from (sound() for _ in range(number))
    faults = [little_room, states_outside, *cases_table.faults_of_table(operation)]
    yield from several(sound, rng, faults, 4)
    yield from damaged(sound, rng, faults, number // 2)


def cases(operation, rng, number):
    """The long ones are written in runs."""
    for v in globals()[operation.values](operation, rng, number):
        yield Case(operation, v, in_runs=sum(len(v[name]) for name in v if operation.is_slice(name)) > LONG)


# A sound case of each way to make values.
EXAMPLES = {
    'to_read': {'bytes': list(EXAMPLE), **dict.fromkeys(ROWS, [7, 7])},
    'to_write': {**tables.given(3, 2, [(0, 1, 1), (0, 1, 2)]), 'states': 3, 'state_blocks': [0, 1, 1],
                 'bytes': [7] * 60},
    'to_reduce': {'input': list(EXAMPLE), 'output': [7] * 60},
}


def example(operation):
    """A sound case of the operation."""
    return EXAMPLES[operation.values]
