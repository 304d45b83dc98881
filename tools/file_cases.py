"""Files to try the program on: right ones, cut ones, and a fault wherever document 01 has a refusal.

A kind of case is a list of files, as bytes. What is due for each is computed by file_reduction.
"""
import random
from itertools import product

import file_model
from file_model import Table, bytes_of
from refusals import MOST_LABELS, MOST_ROWS, MOST_STATES

# Document 01's example.
EXAMPLE = bytes.fromhex('0200 0100 16000000 08000000 0200 1e000000 0c000000'
                        '0300 0200 0200 0000 0000 0100 0100 0000 0100 0200')
EXAMPLE_OUTPUT = bytes.fromhex('0300 0100 20000000 08000000 0200 28000000 06000000 0300 2e000000 06000000'
                               '0200 0200 0100 0000 0000 0100 0100 0000 0100 0100')
# The fields of the contents and of the header: where each stands, and its bytes.
CONTENTS = ((0, 2), (2, 2), (4, 4), (8, 4), (12, 2), (14, 4), (18, 4))
HEADER = ((22, 2), (24, 2), (26, 2), (28, 2))
SMALL = Table(4, 3, 3, [(0, 0, 1), (0, 1, 2), (1, 1, 2), (1, 2, 0), (3, 0, 3)])


def put(data, at, width, value):
    """The file with another number in a field; what is too large for it is cut."""
    return data[:at] + (value % 256 ** width).to_bytes(width, 'little') + data[at + width:]


def changed(data, fields):
    """Each field off by one either way, with its highest byte set, and with the lowest bit of each byte turned."""
    for at, width in fields:
        now = file_model.little(data, at, width)
        for value in (now - 1, now + 1, now | 255 << 8 * (width - 1), *(now ^ 1 << 8 * byte for byte in range(width))):
            yield put(data, at, width, value)


def cuts():
    """Every size of some files, up to a byte too many."""
    for data in (EXAMPLE, bytes_of(SMALL), bytes_of(Table(1, 1, 0, [])), EXAMPLE_OUTPUT):
        yield from ((data + b'\0')[:size] for size in range(len(data) + 2))


def wrong_then_cut():
    """A field of the contents with another value, and the file cut behind it."""
    for (at, width), size in product(CONTENTS, range(31)):
        if size >= at + width:
            yield put(EXAMPLE, at, width, file_model.little(EXAMPLE, at, width) + 1)[:size]


def lengths():
    """The length of kind 2 beside 6 m, in a file as long as it says and one as long as m says; and m changed."""
    data = bytes_of(SMALL)
    for off in (-6, -2, -1, 1, 2, 6, 256, 65536, 6 * 65536):
        named = put(data, 18, 4, 6 * len(SMALL.rows) + off)
        yield named
        yield (named + b'\0' * 6)[:len(data) + off]
    for m in (0, 4, 6, 256 + 5, 65535):
        yield put(data, 26, 2, m)
        yield put(put(data, 26, 2, m), 18, 4, 6 * m)
    yield put(put(data, 26, 2, 65535), 18, 4, 6 * 65535 % 65536)


def many_rows():
    """m above its limit: a complete file, one byte less, more bytes, and more than any file can name."""
    for m in (MOST_ROWS, MOST_ROWS + 1, 65535):
        data = bytes_of(Table(MOST_STATES, MOST_LABELS, 0, [(0, 0, 0)] * m))
        yield from (data, data[:-1], data + b'\0', data + b'\0' * 100)
        yield from (put(data, 22, 2, 0), put(data, 18, 4, 6 * m - 65536))
    yield bytes_of(Table(1, 1, 0, [(0, 0, 0)] * 65535)) + b'\0' * 1_000_000


def limits():
    """The header's numbers at their limits and beyond, alone and several at once."""
    numbers = ((0, 1, 2, MOST_STATES, MOST_STATES + 1, 65535), (0, 1, MOST_LABELS, MOST_LABELS + 1, 65535),
               (0, 1, MOST_STATES - 1, MOST_STATES, 65535))
    for n, labels, initial in product(*numbers):
        yield bytes_of(Table(n, labels, initial, []))
        yield bytes_of(Table(n, labels, initial, [(0, 0, 0)] * 2))


def bad_rows():
    """Rows out of range in each field, doubled and exchanged, two such faults at once, at each place."""
    rows = SMALL.rows
    values = ((0, 4), (1, 3), (2, 4), (0, 65535), (1, 65535), (2, 65535))
    faults = [(place, *value) for place in range(len(rows)) for value in values]
    made = [with_fault(rows, fault) for fault in faults]
    made += [with_fault(with_fault(rows, one), other) for one, other in product(faults[::5], repeat=2)]
    made += [rows[:place] + rows[place - 1:] for place in range(1, len(rows))]
    made += [rows[:place - 1] + [rows[place], rows[place - 1]] + rows[place + 1:] for place in range(1, len(rows))]
    yield from (bytes_of(SMALL._replace(rows=wrong)) for wrong in made)


def with_fault(rows, fault):
    """The rows with another number in a field of one of them."""
    place, field, value = fault
    row = rows[place]
    return rows[:place] + [(*row[:field], value, *row[field + 1:])] + rows[place + 1:]


def shapes():
    """No rows, nothing that splits, chains, and the largest file, with a small output and with the largest."""
    yield bytes_of(Table(1, 1, 0, []))
    yield bytes_of(Table(1, MOST_LABELS, 0, [(0, label, 0) for label in range(MOST_LABELS)]))
    yield bytes_of(Table(MOST_STATES, MOST_LABELS, MOST_STATES - 1, []))
    yield bytes_of(Table(300, 2, 0, [(state, 1, state + 1) for state in range(299)]))
    yield bytes_of(Table(300, 1, 299, [(state + 1, 0, state) for state in range(299)]))
    yield bytes_of(Table(MOST_STATES, 2, 0, [(state, label, 0) for state in range(MOST_STATES) for label in (0, 1)]))
    yield bytes_of(apart())


def apart():
    """As many states, labels and rows as there may be, and no two states alike: their pairs of labels differ."""
    pairs = [(low, high) for high in range(1, 92) for low in range(high)][:MOST_STATES]
    rows = [(state, label, (state * 31 + label) % MOST_STATES) for state, pair in enumerate(pairs) for label in pair]
    return Table(MOST_STATES, MOST_LABELS, MOST_STATES - 1, rows)


def random_table(rng):
    n, labels = rng.choice((1, 2, 3, 5, 9, 40)), rng.choice((1, 2, 3, 8))
    number = rng.choice((0, n, 2 * n, 3 * n))
    rows = {(rng.randrange(n), rng.randrange(labels), rng.randrange(n)) for _ in range(number)}
    return Table(n, labels, rng.randrange(n), sorted(rows))


def some(rng, number):
    """Random tables, and as many with a byte changed, left out or put in."""
    for _ in range(number):
        data = bytes_of(random_table(rng))
        yield data
        at = rng.choice((rng.randrange(30), rng.randrange(len(data))))
        new = bytes([rng.randrange(256)])
        yield rng.choice((data[:at] + new + data[at + 1:], data[:at] + data[at + 1:], data[:at] + new + data[at:]))


def kinds(seed, number):
    """Every kind of case by its name."""
    return {
        'document 01\'s example': [EXAMPLE],
        'cut at every size, and a byte too many': list(cuts()),
        'a field of the contents changed': [*changed(EXAMPLE, CONTENTS), *changed(bytes_of(SMALL), CONTENTS)],
        'a field changed, and cut behind it': list(wrong_then_cut()),
        'a field of the header changed': [*changed(EXAMPLE, HEADER), *changed(bytes_of(SMALL), HEADER)],
        'the length of the rows beside 6 m': list(lengths()),
        'more rows than may be': list(many_rows()),
        'limits of the header': list(limits()),
        'wrong rows': list(bad_rows()),
        'absence and size': list(shapes()),
        'random': list(some(random.Random(seed), number)),
    }
