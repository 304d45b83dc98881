"""Table files by document 01: which are refused, with what number and place, what the others hold, and their bytes.

It is written from 01 alone. An input file has two entries, the header and the rows; an output file a third, the block
of each source state. 01 words the refusals of an input file; docs/FILE.md says how they are read for an output file.
"""
from typing import NamedTuple, Optional

import refusals

LARGEST_NUMBER = 65535
# A field that can be tested before the header is read: where it stands, its bytes, and what it must hold.
INPUT_FIELDS = ((0, 2, 2), (2, 2, 1), (4, 4, 22), (8, 4, 8), (12, 2, 2), (14, 4, 30))
OUTPUT_FIELDS = ((0, 2, 3), (2, 2, 1), (4, 4, 32), (8, 4, 8), (12, 2, 2), (14, 4, 40), (22, 2, 3))
# Where the length of kind 2 stands, and the offset and the length of kind 3.
ROWS_LENGTH, BLOCKS_OFFSET, BLOCKS_LENGTH = 18, 24, 28
# One byte more than the longest file whose fields can agree: what lies behind it changes nothing.
ENOUGH = 40 + 6 * LARGEST_NUMBER + 2 * refusals.MOST_STATES + 1
MEANING = {
    1: 'the number of states is not from 1 to 4096',
    2: 'the number of labels is not from 1 to 1024',
    3: 'the number of rows is above 8192',
    4: 'the initial state is not below the number of states',
    5: 'a field of this row is out of range',
    6: 'this row is not above the one before',
    8: 'a source state has this block, which is not below the number of blocks',
    13: 'the contents of the file, or the length of a body, are not as they must be',
}


class Table(NamedTuple):
    n: int
    labels: int
    initial: int
    rows: list  # (source, label, target) each
    blocks: Optional[list] = None  # in an output file, the block of each source state


def little(data, at, width):
    """The number in these bytes, lowest first."""
    return int.from_bytes(data[at:at + width], 'little')


def is_output(data):
    """The count of entries is that of an output file."""
    return little(data, 0, 2) == 3 and len(data) >= 2


def start(data):
    """Where the header stands."""
    return 32 if is_output(data) else 22


def first_wrong(data, fields):
    """The offset of the first field that is cut off or holds something else, or None."""
    wrong = (at for at, width, value in fields if at + width > len(data) or little(data, at, width) != value)
    return next(wrong, None)


def wrong_length(data, rows_at, m):
    """The offset of the first field that the header shows to be wrong, or None."""
    if little(data, ROWS_LENGTH, 4) != 6 * m:
        return ROWS_LENGTH
    if is_output(data):
        if little(data, BLOCKS_OFFSET, 4) != rows_at + 6 * m:
            return BLOCKS_OFFSET
        if little(data, BLOCKS_LENGTH, 4) not in range(2, 2 * refusals.MOST_STATES + 1, 2):
            return BLOCKS_LENGTH
    return None


def wrong_place(data):
    """The place of 13, or None."""
    place = first_wrong(data, OUTPUT_FIELDS if is_output(data) else INPUT_FIELDS)
    if place is not None:
        return place
    rows_at = start(data) + 8
    if len(data) < rows_at:
        return len(data)
    m = little(data, start(data) + 4, 2)
    place = wrong_length(data, rows_at, m)
    if place is not None:
        return place
    end = rows_at + 6 * m + (little(data, BLOCKS_LENGTH, 4) if is_output(data) else 0)
    return None if len(data) == end else min(len(data), end)


def numbers(data, at, count):
    """So many numbers of two bytes each."""
    return [little(data, at + 2 * index, 2) for index in range(count)]


def held(data):
    """What a file holds whose contents are right: a table, and m by itself."""
    n, labels, m, initial = numbers(data, start(data), 4)
    cells = numbers(data, start(data) + 8, 3 * m)
    rows = list(zip(cells[0::3], cells[1::3], cells[2::3]))
    blocks = numbers(data, start(data) + 8 + 6 * m, little(data, BLOCKS_LENGTH, 4) // 2) if is_output(data) else None
    return Table(n, labels, initial, rows, blocks)


def table_refusal(table):
    """1 to 6 as the table's check gives them, then 8 for the blocks of an output file; or None."""
    columns = [list(column) for column in zip(*table.rows)] or [[], [], []]
    values = {'n': table.n, 'labels': table.labels, 'm': len(table.rows), 'initial': table.initial,
              **dict(zip(refusals.ROWS, columns))}
    tests = (refusals.states, refusals.labels, refusals.rows, refusals.initial, refusals.each_row)
    refused = next((found for found in (test(values) for test in tests) if found), None)
    outside = [block for block in table.blocks or [] if block >= table.n]
    return refused or ((8, outside[0]) if outside else None)


def read(data, output=False):
    """The table of a file and None, or None and the number and place of its refusal.

    A reader of input files takes an output file's count for wrong; with `output` both kinds are read.
    """
    if is_output(data) and not output:
        return None, (13, 0)
    place = wrong_place(data)
    if place is not None:
        return None, (13, place)
    table = held(data)
    refused = table_refusal(table)
    return (None, refused) if refused else (table, None)


def refused_line(refusal):
    """The line that is said of a refusal."""
    number, place = refusal
    return f'refused {number} at {place}: {MEANING[number]}'


def in_bytes(values, width=2):
    return b''.join(value.to_bytes(width, 'little') for value in values)


def file_of(bodies):
    """The contents of these bodies, of the kinds 1, 2, .., and then the bodies."""
    entries, at = b'', 2 + 10 * len(bodies)
    for kind, body in enumerate(bodies, 1):
        entries += in_bytes([kind]) + in_bytes([at, len(body)], 4)
        at += len(body)
    return in_bytes([len(bodies)]) + entries + b''.join(bodies)


def bytes_of(table):
    """The file of a table: an input file, or an output file if it has blocks."""
    header = in_bytes([table.n, table.labels, len(table.rows), table.initial])
    rows = in_bytes(cell for row in table.rows for cell in row)
    return file_of([header, rows] + ([in_bytes(table.blocks)] if table.blocks is not None else []))
