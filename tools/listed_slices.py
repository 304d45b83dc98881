"""The cases of absence and of limit that slices have, each alone: no cell where some are needed, and little room."""
from listed_cases import ON_STATE, Listed, Section
from listed_files import LARGEST_OUTPUT
from operations import ALL, ROOM
from refusals import MOST_ROWS

# The text of 4,096 marked states, each a block of its own.
LONGEST_TEXT = 35754
# The most that is needed of the room for a result; where lists are given, as much as `replay` takes.
MOST_NEEDED = {'display': LONGEST_TEXT, **dict.fromkeys(ON_STATE, MOST_ROWS), 'branching_bisim_signature_sorted': ROOM,
               'write_file': LARGEST_OUTPUT, 'reduce_file': LARGEST_OUTPUT}


def has_room(operation):
    """Whether the operation has a slice whose shortness is 16."""
    return 16 in operation.refuses()


def rooms(operation):
    """Those slices."""
    return tuple(operation.rooms) or ('text',)


def no_cell(v, slice):
    """The slice has no cell, and needs some, and the others have what they need."""
    short = [name for name, cells in v.operation.needs.items() if len(v[name]) < cells(v)]
    return short == [slice] and not v[slice]


def short_by_room(v):
    """The slices that have less room than is needed."""
    return [slice for slice, cells in v.rooms.items() if len(v[slice]) < cells]


def no_room(v, slice):
    return not v[slice] and short_by_room(v) == [slice]


def one_short(v, slice):
    return short_by_room(v) == [slice] and len(v[slice]) + 1 == v.rooms[slice]


def exact(v):
    return all(len(v[slice]) == cells for slice, cells in v.rooms.items())


def is_most(v):
    """As much is needed as may be."""
    return set(v.rooms.values()) == {MOST_NEEDED[v.operation.name]}


def quoted(names):
    return ', '.join(f'`{name}`' for name in names)


def of_cells(operation):
    """7: each slice."""
    slices = tuple(operation.needs)
    return Listed(f'each alone: {quoted(slices)}', 'refused 7', no_cell, (operation.name,), slices)


def of_room(operation):
    """16: each slice, and room that is exact; and the same where as much is needed as may be."""
    slices, only, most = rooms(operation), (operation.name,), f'{MOST_NEEDED[operation.name]:,}'
    alone = f'each alone: {quoted(slices)}' if len(slices) > 1 else quoted(slices)
    return (
        Listed(f'no room, {alone}', 'refused 16', no_room, only, slices),
        Listed(f'room one short, {alone}', 'refused 16', one_short, only, slices),
        Listed('room exactly', 'done', exact, only),
        Listed(f'room one short of the most, {most}, {alone}', 'refused 16',
               lambda v, slice: is_most(v) and one_short(v, slice), only, slices),
        Listed(f'room for the most, {most}, exactly', 'done', lambda v: is_most(v) and exact(v), only),
    )


def sections():
    needing = [operation for operation in ALL if operation.needs]
    with_room = list(filter(has_room, ALL))
    return (
        Section('Slices of no cell, where cells are needed', tuple(operation.name for operation in needing),
                tuple(map(of_cells, needing))),
        Section('Room for a result', tuple(operation.name for operation in with_room),
                tuple(listed for operation in with_room for listed in of_room(operation))),
    )
