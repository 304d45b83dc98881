"""A case as a line, as docs/REPLAY.md has it, and the answer that is due to it."""
import runs
from operations import BY_NAME, CELLS, HELD_ROOM, RECORDS, RECORDS_ROOM, ROOM
from refusals import WORKED


def room(operation, slice):
    """The longest such slice that `replay` takes."""
    kind = operation.parameters[slice]
    if kind == RECORDS:
        return RECORDS_ROOM
    return HELD_ROOM if operation.holds and slice in operation.changed and kind == CELLS else ROOM


def is_number(words, place, most):
    """Whether the word at the place is a number of at most this."""
    if place >= len(words):
        return False
    word = words[place]
    return word.isascii() and word.isdigit() and int(word) <= most


def cells_at(words, place, number, most):
    """So many cells from a place on, and the place after them; or None, and that of the first word that is wrong."""
    found = []
    while len(found) < number:
        more = runs.spread(words[place], most, number - len(found)) if place < len(words) else None
        if more is None:
            return None, place
        found.extend(more)
        place += 1
    return found, place


def slice_at(operation, parameter, words, place):
    """The slice that starts at a place, and the place after it; or None, and the place of the first wrong word."""
    if not is_number(words, place, room(operation, parameter)):
        return None, place
    number, kind = int(words[place]), operation.parameters[parameter]
    if kind != RECORDS:
        return cells_at(words, place + 1, number, kind.largest)
    found, after = cells_at(words, place + 1, number * 3, kind.largest)
    return found and list(zip(*[iter(found)] * 3)), after


def value_at(operation, parameter, words, place):
    """The number or slice that starts at a place, and the place after it; or None, and that of the first wrong word."""
    if operation.is_slice(parameter):
        return slice_at(operation, parameter, words, place)
    if not is_number(words, place, operation.parameters[parameter].largest):
        return None, place
    return int(words[place]), place + 1


def values_at(operation, words):
    """All values, and the place after them; or None, and the place of the first wrong word."""
    values, place = {}, 1
    for parameter in operation.parameters:
        values[parameter], place = value_at(operation, parameter, words, place)
        if values[parameter] is None:
            return None, place
    return values, place


def read(line):
    """The values of a case, and None; or None, and the place of the first word of the line that is wrong, missing or
    too many, the name's being 0."""
    words = line.split(' ')
    if words[0] not in BY_NAME:
        return None, 0
    values, place = values_at(BY_NAME[words[0]], words)
    return (values, None) if values is not None and place == len(words) else (None, place)


class Case:
    """A line of input: an operation on values, or a line that is no case (`line` given, `values` None).

    With `in_runs` the line has runs, the longest ones unless `line` is given, and so has the answer; `full` is the line
    without.
    """

    def __init__(self, operation, values, line=None, in_runs=False):
        self.operation, self.values, self.in_runs = operation, values, in_runs
        self.full = line if values is None else written(operation, values)
        self.line = line or written(operation, values, runs.written if in_runs else cells)
        self.bad_line = f'bad {read(line)[1]}' if values is None else None
        self.refused = None if values is None else operation.refusal(values)
        self.refusal_line = refusal_line(operation, values, self.refused) if self.refused else None

    def kind(self):
        """What this case is counted under."""
        if self.values is None:
            return 'no case'
        if self.refused:
            return f'refused {self.refused[0]}'
        return 'Rust' if self.asked() else 'plain'

    def asked(self):
        """Whether the Rust is asked."""
        operation = self.operation
        return operation.has_rust and (self.values is None or bool(self.refused) or operation.asked(self.values))

    def told(self, answer):
        """The answer as it is told to this line."""
        return runs.answer(answer) if self.in_runs and answer is not None else answer


def fields(slice):
    """The cells of a slice, the fields of a record one after the other."""
    return [field for cell in slice for field in (cell if isinstance(cell, tuple) else (cell,))]


def cells(slice):
    """The cells of a slice with a blank before each."""
    return ''.join(f' {cell}' for cell in fields(slice))


def written(operation, values, shown=cells):
    """The line of a case: the name, numbers as themselves, slices as their length and cells."""
    words = [operation.name]
    for parameter in operation.parameters:
        value = values[parameter]
        if isinstance(value, int):
            words.append(str(value))
        else:
            words.append(f'{len(value)}{shown(fields(value))}')
    return ' '.join(words)


def lent(values, slice):
    """What is lent as `&mut`: a slice, or a block's three numbers."""
    return values[slice] if isinstance(slice, str) else [values[number] for number in slice]


def answer_line(operation, values, words, slices):
    """The words, and the `&mut` slices at return: those given here, and the others as they came in."""
    return words + ''.join(f' |{cells(slices.get(slice, lent(values, slice)))}' for slice in operation.changed)


def cleared(operation, values):
    """The work slices, all zero."""
    return {slice: [0] * len(values[slice]) for slice in operation.work()}


def refusal_line(operation, values, refused):
    """The answer to a refused case: no `&mut` slice changes, but for work that was used."""
    if operation.answers_part:
        return 'part 0'
    slices = cleared(operation, values) if refused[0] in WORKED else {}
    return answer_line(operation, values, f'refused {refused[0]} {refused[1]}', slices)


def computed_line(operation, values):
    """The answer to an accepted case that is computed plainly."""
    numbers, slices = operation.computed(values)
    if operation.answers_part:
        return f'part {len(numbers)}{cells(numbers)}'
    return answer_line(operation, values, 'done' + cells(numbers), {**cleared(operation, values), **slices})
