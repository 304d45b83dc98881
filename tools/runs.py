"""Cells in runs, as docs/REPLAY.md has them: `V*K` is K cells that hold V, `V+K` K cells from V on, each one more."""
import re

WORD = re.compile('([0-9]+)(?:([*+])([0-9]+))?')
STEPS = {'*': 0, '+': 1}


def spread(word, most, room):
    """The cells that a word stands for, at most `room` of at most `most`; None if it stands for none."""
    found = WORD.fullmatch(word)
    if not found:
        return None
    first, step, number = int(found[1]), STEPS.get(found[2], 0), int(found[3] or 1)
    if not found[2]:
        return [first] if first <= most else None
    if not 1 <= number <= room or first + step * (number - 1) > most:
        return None
    return [first + step * place for place in range(number)]


def joined(run, cell):
    """The run with a cell more: one of a single cell takes one that is the same or one more; None if it can't."""
    first, number, step = run
    steps = (0, 1) if number == 1 else (step,)
    return next(((first, number + 1, step) for step in steps if cell == first + step * number), None)


def of(cells):
    """The runs of these cells from left to right, each as long as it can be: its first cell, their number, the step."""
    found = []
    for cell in cells:
        longer = joined(found[-1], cell) if found else None
        if longer:
            found[-1] = longer
        else:
            found.append((cell, 1, 0))
    return found


def written(cells):
    """The cells in runs, with a blank before each."""
    return ''.join(f' {first}' + (f'{"*+"[step]}{number}' if number > 1 else '') for first, number, step in of(cells))


def answer(line):
    """An answer with the cells of its slices, or of its part, in runs."""
    head, *slices = line.split(' |')
    if head.startswith('part'):
        word, length, *cells = head.split()
        head = f'{word} {length}{written(map(int, cells))}'
    return head + ''.join(f' |{written(map(int, cells.split()))}' for cells in slices)
