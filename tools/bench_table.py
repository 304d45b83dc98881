"""The tables of the benchmark, out of the best times of each call, and lines of text as a document has them."""
import textwrap
from typing import NamedTuple

import document
from bench_files import FILES
from bench_inputs import SHAPES, SIZES
from bench_lines import CALLS
from bench_quotients import QUOTIENTS

SIDES = ('core', 'public', 'check')
WIDTH = 140


class Key(NamedTuple):
    """A call on an input. Of the port `side` is that of the line, of the Rust it is 'Rust'."""
    name: str
    side: str
    shape: str
    n: int


def port_key(line, shape, n):
    return Key(line.name, line.side, shape, n)


def rust_key(line, shape, n):
    return Key(line.rust, 'Rust', shape, n)


def wrapped(text, indent=''):
    """Text in lines that are no longer than a document's."""
    lines = textwrap.wrap(text, WIDTH, subsequent_indent=indent, break_long_words=False, break_on_hyphens=False)
    return ''.join(f'{line}\n' for line in lines)


def listed(items):
    """A markdown list of names and what each is."""
    return ''.join(wrapped(f'- {name}: {what}', '  ') for name, what in items.items())


def table(heads, rows, left=1):
    """A markdown table, or nothing where no row was measured."""
    return document.table(heads, rows, left) if rows else ''


def nanoseconds(best, key, reset):
    """The time of a call, without that of what is done before it; None where it was not measured."""
    before = Key(reset, 'Rust' if key.side == 'Rust' else 'reset', key.shape, key.n)
    return best[key] - best[before] if reset else best.get(key)


def series(best, line, shape, key_of):
    """The times over the sizes."""
    return [nanoseconds(best, key_of(line, shape, n), line.reset) for n in SIZES]


def micros(time):
    """Microseconds, with three digits that count."""
    if time is None:
        return ''
    value = time / 1000
    digits = 0 if value >= 100 else 1 if value >= 10 else 2 if value >= 1 else 3
    return f'{value:,.{digits}f}'


def quotient(one, other):
    known = one is not None and other is not None
    return one / other if known and one > 0 and other > 0 else None


def short(number):
    return '' if number is None else f'{number:,.0f}' if number >= 100 else f'{number:.1f}'


def quotients(times, others):
    """A time by the other, one after the other, up to the last that is known."""
    shown = ' '.join(short(quotient(time, other)) or '-' for time, other in zip(times, others))
    return shown.rstrip(' -')


def mean_growth(times):
    known = [time for time in times if time is not None]
    whole = quotient(known[-1], known[0]) if len(known) > 1 else None
    return None if whole is None else whole ** (1 / (len(known) - 1))


def last_quotient(times, others):
    """A time by the other at the greatest n at which both are known."""
    known = [quotient(time, other) for time, other in zip(times, others)]
    return next((value for value in reversed(known) if value is not None), None)


def row(name, side, times, rust):
    return (name, side, *map(micros, times), quotients(times[1:], times), quotients(times, rust) if rust else '')


def rows_of(best, name, lines, shape):
    """The rows of an operation: the Rust's calls, each once, and the port's."""
    shown, rows = set(), []
    for line in sorted(lines, key=lambda line: SIDES.index(line.side)):
        rust = series(best, line, shape, rust_key) if line.rust else None
        if rust and line.rust not in shown:
            shown.add(line.rust)
            rows.append(row('', 'Rust' if line.rust == name else f'Rust: {line.rust}', rust, None))
        rows.append(row('', line.side, series(best, line, shape, port_key), rust))
    return [(f'`{name}`' if place == 0 else '', *cells[1:]) for place, cells in enumerate(rows)]


def measured(best, lines):
    """The lines of which there are times, without those that only make others comparable."""
    known = {(key.name, key.side) for key in best}
    return [line for line in lines if line.side in SIDES and (line.name, line.side) in known]


def by_name(lines):
    """The lines of each operation."""
    return {name: [line for line in lines if line.name == name] for name in dict.fromkeys(line.name for line in lines)}


HEADS = ('side', *(f'{n:,}' for n in SIZES), 'growth', 'times the Rust')


def of_shape(best, shape):
    """Every line but those of the quotients and of the files on inputs of one shape."""
    lines = by_name(measured(best, [line for line in CALLS if line not in (*QUOTIENTS, *FILES)]))
    rows = [cells for name in lines for cells in rows_of(best, name, lines[name], shape)]
    return table(('operation', *HEADS), rows, 2)


def over_shapes(best, lines):
    """The rows of some lines on inputs of every shape."""
    return [(cells[0], shape if cells[0] else '', *cells[1:]) for name, named in by_name(measured(best, lines)).items()
            for shape in SHAPES for cells in rows_of(best, name, named, shape)]


def of_quotients(best):
    return table(('operation', 'shape', *HEADS), over_shapes(best, QUOTIENTS), 3)


def of_files(best):
    """No Rust stands beside these."""
    return table(('operation', 'shape', *HEADS[:-1]), [cells[:-1] for cells in over_shapes(best, FILES)], 3)


def greatest(values):
    """The shape with the greatest value, and the value."""
    known = {shape: value for shape, value in values.items() if value is not None}
    return max(known.items(), key=lambda item: item[1]) if known else ('', None)


def worst_row(best, line):
    """The shape on which the port is slowest beside the Rust at the greatest n that both have, and the steepest one.

    Where there is no Rust, it is the shape on which the port takes longest.
    """
    port = {shape: series(best, line, shape, port_key) for shape in SHAPES}
    rust = {shape: series(best, line, shape, rust_key) for shape in SHAPES}
    slow, ratio = greatest({shape: last_quotient(port[shape], rust[shape]) for shape in SHAPES})
    slow = slow or greatest({shape: times[-1] for shape, times in port.items()})[0]
    steep, most = greatest({shape: mean_growth(port[shape]) for shape in SHAPES})
    return (f'`{line.name}`', line.side, slow, micros(port[slow][-1]), short(ratio), steep, short(most),
            short(mean_growth(rust[steep])))


def worst(best):
    """For each line the shapes that are worst for the port."""
    heads = ('operation', 'side', 'slowest on', f'µs at {SIZES[-1]:,}', 'times the Rust', 'steepest on', 'growth',
             "the Rust's growth")
    lines = sorted((line for line in measured(best, CALLS) if line.side != 'check'), key=lambda line: line.side)
    return table(heads, [worst_row(best, line) for line in lines], 3)
