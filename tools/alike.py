"""How an answer of the Rust is compared with the one that is due: by the same line, or by what both lines mean."""
import plain
import quotients


def same(values, rust, due):
    """The two lines are the same."""
    return rust == due


def slices_of(line):
    """The slices at return that an answer shows."""
    return [[int(cell) for cell in slice.split()] for slice in line.split('|')[1:]]


def numbers_of(line):
    """The outcome's numbers."""
    return [int(word) for word in line.split('|')[0].split()[1:]]


def by_rows(values, rust, due):
    """The Rust's rows, each a label and a target, are those of the run of row numbers that is due."""
    first, end = numbers_of(due)
    return rust == ' '.join(['rows', *(f'{label} {target}' for _, label, target in plain.rows(values)[first:end])])


def by_marked_sets(values, rust, due):
    """Both mark the same states of the block and are the same outside it."""
    return rust.startswith('done') and marked_set(values, rust) == marked_set(values, due)


def marked_set(values, line):
    """The block's states as a set, its marked ones, what is outside the block, and whether offsets are the inverse."""
    elements, offsets, splits, *work = slices_of(line)
    begin, end = values['begin'][values['block']], values['end'][values['block']]
    inverse = all(offsets[elements[place]] == place for place in range(values['n']))
    states, marked = set(elements[begin:end]), set(elements[splits[values['block']]:end])
    return states, marked, elements[:begin], elements[end:], offsets[values['n']:], splits, work, inverse


def by_classes(values, rust, due):
    """Both number the same sets of states, whatever the numbers are."""
    if not rust.startswith('done') or numbers_of(rust) != numbers_of(due):
        return False
    (one, *rest), (other, *others) = slices_of(rust), slices_of(due)
    n = values['n']
    return renaming(one[:n], other[:n]) is not None and (one[n:], rest) == (other[n:], others)


def renaming(one, other):
    """What takes the numbers of one list to those of the other, place by place, and back; None if nothing does."""
    pairs = set(zip(one, other))
    there = dict(pairs)
    return there if len(pairs) == len(there) == len(set(other)) else None


def by_renumbering(values, rust, due):
    """The Rust's table is the one due under the renumbering that the Rust's own numbers of the states give.

    Its answer has one slice more: the new number of each state. What is due is computed with its own such numbers.
    """
    if not rust.startswith('done'):
        return False
    *columns, each = slices_of(rust)
    number_of, _, _ = quotients.reordered(values['n'], plain.rows(values), values['eliminate_tau_selfloops'])
    there = renaming(each, number_of)
    (n, labels, m, initial, state), dues = numbers_of(rust), slices_of(due)
    if there is None or set(there) != set(range(n)):
        return False
    moved = sorted((there[s], a, there[t]) for s, a, t in zip(*(column[:m] for column in columns[:3])))
    over = [[row[field] for row in moved] + columns[field][m:] for field in range(3)]
    return [n, labels, m, there[initial], there[state]] == numbers_of(due) and over + columns[3:] == dues


# What is compared, where it isn't the line.
WORDS = {by_rows: 'by their rows', by_marked_sets: 'by marked sets', by_classes: 'by the sets of states',
         by_renumbering: 'up to renumbering'}
