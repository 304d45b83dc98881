"""Operations on a table computed plainly from document 01, to hold answers to: numbers, and the slices at return."""


def rows(v):
    """The rows of a table."""
    return list(zip(v['source'], v['label'], v['target']))[:v['m']]


def steps(v):
    """The steps of the accepted rows, hidden ones alone or all: pairs of states."""
    return [(source, target) for source, label, target in rows(v) if not v['hidden'] or label == 0]


def over(cells, column):
    """A column with these cells in its first places."""
    return list(cells) + column[len(cells):]


def incoming(v):
    """All row numbers by target, then source, then label."""
    table = rows(v)
    order = sorted(range(v['m']), key=lambda row: (table[row][2], table[row][0], table[row][1]))
    return [v['m']], {'incoming': over(order, v['incoming'])}


def reached_from(state, left):
    """The start, and what some step leads to from what is reached, until there is nothing new."""
    after = {}
    for source, target in left:
        after.setdefault(source, []).append(target)
    reached, new = {state}, {state}
    while new:
        new = {target for source in new for target in after.get(source, ())} - reached
        reached |= new
    return reached


def reachable(v):
    reached = reached_from(v['state'], steps(v))
    return [len(reached)], {'reached': over([int(s in reached) for s in range(v['n'])], v['reached'])}


def outgoing_transitions(v):
    """The first row of the state, or where it would stand, and the row after its last."""
    sources = [source for source, _, _ in rows(v)]
    before = sum(source < v['state'] for source in sources)
    return [before, before + sources.count(v['state'])], {}


def next_incoming(v):
    """The first row into the state at or after the one to ask from, or m."""
    into = [row for row, (_, _, target) in enumerate(rows(v)) if target == v['state']]
    return [next((row for row in into if row >= v['from']), v['m'])], {}


def outer_rows(v):
    """The rows of the states reached by hidden steps that stay in the state's block, without these steps."""
    block_of = dict(enumerate(v['element_to_block'])).get
    inner = {row for row in rows(v) if row[1] == 0 and block_of(row[2]) == block_of(v['state'])}
    reached = reached_from(v['state'], [(source, target) for source, _, target in inner])
    return [row for row in rows(v) if row[0] in reached and row not in inner]


def given_list(v, state):
    """The pairs from the state's start to before the next one."""
    begin, end = v['starts'][state:state + 2]
    return list(zip(v['given_labels'][begin:end], v['given_blocks'][begin:end]))


def sorted_pairs(v):
    """What the sorted branching signature pushes: a pair for each step; for a hidden one within the block, a list."""
    block_of, pushed = dict(enumerate(v['element_to_block'])).get, []
    for _, label, target in (row for row in rows(v) if row[0] == v['state']):
        inner = label == 0 and block_of(target) == block_of(v['state'])
        pushed += given_list(v, target) if inner else [(label, block_of(target))]
    return pushed


def strong_pairs(v):
    """A pair for each step of the state."""
    block_of = dict(enumerate(v['element_to_block'])).get
    return [(label, block_of(target)) for source, label, target in rows(v) if source == v['state']]


def inductive_pairs(v):
    """The same, but for a hidden step to a marked state of the block tau_hat and the target's key."""
    block_of = dict(enumerate(v['element_to_block'])).get

    def pair(label, target):
        block = block_of(target)
        inner = label == 0 and block is not None and block == block_of(v['state'])
        is_marked = inner and v['element_offset'][target] >= v['marked_split'][block]
        return (v['labels'], v['state_to_key'][target]) if is_marked else (label, block)
    return [pair(label, target) for source, label, target in rows(v) if source == v['state']]


def branching_pairs(v):
    block_of = dict(enumerate(v['element_to_block'])).get
    return [(label, block_of(target)) for _, label, target in outer_rows(v)]


def signature(pushes):
    """The answer of the signature for which these pairs are pushed: as a set, ascending."""
    def computed(v):
        pairs = sorted(set(pushes(v)))
        columns = {'result_labels': [label for label, _ in pairs], 'result_blocks': [block for _, block in pairs]}
        return [len(pairs)], {name: over(cells, v[name]) for name, cells in columns.items()}
    return computed


def mark(v, elements, offsets, splits, state):
    """`mark_element`: an unmarked state changes places with the one at marked_split - 1."""
    block, place = v['element_to_block'][state], offsets[state]
    if place >= splits[block]:
        return
    splits[block] -= 1
    other = elements[splits[block]]
    elements[place], elements[splits[block]] = other, state
    offsets[other], offsets[state] = place, splits[block]


def hidden_sources(v):
    """For each state the sources of its hidden incoming rows, ascending."""
    sources = [[] for _ in range(v['n'])]
    for source, label, target in rows(v):
        if label == 0:
            sources[target].append(source)
    return sources


def mark_backward_closure(v):
    """From end - 1 down, incoming hidden sources in the same block are marked, until the marked stretch is read."""
    elements, offsets, splits = v['elements'][:], v['element_offset'][:], v['marked_split'][:]
    sources, place = hidden_sources(v), v['end'][v['block']] - 1
    while place >= splits[v['block']]:
        for source in sources[elements[place]]:
            if v['element_to_block'][source] == v['block']:
                mark(v, elements, offsets, splits, source)
        place -= 1
    return [], {'elements': elements, 'element_offset': offsets, 'marked_split': splits}


def has_cycle(v):
    """Whether the accepted rows hold a cycle longer than a self-loop: states that nothing leads to go, one by one."""
    leading = {(source, target) for source, target in steps(v) if source != target}
    into, after = [0] * v['n'], [[] for _ in range(v['n'])]
    for source, target in leading:
        into[target] += 1
        after[source].append(target)
    free = [state for state in range(v['n']) if into[state] == 0]
    for state in free:
        for target in after[state]:
            into[target] -= 1
            if into[target] == 0:
                free.append(target)
    return len(free) < v['n']


def iter_block_refusal(v):
    """Nothing but that it is done."""
    return [], {}
