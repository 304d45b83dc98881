"""Quotients, rows that can go and hidden cycles, computed plainly from document 01: numbers, and slices at return."""
from plain import over, rows

RESULT_ROWS = ('result_source', 'result_label', 'result_target')


def laid(v, left):
    """The result columns with these rows in their first places, ascending, each once."""
    ordered = sorted(set(left))
    return {column: over([row[field] for row in ordered], v[column]) for field, column in enumerate(RESULT_ROWS)}


def header(v, n, left, initial):
    """The header of a result with these rows."""
    return [n, v['labels'], len(set(left)), initial]


def dropped(row, block_of, inert, loops):
    """Hidden steps inside a block between different states go with one switch, hidden self-loops with the other."""
    source, label, target = row
    if label != 0:
        return False
    return loops if source == target else inert and block_of[source] == block_of[target]


def between(table, block_of, inert, loops):
    """The rows between blocks."""
    kept = [row for row in table if not dropped(row, block_of, inert, loops)]
    return [(block_of[source], label, block_of[target]) for source, label, target in kept]


def quotient_lts_naive(v):
    block_of = v['element_to_block']
    left = between(rows(v), block_of, v['eliminate_inert_taus'], v['eliminate_tau_loops'])
    return header(v, v['count'], left, block_of[v['initial']]), laid(v, left)


def ways_on(v):
    """For each state that has one, the target of its first hidden row to another state of its block."""
    block_of, ways = v['element_to_block'], {}
    for source, label, target in rows(v):
        if label == 0 and source != target and block_of[source] == block_of[target]:
            ways.setdefault(source, target)
    return ways


def walked(state, ways):
    """Where the ways lead in the end; None if they return to a state."""
    met = set()
    while state in ways and state not in met:
        met.add(state)
        state = ways[state]
    return None if state in met else state


def chosen(v):
    """Of each block the first state in element order, or with `branching` where its walk ends, None if it returns."""
    first = [v['elements'][begin] for begin in v['begin'][:v['count']]]
    ways = ways_on(v) if v['branching'] else {}
    return [walked(state, ways) for state in first]


def no_bottom(v):
    """12: the lowest block whose walk returns to a state, or None."""
    return next(((12, block) for block, state in enumerate(chosen(v)) if state is None), None)


def quotient_lts_block(v):
    block_of, states = v['element_to_block'], set(chosen(v))
    left = between([row for row in rows(v) if row[0] in states], block_of, False, v['eliminate_tau_loops'])
    return header(v, v['count'], left, block_of[v['initial']]), laid(v, left)


def hidden_reach(n, table):
    """For each state the states that it reaches by hidden steps, none among them, as bits: grown until none is new."""
    after = [[] for _ in range(n)]
    for source, label, target in table:
        if label == 0:
            after[source].append(target)
    reached, growing = [1 << state for state in range(n)], True
    while growing:
        growing = False
        for state in (*range(n), *reversed(range(n))):
            grown = reached[state]
            for target in after[state]:
                grown |= reached[target]
            growing |= grown != reached[state]
            reached[state] = grown
    return reached


def reaches(reached, state, other):
    return reached[state] >> other & 1 == 1


def is_redundant(row, rivals, reached):
    """Whether hidden steps, one of the rivals and hidden steps lead from the row's source to its target."""
    source, _, target = row
    return any(rival != row and reaches(reached, source, rival[0]) and reaches(reached, rival[2], target)
               for rival in rivals)


def remaining(n, table):
    """The rows that are not redundant. A hidden self-loop is no witness."""
    reached, witnesses = hidden_reach(n, table), {}
    for row in table:
        if row[1] != 0 or row[0] != row[2]:
            witnesses.setdefault(row[1], []).append(row)
    return [row for row in table if not is_redundant(row, witnesses.get(row[1], ()), reached)]


def remove_redundant_transitions(v):
    left = remaining(v['n'], rows(v))
    return header(v, v['n'], left, v['initial']), laid(v, left)


def components(n, table):
    """The number of each state: states that reach each other share one, and numbers follow the least member."""
    reached, numbers, count = hidden_reach(n, table), [None] * n, 0
    for state in range(n):
        if numbers[state] is None:
            for other in range(state, n):
                if reaches(reached, state, other) and reaches(reached, other, state):
                    numbers[other] = count
            count += 1
    return numbers, count


def tau_scc_decomposition(v):
    numbers, count = components(v['n'], rows(v))
    return [count], {'numbers': over(numbers, v['numbers'])}


def finishing_order(n, table):
    """The states as a depth first search along hidden rows finishes them, self-loops ignored.

    It starts from 0 upward, and the last listed successor is visited first.
    """
    after = [[] for _ in range(n)]
    for source, label, target in table:
        if label == 0 and source != target:
            after[source].append(target)
    finished, met = [], set()
    for start in range(n):
        way = [] if start in met else [(start, reversed(after[start]))]
        met.add(start)
        while way:
            state, left = way[-1]
            target = next((target for target in left if target not in met), None)
            if target is None:
                finished.append(state)
                way.pop()
            else:
                met.add(target)
                way.append((target, reversed(after[target])))
    return finished


def reordered(n, table, eliminate):
    """The new number of each state, how many there are, and the rows between them."""
    component_of, count = components(n, table)
    merged = sorted(set(between(table, component_of, eliminate, eliminate)))
    place = {component: number for number, component in enumerate(finishing_order(count, merged))}
    return [place[component] for component in component_of], count, [(place[s], a, place[t]) for s, a, t in merged]


def tau_cycle_elimination_and_reorder(v):
    number_of, count, left = reordered(v['n'], rows(v), v['eliminate_tau_selfloops'])
    return [*header(v, count, left, number_of[v['initial']]), number_of[v['state']]], laid(v, left)
