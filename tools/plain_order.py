"""`sort_topological` and what reads lists of pairs or labels, computed plainly from document 01."""
from plain import over, steps
from quotients import finishing_order


def sort_topological(v):
    """Each state's place in the finishing order, or in its opposite."""
    finished = finishing_order(v['n'], [(source, 0, target) for source, target in steps(v)])
    order = finished if v['reversed'] else finished[::-1]
    places = {state: place for place, state in enumerate(order)}
    return [], {'places': over([places[state] for state in range(v['n'])], v['places'])}


def is_subset_of(v):
    """Whether every pair of other, apart from the excluded one, is in self."""
    this, other = (set(zip(v[f'{list}_labels'], v[f'{list}_blocks'])) for list in ('self', 'other'))
    return [int(other - {(v['label'], v['block'])} <= this)], {}


def tau_hat(v):
    """tau_hat is L."""
    return [v['labels']], {}


def is_tau_hat(v):
    return [int(v['label'] == v['labels'])], {}
