"""The answer that is due to a case, by document 01 and by what the oracle says."""
import needs
import programs
from lines import computed_line
from operations import BY_NAME


def refused(number, place):
    """What the oracle answers where 01 refuses: the Rust's own error, its panic and the block, or, not run, none."""
    return {11: 'error', 12: f'panic {place}'}.get(number, 'none')


def due(case, oracle):
    """The answer that is due, or None where the oracle's is not what it must be; that is None where it isn't asked."""
    return case.told(full(case, oracle))


def full(case, oracle):
    """The same with every cell written out."""
    if case.values is None:
        return case.bad_line if oracle in ('bad', None) else None
    if case.refused:
        return case.refusal_line if oracle in (refused(*case.refused), None) else None
    if case.operation.computed is None:
        return None if oracle in ('none', 'error', 'panic', 'bad', '') else oracle
    line = computed_line(case.operation, case.values)
    return line if oracle is None or case.operation.alike(case.values, oracle, line) else None


def never_reached(tallies):
    """What the operations that were run can refuse with, and did not: names of operations, each with a number.

    A tally's first part has how many cases of each kind agreed.
    """
    return [(name, number) for name, tally in tallies.items() for number in BY_NAME[name].refuses()
            if not tally[0][f'refused {number}']]


def shared_out(cases, answers):
    """For each case the oracle's answer: the next one, or none where it isn't asked."""
    if len(answers) > sum(case.asked() for case in cases):
        needs.stop('more answers than cases')
    left = iter(answers)
    return [next(left, '') if case.asked() else None for case in cases]


def asked_lines(cases):
    """The lines that the oracle is asked."""
    return [case.full for case in cases if case.asked()]


def due_of_each(cases):
    """The answer due to each case, or None."""
    [answers] = programs.answers({programs.ORACLE: asked_lines(cases)})
    return [due(case, oracle) for case, oracle in zip(cases, shared_out(cases, answers))]
