"""The rounds of a strong reduction, counted apart from the port: a state is signed anew where a target has moved."""
from typing import NamedTuple


class Counted(NamedTuple):
    rounds: int  # that split something
    blocks: int
    failing: int  # comparisons of signatures that fail, where a state's is held against those before it in its block


class Refinement:
    def __init__(self, n, rows):
        self.rows, self.sources = [[] for _ in range(n)], [[] for _ in range(n)]
        for source, label, target in rows:
            self.rows[source].append((label, target))
            self.sources[target].append(source)
        self.home, self.members = [0] * n, [list(range(n))]
        self.signature = [None] * n
        self.failing = 0

    def sign(self, states):
        for state in states:
            self.signature[state] = frozenset((label, self.home[target]) for label, target in self.rows[state])

    def classes(self, block):
        """The states of a block by signature, and the failing comparisons: one with each before the first alike."""
        found = {}
        for place, state in enumerate(self.members[block]):
            first, alike = found.setdefault(self.signature[state], (place, []))
            self.failing += first
            alike.append(state)
        return [alike for _, alike in found.values()]

    def split(self, block, parts):
        """The first part keeps the block; the states of the others, which move."""
        self.members[block] = parts[0]
        for part in parts[1:]:
            for state in part:
                self.home[state] = len(self.members)
            self.members.append(part)
        return [state for part in parts[1:] for state in part]


def counted(n, rows):
    made, changed, rounds = Refinement(n, rows), set(range(n)), 0
    while changed:
        made.sign(changed)
        divided = [(block, made.classes(block)) for block in {made.home[state] for state in changed}]
        moved = [state for block, parts in divided for state in made.split(block, parts)]
        rounds += bool(moved)
        changed = {source for state in moved for source in made.sources[state]}
    return Counted(rounds, len(made.members), made.failing)
