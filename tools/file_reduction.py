"""The strong reduction of a table file, computed plainly from document 01, to hold the program's answers to."""
import file_model
from file_model import Table


def signatures(table, blocks):
    """For each state its pairs of label and block, as a set."""
    pairs = [set() for _ in blocks]
    for source, label, target in table.rows:
        pairs[source].add((label, blocks[target]))
    return [frozenset(held) for held in pairs]


def numbered(keys):
    """The number of each state's key, the keys numbered as they first occur: by their least state."""
    numbers = {}
    return [numbers.setdefault(key, len(numbers)) for key in keys]


def refined(table):
    """The final block of each state, and the number of rounds that split something."""
    blocks, rounds = [0] * table.n, 0
    while True:
        split = numbered(zip(blocks, signatures(table, blocks)))
        if max(split) == max(blocks):
            return blocks, rounds
        blocks, rounds = split, rounds + 1


def reduced(table):
    """The reduced table, with the block of each source state, and the number of rounds."""
    blocks, rounds = refined(table)
    rows = sorted({(blocks[source], label, blocks[target]) for source, label, target in table.rows})
    return Table(max(blocks) + 1, table.labels, blocks[table.initial], rows, blocks), rounds


def reduced_line(table, result, rounds):
    """The line that is said of a reduction."""
    return (f'reduced: {table.n} states, {len(table.rows)} rows, {table.labels} labels '
            f'to {result.n} blocks, {len(result.rows)} rows in {rounds} rounds')


def answer(data):
    """What is due for the bytes of a file: those of the output file and the line said last."""
    table, refusal = file_model.read(data)
    if refusal:
        return b'', file_model.refused_line(refusal)
    result, rounds = reduced(table)
    return file_model.bytes_of(result), reduced_line(table, result, rounds)
