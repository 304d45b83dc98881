"""Lines that are no case."""
from lines import Case, room, written
from operations import FLAG, RECORDS

WRONG_WORDS = ('65536', '131071', '4294967296', '18446744073709551616', 'x', '-1', '1x', '|')


def too_large(kind):
    """What is no cell of a slice of this kind."""
    return (0, 0, kind.largest + 1) if kind == RECORDS else kind.largest + 1


def lines(operation, example):
    """Made of a sound case: a word too few or too many, a wrong word, another name, a flag of 2, a slice too long."""
    right = written(operation, example)
    words = right.split(' ')
    yield ' '.join(words[:-1])
    yield ' '.join(words[:min(2, len(words) - 1)])
    yield right + ' 0'
    yield words[0]
    yield ' '.join([words[0] + 's', *words[1:]])
    yield ' '.join([words[0].lower() + '_', *words[1:]])
    for word in WRONG_WORDS:
        yield ' '.join([words[0], word, *words[2:]])
        yield ' '.join([*words[:-1], word])
    for name, value in example.items():
        kind = operation.parameters.get(name)
        if kind == FLAG:
            yield written(operation, {**example, name: 2})
        if isinstance(value, list):
            cell = (0, 0, 0) if kind == RECORDS else 0
            yield written(operation, {**example, name: [cell] * (room(operation, name) + 1)})
            yield written(operation, {**example, name: [*value[:-1], too_large(kind)]})


def cases(operation, example):
    return (Case(operation, None, line) for line in lines(operation, example))
