"""The text of antt, as definitions, laws and the clauses of a contract have it: its words, and which of them are bound
where they stand. The others are the free names."""
import re

OPEN, CLOSE = {'(': ')', '{': '}'}, {')', '}'}
COMMENT = re.compile(r'(?:^|(?<=\s))--(?:\s.*)?$', re.MULTILINE)
WORD = re.compile(r'"[^"]*"|[(){};,]|[^\s(){};,"]+')


def uncommented(text):
    """The text with its comments blank, line by line."""
    return COMMENT.sub('', text)


def split_word(word):
    """A word, and the dot that ends the names after a λ."""
    return [word[:-1], '.'] if len(word) > 1 and word.endswith('.') else [word]


def words(text):
    """The words of a text without comments: names, brackets and signs. A Rattle name loses its «»."""
    return [part.strip('«»') for word in WORD.findall(text) for part in split_word(word)]


def tree(found):
    """Words with those in brackets as a list of their own, of which the first word is the bracket."""
    levels = [[]]
    for word in found:
        if word in OPEN:
            levels.append([word])
        elif word in CLOSE:
            inner = levels.pop()
            levels[-1].append(inner)
        else:
            levels[-1].append(word)
    return levels[0]


def parts(items, sign):
    """The items between the signs."""
    found = [[]]
    for item in items:
        if item == sign:
            found.append([])
        else:
            found[-1].append(item)
    return found


def before(items, *signs):
    """How many items stand before the first of these signs; all if there is none."""
    return next((place for place, item in enumerate(items) if item in signs), len(items))


def flat(items):
    """The words of a tree, without brackets."""
    for item in items:
        if isinstance(item, list):
            yield from flat(item[1:])
        else:
            yield item


def binder(item):
    """Whether this is (x y : T) or {x y : T}."""
    return isinstance(item, list) and ':' in item[1:] and not any(isinstance(x, list) for x in item[1:item.index(':')])


def telescope(items, bound):
    """The free names of binders, one after the other, and what is bound behind them."""
    free, bound = [], set(bound)
    for item in items:
        if binder(item):
            colon = item.index(':')
            free += names(item[colon + 1:], bound)
            bound |= set(item[1:colon])
        else:
            bound |= set(flat([item]))
    return free, bound


def after_bracket(item, bound):
    """The free names in brackets. Of `x = ..` in braces, a field or a named argument, the first word is no name."""
    if item[0] == '{':
        given = [part[2:] if part[1:2] == ['='] else part for part in parts(item[1:], ';')]
        return [name for part in given for name in names(part, bound)]
    return names(item[1:], bound)


def names(items, bound):
    """The free names of an expression: those of each part between commas."""
    return [name for part in parts(items, ',') for name in part_names(part, set(bound))]


def part_names(items, bound):
    """What a λ, a `let` or a binder of a type binds is bound to the end of the part."""
    free, waiting, place = [], [], 0
    while place < len(items):
        item, rest = items[place], items[place + 1:]
        if item == 'λ':
            dot = before(rest, '.')
            more, bound = telescope(rest[:dot], bound)
            free, place = free + more, place + dot + 1
        elif item == 'let':
            end = before(rest, ':', '=')
            waiting.append(set(flat(rest[:end])))
            place += end
        elif item == 'in' and waiting:
            bound |= waiting.pop()
        elif binder(item):
            more, bound = telescope([item], bound)
            free += more
        elif isinstance(item, list):
            free += after_bracket(item, bound)
        elif not item.startswith(('.', '"')) and item.split('.')[0] not in bound:
            free.append(item)
        place += 1
    return free
