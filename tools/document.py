"""Parts of a markdown document that a program writes: each stands between two marker lines with its name."""
import needs


def around(path, name):
    """What stands before the part of that name and after it, the marker lines with it."""
    first, last = f'<!-- {name} -->\n', f'<!-- end of {name} -->\n'
    text = path.read_text() if path.is_file() else ''
    if text.count(first) != 1 or text.count(last) != 1:
        needs.stop(f'{path} has no two lines {first.strip()} and {last.strip()}')
    return text[:text.index(first) + len(first)], text[text.index(last):]


def replace(path, name, part):
    """Puts the text in the place of the part."""
    before, after = around(path, name)
    path.write_text(f'{before}\n{part}\n{after}')


def table(heads, rows, left=1):
    """A markdown table; the first `left` columns stand left, the others right."""
    rule = ['---' if place < left else '---:' for place in range(len(heads))]
    return ''.join('| ' + ' | '.join(map(str, row)) + ' |\n' for row in (heads, rule, *rows))
