"""The crates of a checkout, and what each depends on, as its crates.txt says."""
import needs


def crates(root=needs.ROOT):
    """Each crate with what it depends on."""
    file = root / 'crates.txt'
    if not file.is_file():
        needs.stop(f'{root} is no checkout: it has no crates.txt')
    lines = [line.split('#')[0] for line in file.read_text().splitlines()]
    return {name.strip(): below.split() for name, below in (line.split(':') for line in lines if ':' in line)}


def in_order(depends, wanted):
    """The crates wanted and all that they depend on, dependencies first."""
    found = []

    def visit(name):
        if name in depends and name not in found:
            for below in depends[name]:
                visit(below)
            found.append(name)

    for name in wanted:
        visit(name)
    return found
