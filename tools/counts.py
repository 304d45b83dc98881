"""The table of docs/DIFFERENCES.md: how many cases of each operation agreed in one run of `compare`, of each kind."""
import datetime

import alike
import document
import needs
import operations
import refusals

# The part of the page that has it.
PART = 'counts'


def accepted(operation, agreed):
    """The cases that 01 accepts: those that the Rust answered, and how they were compared; those computed alone."""
    words = alike.WORDS.get(operation.alike)
    rust = f'{agreed["Rust"]:,}{f" {words}" if words else ""}' if operation.has_rust else 'none'
    return f'{rust}; computed: {agreed["plain"]:,}' if agreed['plain'] else rust


def refused(number, agreed, places):
    """The cases that 01 refuses with this number, and at how many places, if there are several."""
    kind = f'refused {number}'
    at = f' at {len(places[kind]):,} places' if len(places[kind]) > 1 else ''
    return f'{number}: {agreed[kind]:,}{at}'


def row(operation, agreed, places):
    """The row of an operation."""
    numbers = [number for number in refusals.ORDER if agreed[f'refused {number}']]
    found = ', '.join(refused(number, agreed, places) for number in numbers)
    return f'`{operation.name}`', accepted(operation, agreed), found, f'{agreed["no case"]:,}'


def head(tallies, given, seconds):
    """The line above the table: when, on what kind of processor and with which cases it was counted."""
    total = sum(sum(tally.agreed.values()) for tally in tallies.values())
    run = f'{datetime.date.today()}, {needs.machine()}, seed {given.seed}, --cases {given.cases}'
    return f'{run}, {seconds:,.0f} seconds: {total:,} cases together.'


def part(tallies, given, seconds):
    """The line and the table of a run: for each operation that was run what agreed, and the places of each refusal."""
    rows = [row(operations.BY_NAME[name], tally.agreed, tally.places) for name, tally in tallies.items()]
    table = document.table(('operation', 'Rust', 'refused', 'no case'), rows, left=4)
    return f'{head(tallies, given, seconds)}\n\n{table}'
