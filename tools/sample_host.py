"""The sample's part for a partition whose blocks are a list of records: the column form's, and the longest lists."""
import cases_bad
import cases_host
import sample_partition
from cases_host import as_records
from lines import Case
from operations import BY_NAME, RECORDS_ROOM
from partitions import laid_out

SWAP = BY_NAME['swap_blocks_host']


def of_columns(entries):
    """The column form's entries with the blocks as records; a case that is then there already is left out."""
    seen = set()
    for entry in entries:
        if not isinstance(entry, Case):
            yield entry.replace(f'# {cases_host.COLUMN_FORM.name}:', f'# {SWAP.name}:')
            continue
        case = Case(SWAP, as_records(entry.values))
        if case.line not in seen:
            seen.add(case.line)
            yield case


def of_list():
    """No record, and as many records as `replay` takes."""
    v = as_records(laid_out([1, 0], [(0, 1, 1), (1, 1, 2)]))
    yield f'# {SWAP.name}: no record, and as many as there is room for'
    for blocks in ([], v['blocks'] + [(9, 0, 9)] * (RECORDS_ROOM - 2)):
        yield Case(SWAP, {**v, 'blocks': blocks, 'left': 0, 'right': 1})


def of(operation):
    yield from of_columns(sample_partition.of_partition(cases_host.COLUMN_FORM, sample_partition.DAMAGED))
    yield from of_list()


def of_no_case():
    """A word too few, a word too many, a list that is too long, and a field that is too large."""
    lines = list(cases_bad.cases(SWAP, cases_host.example(SWAP)))
    yield from (lines[0], lines[2], *lines[-2:])
