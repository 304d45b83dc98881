"""The lines of the files, which stand alone: no Rust reads or writes them. docs/FILE.md has their bytes."""
import bench_inputs
from bench_line import RESULT_COLUMNS, both, one

# The input file of the table, and room for its output file with a block for each state.
FILE_IN = 'file_in[..30 + 6 * m]'
FILE_OUT = 'file_out[..40 + 6 * m + 2 * n]'
READ = {'bytes': FILE_IN, 'table': 'held',
        **{column: f'{result}[..m]' for column, result in zip(('source', 'label', 'target'), RESULT_COLUMNS)}}
# The blocks are those of the signatures.
WRITTEN = {'bytes': FILE_OUT, 'states': 'n', 'blocks': 'signed_element_to_block[..n]'}
READ_CORE = ('held', 'file::cores::header'), ('', 'file::cores::read_rows')

# Besides the answer the last target counts: the last cell that is read, or its low byte as it is written.
FILES = (
    *both('read_file', one('file::reading::read_file'), READ_CORE, rust='', values=READ, counted='result_2[m - 1]'),
    *both('write_file', one('file::writing::write_file'), one('file::cores::write'), rust='', values=WRITTEN,
          counted='file_out[38 + 6 * m]'),
)


def due(line, shape, n):
    """What a call of one of the lines counts for, told without the port; a core answers nothing."""
    rows = bench_inputs.rows_of(shape, n)
    m, last = len(rows), max(rows)[2]
    answer, cell = {'read_file': (m, last), 'write_file': (40 + 6 * m + 2 * n, last % 256)}[line.name]
    return answer + cell if line.side == 'public' else cell
