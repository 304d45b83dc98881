"""The lines of the quotients, which stand beside the Rust, and of the strong reduction, which stand alone."""
from bench_files import FILE_IN, FILE_OUT
from bench_line import RESULT_COLUMNS, WORK_SLICES, Line, both, one


# Two ways to name the columns of a result's rows.
ROWS = ('x', 'y', 'z'), ('result_source', 'result_label', 'result_target')


def lent(works):
    """The columns of a result's rows, and the work slices for parameters of these names."""
    rows = {name: f'{column}[..m]' for names in ROWS for name, column in zip(names, RESULT_COLUMNS)}
    return {**rows, **{name: f'{column}[..n + m + 1]' for name, column in zip(works.split(), WORK_SLICES)}}


# The blocks are those of the signatures. Both switches are off: every row is one of the result, or a duplicate.
BY_BLOCKS = {'home': 'signed_element_to_block[..n]', 'eliminate_inert_taus': 'false', 'eliminate_tau_loops': 'false',
             'inerts': 'false', 'loops': 'false'}
NAIVE = {**BY_BLOCKS, **lent('a b c order spare')}
BY_CHOSEN = {**BY_BLOCKS, 'branching': 'true', **lent('a b c order spare chosen')}
SEARCHES = 'order back_source back_label back_target forward backward queue'
COMPONENTS = {**lent(SEARCHES), 'numbers': 'places[..n]'}
CYCLES = {'eliminate_tau_selfloops': 'true', **lent('numbers mid_source mid_label mid_target a b c order spare')}
TEN = 'elements element_offset element_to_block begin marked_split end numbers labels blocks spare'
REDUCED = {**lent(TEN), 'block': 'block_of[..n]'}

QUOTIENTS = (
    *both('quotient_lts_naive', one('quotient::quotient_lts_naive'), one('quotient::cores::quotient_rows'),
          partition='signed', values=NAIVE),
    *both('quotient_lts_block', one('quotient_block::quotient_lts_block'), one('quotient_block::cores::quotient_block'),
          partition='signed', values=BY_CHOSEN),
    *both('remove_redundant_transitions', one('quotient_redundant::remove_redundant_transitions'),
          one('quotient_redundant::cores::remove_redundant_transitions'), values=lent(SEARCHES)),
    *both('tau_scc_decomposition', one('quotient_components::tau_scc_decomposition'),
          one('quotient_components::cores::tau_scc_decomposition'), values=COMPONENTS),
    *both('tau_cycle_elimination_and_reorder', one('quotient_cycles::tau_cycle_elimination_and_reorder'),
          one('quotient_cycles::cores::tau_cycle_elimination_and_reorder'), values=CYCLES),
)
REDUCTION = (
    Line('strong_reduction', 'core', one('reduction::cores::reduce'), values=REDUCED),
    Line('strong_reduction', 'public', one('reduction::strong_reduction'), values=REDUCED),
    Line('reduce_file', 'public', one('file_reduction::reduce_file'), values={'input': FILE_IN, 'output': FILE_OUT}),
)
