//! The host forms: one block record, and a partition whose block table is a list of block records.

use crate::answer::done;
use crate::block;
use crate::lent::{Columns, Lent};
use crate::line::{Line, Stop};
use crate::partition::swapped;
use crate::run::{Operation, rust};

pub const OPERATIONS: &[(&str, Operation)] = &[("Block::unmark_all", unmark_all), ("swap_blocks_host", swap_blocks)];

fn unmark_all(line: &mut Line) -> Result<String, Stop> {
    let mut block = block::alone(line)?;
    rust(|| block.unmark_all())?;
    Ok(done(&[], &[&block::numbers(&block)]))
}

/// A partition with the fields of its list of records as columns.
fn read(line: &mut Line) -> Result<Lent, Stop> {
    let (n, count) = (line.number()?, line.number()?);
    let (elements, element_offset, element_to_block) = (line.column()?, line.column()?, line.column()?);
    let records = line.records()?;
    let field = |place: usize| records.iter().map(|record| record[place]).collect();
    let (begin, marked_split, end) = (field(0), field(1), field(2));
    Ok(Lent { n, count, columns: Columns { elements, element_offset, element_to_block, begin, marked_split, end } })
}

/// The fields of the records, record after record.
fn records(columns: &Columns) -> Vec<usize> {
    let record = |block: usize| [columns.begin[block], columns.marked_split[block], columns.end[block]];
    (0..columns.begin.len()).flat_map(record).collect()
}

fn swap_blocks(line: &mut Line) -> Result<String, Stop> {
    let (lent, left, right) = (read(line)?, line.number()?, line.number()?);
    line.end()?;
    let columns = swapped(lent, left, right)?;
    Ok(done(&[], &[&columns.element_to_block, &records(&columns)]))
}
