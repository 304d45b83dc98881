//! The operations on a partition.

use merc_collections::BlockIndex;
use merc_lts::StateIndex;
use merc_reduction::{BlockPartition, Partition};

use crate::accept::{self, accept};
use crate::answer::{done, part};
use crate::block;
use crate::lent::{Columns, Lent};
use crate::line::{Line, Stop};
use crate::run::{Operation, rust};

pub const OPERATIONS: &[(&str, Operation)] = &[
    ("BlockPartition::new", new),
    ("block_number", block_number),
    ("is_element_marked", is_element_marked),
    ("read_block", read_block),
    ("num_of_blocks", num_of_blocks),
    ("len", len),
    ("iter_block", iter_block),
    ("display", display),
    ("mark_element", mark_element),
    ("swap_blocks", swap_blocks),
];

fn new(line: &mut Line) -> Result<String, Stop> {
    let (n, mut columns) = (line.number()?, Columns::read(line)?);
    line.end()?;
    accept::states(n)?;
    columns.accept_lengths(n)?;
    let partition = rust(|| BlockPartition::new(n))?;
    columns.take_back(&partition);
    Ok(done(&[partition.elements.len(), partition.blocks.len()], &columns.all()))
}

/// A partition alone, accepted.
fn lent_alone(line: &mut Line) -> Result<Lent, Stop> {
    let lent = Lent::read(line)?;
    line.end()?;
    lent.accept()?;
    Ok(lent)
}

/// A partition and a state of it, accepted.
fn lent_with_state(line: &mut Line) -> Result<(Lent, StateIndex), Stop> {
    let (lent, state) = (Lent::read(line)?, line.number()?);
    line.end()?;
    lent.accept()?;
    lent.accept_state(state)?;
    Ok((lent, StateIndex::new(state)))
}

/// A partition and a block of it, accepted.
fn lent_with_block(line: &mut Line) -> Result<(Lent, BlockIndex), Stop> {
    let (lent, block) = (Lent::read(line)?, line.number()?);
    line.end()?;
    lent.accept()?;
    lent.accept_block(block)?;
    Ok((lent, BlockIndex::new(block)))
}

fn block_number(line: &mut Line) -> Result<String, Stop> {
    let (lent, state) = lent_with_state(line)?;
    let partition = lent.partition();
    let block = rust(|| partition.block_number(state))?;
    Ok(done(&[block.value()], &[]))
}

fn is_element_marked(line: &mut Line) -> Result<String, Stop> {
    let (lent, state) = lent_with_state(line)?;
    let partition = lent.partition();
    let marked = rust(|| partition.is_element_marked(state))?;
    Ok(done(&[marked.into()], &[]))
}

/// The Rust calls it `block`.
fn read_block(line: &mut Line) -> Result<String, Stop> {
    let (lent, index) = lent_with_block(line)?;
    let partition = lent.partition();
    let block = rust(|| *partition.block(index))?;
    Ok(done(&block::numbers(&block), &[]))
}

fn num_of_blocks(line: &mut Line) -> Result<String, Stop> {
    let partition = lent_alone(line)?.partition();
    let number = rust(|| partition.num_of_blocks())?;
    Ok(done(&[number], &[]))
}

fn len(line: &mut Line) -> Result<String, Stop> {
    let partition = lent_alone(line)?.partition();
    let number = rust(|| partition.len())?;
    Ok(done(&[number], &[]))
}

fn iter_block(line: &mut Line) -> Result<String, Stop> {
    let (lent, block) = lent_with_block(line)?;
    let partition = lent.partition();
    let states = rust(|| partition.iter_block(block).collect::<Vec<_>>())?;
    Ok(part(&states.iter().map(StateIndex::value).collect::<Vec<_>>()))
}

fn display(line: &mut Line) -> Result<String, Stop> {
    let (lent, mut text) = (Lent::read(line)?, line.bytes()?);
    line.end()?;
    lent.accept()?;
    let partition = lent.partition();
    let shown = rust(|| partition.to_string())?.into_bytes();
    accept(shown.len() <= text.len())?;
    for (cell, byte) in text.iter_mut().zip(&shown) {
        *cell = usize::from(*byte);
    }
    Ok(done(&[shown.len()], &[&text]))
}

fn mark_element(line: &mut Line) -> Result<String, Stop> {
    let (lent, state) = lent_with_state(line)?;
    let (mut partition, mut columns) = (lent.partition(), lent.columns);
    rust(|| partition.mark_element(state))?;
    columns.take_back(&partition);
    Ok(done(&[], &[&columns.elements, &columns.element_offset, &columns.marked_split]))
}

/// Swaps two blocks of a partition, accepted: the columns at return.
pub fn swapped(lent: Lent, left: usize, right: usize) -> Result<Columns, Stop> {
    lent.accept()?;
    lent.accept_block(left)?;
    lent.accept_block(right)?;
    let (mut partition, mut columns) = (lent.partition(), lent.columns);
    rust(|| partition.swap_blocks(BlockIndex::new(left), BlockIndex::new(right)))?;
    columns.take_back(&partition);
    Ok(columns)
}

fn swap_blocks(line: &mut Line) -> Result<String, Stop> {
    let (lent, left, right) = (Lent::read(line)?, line.number()?, line.number()?);
    line.end()?;
    let Columns { element_to_block, begin, marked_split, end, .. } = &swapped(lent, left, right)?;
    Ok(done(&[], &[element_to_block, begin, marked_split, end]))
}
