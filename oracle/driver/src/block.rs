//! The operations on one block.

use merc_reduction::Block;

use crate::accept::{self, MOST_STATES};
use crate::answer::done;
use crate::line::{Line, Stop};
use crate::run::{Operation, rust};

pub const OPERATIONS: &[(&str, Operation)] = &[
    ("Block::new", new),
    ("Block::new_unmarked", new_unmarked),
    ("Block::len", len),
    ("Block::len_marked", len_marked),
    ("Block::has_marked", has_marked),
    ("Block::has_unmarked", has_unmarked),
];

/// The three numbers of a block.
pub fn numbers(block: &Block) -> [usize; 3] {
    [block.begin, block.marked_split, block.end]
}

fn construct(line: &mut Line, constructor: fn(usize, usize) -> Block) -> Result<String, Stop> {
    let (begin, end) = (line.number()?, line.number()?);
    line.end()?;
    accept::bounds(begin, end)?;
    Ok(done(&numbers(&rust(|| constructor(begin, end))?), &[]))
}

/// A block alone, accepted.
pub fn alone(line: &mut Line) -> Result<Block, Stop> {
    let block = Block { begin: line.number()?, marked_split: line.number()?, end: line.number()? };
    line.end()?;
    accept::block(block.begin, block.marked_split, block.end, MOST_STATES)?;
    Ok(block)
}

fn read<R: Into<usize>>(line: &mut Line, reader: fn(&Block) -> R) -> Result<String, Stop> {
    let block = alone(line)?;
    Ok(done(&[rust(|| reader(&block))?.into()], &[]))
}

fn new(line: &mut Line) -> Result<String, Stop> {
    construct(line, Block::new)
}

fn new_unmarked(line: &mut Line) -> Result<String, Stop> {
    construct(line, Block::new_unmarked)
}

fn len(line: &mut Line) -> Result<String, Stop> {
    read(line, Block::len)
}

fn len_marked(line: &mut Line) -> Result<String, Stop> {
    read(line, Block::len_marked)
}

fn has_marked(line: &mut Line) -> Result<String, Stop> {
    read(line, Block::has_marked)
}

fn has_unmarked(line: &mut Line) -> Result<String, Stop> {
    read(line, Block::has_unmarked)
}
