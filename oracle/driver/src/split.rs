//! The operations that split a block.

use merc_collections::BlockIndex;
use merc_lts::StateIndex;
use merc_reduction::{BlockPartition, BlockPartitionBuilder};

use crate::accept::{self, accept};
use crate::answer::done;
use crate::lent::Lent;
use crate::line::{Line, Stop};
use crate::run::{Operation, rust};

pub const OPERATIONS: &[(&str, Operation)] =
    &[("partition_marked_with", partition_marked_with), ("split_marked", split_marked)];

/// Something of the block is marked, and the numbers of what is marked are dense; one state's number isn't read.
fn accept_numbers(lent: &Lent, block: usize, numbers: &[usize]) -> Result<(), Stop> {
    let marked = lent.marked(block);
    accept(!marked.is_empty())?;
    if lent.columns.end[block] - lent.columns.begin[block] == 1 {
        return Ok(());
    }
    accept::dense(&marked.iter().map(|&state| numbers[state]).collect::<Vec<_>>())
}

/// Runs the Rust on numbers in a slice: the indices that it answers.
fn divide(partition: &mut BlockPartition, block: usize, numbers: &[usize]) -> Vec<usize> {
    let number = |state: StateIndex, _: &BlockPartition| BlockIndex::new(numbers[state.value()]);
    let mut builder = BlockPartitionBuilder::default();
    let indices = partition.partition_marked_with(BlockIndex::new(block), &mut builder, number);
    indices.map(|index| index.value()).collect()
}

fn partition_marked_with(line: &mut Line) -> Result<String, Stop> {
    let (lent, block, numbers) = (Lent::read(line)?, line.number()?, line.column()?);
    let mut work = [line.column()?, line.column()?, line.column()?];
    line.end()?;
    lent.accept()?;
    accept(numbers.len() >= lent.n && work.iter().all(|slice| slice.len() > lent.n))?;
    lent.accept_block(block)?;
    accept_numbers(&lent, block, &numbers)?;
    let (mut partition, mut columns) = (lent.partition(), lent.columns);
    let indices = rust(|| divide(&mut partition, block, &numbers))?;
    let (first, count) = (lent.count, partition.blocks.len());
    assert!(indices[1..].iter().copied().eq(first..count), "the new indices are a run at the end");
    columns.take_back(&partition);
    work.iter_mut().for_each(|slice| slice.fill(0));
    let [old_elements, block_sizes, spare] = &work;
    let slices = [&columns.all()[..], &[old_elements, block_sizes, spare]].concat();
    Ok(done(&[indices[0], first, count], &slices))
}

fn split_marked(line: &mut Line) -> Result<String, Stop> {
    let (lent, block, choice) = (Lent::read(line)?, line.number()?, line.bytes()?);
    line.end()?;
    lent.accept()?;
    accept(choice.len() >= lent.n)?;
    lent.accept_block(block)?;
    let (mut partition, mut columns) = (lent.partition(), lent.columns);
    rust(|| partition.split_marked(block, |state| choice[state.value()] != 0))?;
    columns.take_back(&partition);
    Ok(done(&[partition.blocks.len()], &columns.all()))
}
