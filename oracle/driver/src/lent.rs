//! A lent partition: n, the number of blocks, and six columns that may be longer than they need be.

use merc_collections::BlockIndex;
use merc_lts::StateIndex;
use merc_reduction::{Block, BlockPartition};

use crate::accept::{self, accept};
use crate::line::{Line, Stop};

/// The six columns, as lent or as handed back.
pub struct Columns {
    pub elements: Vec<usize>,
    pub element_offset: Vec<usize>,
    pub element_to_block: Vec<usize>,
    pub begin: Vec<usize>,
    pub marked_split: Vec<usize>,
    pub end: Vec<usize>,
}

impl Columns {
    pub fn read(line: &mut Line) -> Result<Columns, Stop> {
        Ok(Columns {
            elements: line.column()?,
            element_offset: line.column()?,
            element_to_block: line.column()?,
            begin: line.column()?,
            marked_split: line.column()?,
            end: line.column()?,
        })
    }

    pub fn all(&self) -> [&[usize]; 6] {
        [&self.elements, &self.element_offset, &self.element_to_block, &self.begin, &self.marked_split, &self.end]
    }

    /// State and block columns are at least n long.
    pub fn accept_lengths(&self, n: usize) -> Result<(), Stop> {
        accept(self.all().iter().all(|column| column.len() >= n))
    }

    /// The columns at return: what the Rust's partition holds, and beyond it what was lent.
    pub fn take_back(&mut self, partition: &BlockPartition) {
        put(&mut self.elements, partition.elements.iter().map(StateIndex::value));
        put(&mut self.element_offset, partition.element_offset.iter().copied());
        put(&mut self.element_to_block, partition.element_to_block.iter().map(BlockIndex::value));
        put(&mut self.begin, partition.blocks.iter().map(|block| block.begin));
        put(&mut self.marked_split, partition.blocks.iter().map(|block| block.marked_split));
        put(&mut self.end, partition.blocks.iter().map(|block| block.end));
    }
}

/// Writes the numbers over the first cells of a column.
pub fn put(column: &mut [usize], numbers: impl ExactSizeIterator<Item = usize>) {
    assert!(numbers.len() <= column.len(), "the result has room");
    for (cell, number) in column.iter_mut().zip(numbers) {
        *cell = number;
    }
}

/// A partition as an operation takes it.
pub struct Lent {
    pub n: usize,
    pub count: usize,
    pub columns: Columns,
}

impl Lent {
    pub fn read(line: &mut Line) -> Result<Lent, Stop> {
        Ok(Lent { n: line.number()?, count: line.number()?, columns: Columns::read(line)? })
    }

    /// What 01 asks of a lent partition: n in range, the columns long enough, and all of it consistent.
    pub fn accept(&self) -> Result<(), Stop> {
        accept::states(self.n)?;
        self.columns.accept_lengths(self.n)?;
        accept((1..=self.n).contains(&self.count))?;
        let elements = &self.columns.elements[..self.n];
        accept::permutation(elements)?;
        accept::inverse(elements, &self.columns.element_offset)?;
        self.accept_blocks()
    }

    /// Each block is in bounds, each state's position lies in its block, and the lengths add up to n.
    fn accept_blocks(&self) -> Result<(), Stop> {
        let Columns { begin, marked_split, end, element_offset, element_to_block, .. } = &self.columns;
        let mut total = 0;
        for block in 0..self.count {
            accept::block(begin[block], marked_split[block], end[block], self.n)?;
            total += end[block] - begin[block];
        }
        for state in 0..self.n {
            let (block, position) = (element_to_block[state], element_offset[state]);
            accept(block < self.count)?;
            accept(begin[block] <= position && position < end[block])?;
        }
        accept(total == self.n)
    }

    pub fn accept_state(&self, state: usize) -> Result<(), Stop> {
        accept(state < self.n)
    }

    pub fn accept_block(&self, block: usize) -> Result<(), Stop> {
        accept(block < self.count)
    }

    /// The marked states of a block, in the order of the elements.
    pub fn marked(&self, block: usize) -> &[usize] {
        &self.columns.elements[self.columns.marked_split[block]..self.columns.end[block]]
    }

    /// The Rust's partition, out of the first n cells and the first blocks.
    pub fn partition(&self) -> BlockPartition {
        let Columns { elements, element_offset, element_to_block, begin, marked_split, end } = &self.columns;
        let block = |b: usize| Block { begin: begin[b], marked_split: marked_split[b], end: end[b] };
        BlockPartition {
            elements: elements[..self.n].iter().copied().map(StateIndex::new).collect(),
            blocks: (0..self.count).map(block).collect(),
            element_to_block: element_to_block[..self.n].iter().copied().map(BlockIndex::new).collect(),
            element_offset: element_offset[..self.n].to_vec(),
        }
    }
}
