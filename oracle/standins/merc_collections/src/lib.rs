//! STAND-IN for merc_collections, around the given scc_decomposition.rs.
mod scc_decomposition; // the given source, opened by open.py
pub use scc_decomposition::*;

use merc_utilities::TagIndex;
use std::fmt;

pub struct BlockTag;
pub type BlockIndex = TagIndex<BlockTag>;

pub trait Graph {
    type VertexIndex: Copy + PartialEq;
    type LabelIndex: Copy;
    fn num_of_vertices(&self) -> usize;
    fn iter_vertices(&self) -> impl Iterator<Item = Self::VertexIndex> + '_;
    fn outgoing_edges(
        &self,
        v: Self::VertexIndex,
    ) -> impl Iterator<Item = (Self::LabelIndex, Self::VertexIndex)> + '_;
}

/// A block number per element; number of blocks is one above the greatest number set.
#[derive(Debug)]
pub struct IndexedPartition {
    partition: Vec<BlockIndex>,
    num_of_blocks: usize,
}
impl IndexedPartition {
    pub fn with_subset(num_of_elements: usize, _subset: impl Iterator<Item = usize>) -> Self {
        IndexedPartition { partition: vec![BlockIndex::new(0); num_of_elements], num_of_blocks: 0 }
    }
    /// Not in the published sources: a partition from given numbers (driver only).
    pub fn from_numbers(numbers: &[usize], num_of_blocks: usize) -> Self {
        IndexedPartition { partition: numbers.iter().map(|&x| BlockIndex::new(x)).collect(), num_of_blocks }
    }
    pub fn set_block(&mut self, element: usize, block: BlockIndex) {
        self.num_of_blocks = self.num_of_blocks.max(block.value() + 1);
        self.partition[element] = block;
    }
    pub fn num_of_blocks(&self) -> usize {
        self.num_of_blocks
    }
    pub fn block_of(&self, element: usize) -> BlockIndex {
        self.partition[element]
    }
    pub fn num_of_elements(&self) -> usize {
        self.partition.len()
    }
}
impl fmt::Display for IndexedPartition {
    fn fmt(&self, f: &mut fmt::Formatter<'_>) -> fmt::Result {
        write!(f, "{:?}", self.partition)
    }
}
