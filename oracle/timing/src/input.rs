//! The input that tools/bench_inputs.py makes: numbers and then columns, all of them u16.
use merc_collections::BlockIndex;
use merc_lts::{LabelIndex, LabelledTransitionSystem, StateIndex};
use merc_reduction::{Block, BlockPartition};
use std::io::Read;

pub type Pairs = Vec<(LabelIndex, BlockIndex)>;

pub struct Input {
    words: Vec<usize>,
    at: usize,
}

impl Input {
    pub fn read() -> Input {
        let mut bytes = Vec::new();
        std::io::stdin().read_to_end(&mut bytes).expect("standard input is read");
        let words = bytes.chunks(2).map(|b| b[0] as usize + 256 * b[1] as usize).collect();
        Input { words, at: 0 }
    }

    pub fn column(&mut self, length: usize) -> Vec<usize> {
        self.at += length;
        self.words[self.at - length..self.at].to_vec()
    }

    pub fn number(&mut self) -> usize {
        self.column(1)[0]
    }

    pub fn table(&mut self, n: usize, m: usize, labels: usize) -> LabelledTransitionSystem<String> {
        let (source, label, target) = (self.column(m), self.column(m), self.column(m));
        let row = |i: usize| (StateIndex::new(source[i]), LabelIndex::new(label[i]), StateIndex::new(target[i]));
        let rows: Vec<_> = (0..m).map(row).collect();
        let names = (0..labels).map(|l| format!("a{l}")).collect();
        LabelledTransitionSystem::from_rows(StateIndex::new(0), n, names, &rows)
    }

    pub fn partition(&mut self, n: usize, count: usize) -> BlockPartition {
        let (elements, element_offset, element_to_block) = (self.column(n), self.column(n), self.column(n));
        let (begin, marked_split, end) = (self.column(n), self.column(n), self.column(n));
        BlockPartition {
            elements: elements.into_iter().map(StateIndex::new).collect(),
            element_offset,
            element_to_block: element_to_block.into_iter().map(BlockIndex::new).collect(),
            blocks: (0..count).map(|b| Block { begin: begin[b], marked_split: marked_split[b], end: end[b] }).collect(),
        }
    }

    pub fn pairs(&mut self, length: usize) -> Pairs {
        let (labels, blocks) = (self.column(length), self.column(length));
        labels.into_iter().map(LabelIndex::new).zip(blocks.into_iter().map(BlockIndex::new)).collect()
    }
}
