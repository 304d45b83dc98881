//! A lent transition table: its header, and three columns of rows that may be longer than they need be.

use merc_lts::{LabelIndex, LabelledTransitionSystem, StateIndex};

use crate::accept::{self, accept};
use crate::line::{Line, Stop};

/// The most labels and the most rows of a table.
const MOST_LABELS: usize = 1_024;
const MOST_ROWS: usize = 8_192;

/// The number of labels is in its range.
pub fn accept_labels(labels: usize) -> Result<(), Stop> {
    accept((1..=MOST_LABELS).contains(&labels))
}

/// So many labels, each with a name of its own.
pub fn named(labels: usize) -> Vec<String> {
    (0..labels).map(|label| format!("a{label}")).collect()
}

/// A table as an operation takes it.
pub struct Table {
    pub n: usize,
    labels: usize,
    m: usize,
    initial: usize,
    source: Vec<usize>,
    label: Vec<usize>,
    target: Vec<usize>,
}

impl Table {
    pub fn read(line: &mut Line) -> Result<Table, Stop> {
        Ok(Table {
            n: line.number()?,
            labels: line.number()?,
            m: line.number()?,
            initial: line.number()?,
            source: line.column()?,
            label: line.column()?,
            target: line.column()?,
        })
    }

    /// What 01 asks of a lent table: the header in range, the columns long enough, the rows in range and ascending.
    pub fn accept(&self) -> Result<(), Stop> {
        accept::states(self.n)?;
        accept_labels(self.labels)?;
        accept(self.m <= MOST_ROWS && self.initial < self.n)?;
        accept([&self.source, &self.label, &self.target].iter().all(|column| column.len() >= self.m))?;
        let rows: Vec<_> = self.rows().collect();
        accept(rows.iter().all(|row| row.0 < self.n && row.1 < self.labels && row.2 < self.n))?;
        accept::ascending(&rows)
    }

    /// A column of rows has a cell for each row.
    pub fn accept_rows(&self, column: &[usize]) -> Result<(), Stop> {
        accept(column.len() >= self.m)
    }

    /// A work slice has a cell for each state, for each row, and one more.
    pub fn accept_work(&self, slice: &[usize]) -> Result<(), Stop> {
        accept(slice.len() > self.n + self.m)
    }

    pub fn rows(&self) -> impl Iterator<Item = (usize, usize, usize)> + '_ {
        (0..self.m).map(|row| (self.source[row], self.label[row], self.target[row]))
    }

    /// How many rows lead out of a state.
    pub fn outgoing(&self, state: usize) -> usize {
        self.rows().filter(|row| row.0 == state).count()
    }

    /// The Rust's transition system, with label 0 hidden.
    pub fn system(&self) -> LabelledTransitionSystem<String> {
        let row = |(source, label, target)| (StateIndex::new(source), LabelIndex::new(label), StateIndex::new(target));
        let rows: Vec<_> = self.rows().map(row).collect();
        LabelledTransitionSystem::from_rows(StateIndex::new(self.initial), self.n, named(self.labels), &rows)
    }
}
