//! The operations on signatures.

use merc_collections::BlockIndex;
use merc_lts::{LabelIndex, LabelledTransitionSystem, StateIndex};
use merc_reduction::{BlockPartition, Signature, SignatureBuilder};

use crate::accept::{self, accept};
use crate::answer::done;
use crate::lent::{Columns, Lent, put};
use crate::line::{Line, Stop};
use crate::run::{Operation, rust};
use crate::table::{self, Table};

pub const OPERATIONS: &[(&str, Operation)] = &[
    ("is_subset_of", is_subset_of),
    ("tau_hat", tau_hat),
    ("is_tau_hat", is_tau_hat),
    ("strong_bisim_signature", strong_bisim_signature),
    ("branching_bisim_signature_inductive", branching_bisim_signature_inductive),
    ("branching_bisim_signature", branching_bisim_signature),
    ("branching_bisim_signature_sorted", branching_bisim_signature_sorted),
];

fn pair((label, block): (usize, usize)) -> (LabelIndex, BlockIndex) {
    (LabelIndex::new(label), BlockIndex::new(block))
}

/// A list of pairs in two columns; it ends with the shorter one.
fn read_pairs(line: &mut Line) -> Result<Vec<(usize, usize)>, Stop> {
    let (labels, blocks) = (line.column()?, line.column()?);
    Ok(labels.into_iter().zip(blocks).collect())
}

fn is_subset_of(line: &mut Line) -> Result<String, Stop> {
    let (this, other) = (read_pairs(line)?, read_pairs(line)?);
    let excluded = pair((line.number()?, line.number()?));
    line.end()?;
    accept::ascending(&this)?;
    accept::ascending(&other)?;
    let [this, other] = [this, other].map(|pairs| pairs.into_iter().map(pair).collect::<SignatureBuilder>());
    let inside = rust(|| Signature::new(&this).is_subset_of(&other, excluded))?;
    Ok(done(&[inside.into()], &[]))
}

/// The Rust's transition system with one state, no transition and so many labels.
fn with_labels(labels: usize) -> Result<LabelledTransitionSystem<String>, Stop> {
    table::accept_labels(labels)?;
    Ok(LabelledTransitionSystem::from_rows(StateIndex::new(0), 1, table::named(labels), &[]))
}

fn tau_hat(line: &mut Line) -> Result<String, Stop> {
    let labels = line.number()?;
    line.end()?;
    let system = with_labels(labels)?;
    Ok(done(&[rust(|| merc_reduction::tau_hat(&system))?.value()], &[]))
}

fn is_tau_hat(line: &mut Line) -> Result<String, Stop> {
    let (label, labels) = (line.number()?, line.number()?);
    line.end()?;
    let system = with_labels(labels)?;
    Ok(done(&[rust(|| merc_reduction::is_tau_hat(LabelIndex::new(label), &system))?.into()], &[]))
}

/// What a signature of a state takes beside keys.
struct Given {
    table: Table,
    lent: Lent,
    state: usize,
}

/// Result and work slices.
struct Slices {
    result: [Vec<usize>; 2],
    work: Vec<Vec<usize>>,
}

impl Given {
    fn read(line: &mut Line) -> Result<Given, Stop> {
        let (table, columns) = (Table::read(line)?, Columns::read(line)?);
        let lent = Lent { n: table.n, count: line.number()?, columns };
        Ok(Given { table, lent, state: line.number()? })
    }

    fn accept(&self, slices: &Slices, pushed: impl FnOnce(&Given) -> usize) -> Result<(), Stop> {
        self.table.accept()?;
        slices.work.iter().try_for_each(|slice| self.table.accept_work(slice))?;
        self.lent.accept()?;
        self.lent.accept_state(self.state)?;
        let pushed = pushed(self);
        accept(slices.result.iter().all(|column| column.len() >= pushed))
    }

    /// A pair is pushed for each row of the state.
    fn own(&self) -> usize {
        self.table.outgoing(self.state)
    }

    /// Whether a row is a hidden step into the state's block.
    fn inner(&self, row: &(usize, usize, usize)) -> bool {
        let home = &self.lent.columns.element_to_block;
        row.1 == 0 && home[row.2] == home[self.state]
    }

    /// A pair is pushed for each row of a state reached by hidden steps within the block, but for these steps.
    fn outer(&self) -> usize {
        let inner = |row: &(usize, usize, usize)| self.inner(row);
        let mut reached = vec![false; self.table.n];
        let mut open = vec![self.state];
        while let Some(state) = open.pop() {
            if !std::mem::replace(&mut reached[state], true) {
                open.extend(self.table.rows().filter(|row| row.0 == state && inner(row)).map(|row| row.2));
            }
        }
        self.table.rows().filter(|row| reached[row.0] && !inner(row)).count()
    }
}

/// Given lists of pairs, flat; list u is the pairs from start u to before start u + 1.
struct Lists {
    starts: Vec<usize>,
    pairs: SignatureBuilder,
}

impl Lists {
    fn read(line: &mut Line) -> Result<Lists, Stop> {
        let (starts, labels, blocks) = (line.starts()?, line.column()?, line.column()?);
        Ok(Lists { starts, pairs: labels.into_iter().zip(blocks).map(pair).collect() })
    }

    /// Of n lists the starts are there, neither fall nor run past the end, and each list ascends.
    fn accept(&self, n: usize) -> Result<(), Stop> {
        accept(self.starts.len() > n)?;
        accept(self.starts[..=n].is_sorted() && self.starts[n] <= self.pairs.len())?;
        (0..n).try_for_each(|state| accept::ascending(self.of(state)))
    }

    fn of(&self, state: usize) -> &[(LabelIndex, BlockIndex)] {
        &self.pairs[self.starts[state]..self.starts[state + 1]]
    }

    /// A pair is pushed for each row of the state, but for a hidden step within the block each pair of the target's list.
    fn pushed(&self, given: &Given) -> usize {
        let rows = given.table.rows().filter(|row| row.0 == given.state);
        rows.map(|row| if given.inner(&row) { self.of(row.2).len() } else { 1 }).sum()
    }
}

impl Slices {
    /// Two result columns, and so many work slices.
    fn read(line: &mut Line, works: usize) -> Result<Slices, Stop> {
        let result = [line.column()?, line.column()?];
        Slices::with_work(result, line, works)
    }

    fn with_work(result: [Vec<usize>; 2], line: &mut Line, works: usize) -> Result<Slices, Stop> {
        let work = (0..works).map(|_| line.column()).collect::<Result<_, _>>()?;
        Ok(Slices { result, work })
    }

    /// The answer of a call that made this signature.
    fn answer(mut self, signature: &SignatureBuilder) -> String {
        let [labels, blocks] = &mut self.result;
        put(labels, signature.iter().map(|(label, _)| label.value()));
        put(blocks, signature.iter().map(|(_, block)| block.value()));
        self.work.iter_mut().for_each(|slice| slice.fill(0));
        let slices: Vec<_> = self.result.iter().chain(&self.work).map(Vec::as_slice).collect();
        done(&[signature.len()], &slices)
    }
}

type System = LabelledTransitionSystem<String>;

/// Runs a signature of the Rust, which is handed the state, the system, the partition and a builder.
fn signed(
    given: &Given,
    slices: Slices,
    pushed: impl FnOnce(&Given) -> usize,
    call: impl FnOnce(StateIndex, &System, &BlockPartition, &mut SignatureBuilder),
) -> Result<String, Stop> {
    given.accept(&slices, pushed)?;
    let (system, partition, state) = (given.table.system(), given.lent.partition(), StateIndex::new(given.state));
    let mut builder = SignatureBuilder::new();
    rust(|| call(state, &system, &partition, &mut builder))?;
    Ok(slices.answer(&builder))
}

fn strong_bisim_signature(line: &mut Line) -> Result<String, Stop> {
    let (given, slices) = (Given::read(line)?, Slices::read(line, 4)?);
    line.end()?;
    signed(&given, slices, Given::own, merc_reduction::strong_bisim_signature)
}

fn branching_bisim_signature_inductive(line: &mut Line) -> Result<String, Stop> {
    let (given, keys, slices) = (Given::read(line)?, line.column()?, Slices::read(line, 4)?);
    line.end()?;
    accept(keys.len() >= given.table.n)?;
    let keys: Vec<_> = keys.into_iter().map(BlockIndex::new).collect();
    signed(&given, slices, Given::own, |state, system, partition, builder| {
        merc_reduction::branching_bisim_signature_inductive(state, system, partition, &keys, builder)
    })
}

fn branching_bisim_signature(line: &mut Line) -> Result<String, Stop> {
    let (given, slices) = (Given::read(line)?, Slices::read(line, 6)?);
    line.end()?;
    signed(&given, slices, Given::outer, |state, system, partition, builder| {
        let (mut visited, mut stack) = (Default::default(), Vec::new());
        merc_reduction::branching_bisim_signature(state, system, partition, builder, &mut visited, &mut stack)
    })
}

fn branching_bisim_signature_sorted(line: &mut Line) -> Result<String, Stop> {
    let (given, lists, result) = (Given::read(line)?, Lists::read(line)?, [line.column()?, line.column()?]);
    let slices = Slices::with_work(result, line, 7)?;
    line.end()?;
    lists.accept(given.table.n)?;
    let signatures: Vec<_> = (0..given.table.n).map(|state| Signature::new(lists.of(state))).collect();
    signed(&given, slices, |given| lists.pushed(given), |state, system, partition, builder| {
        merc_reduction::branching_bisim_signature_sorted(state, system, partition, &signatures, builder)
    })
}
