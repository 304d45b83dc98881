//! The quotients of a table, the rows that can go, and hidden cycles.

use std::collections::BTreeSet;

use merc_lts::{LTS, LabelledTransitionSystem, StateIndex};
use merc_reduction::{self as merc, Partition};

use crate::accept::accept;
use crate::answer::done;
use crate::lent::{Columns, Lent, put};
use crate::line::{Line, Stop};
use crate::run::{Operation, rust};
use crate::table::Table;

pub const OPERATIONS: &[(&str, Operation)] = &[
    ("quotient_lts_naive", quotient_lts_naive),
    ("quotient_lts_block", quotient_lts_block),
    ("remove_redundant_transitions", remove_redundant_transitions),
    ("tau_scc_decomposition", tau_scc_decomposition),
    ("tau_cycle_elimination_and_reorder", tau_cycle_elimination_and_reorder),
];

type System = LabelledTransitionSystem<String>;

/// The work slices of an operation.
struct Work(Vec<Vec<usize>>);

impl Work {
    fn read(line: &mut Line, slices: usize) -> Result<Work, Stop> {
        Ok(Work((0..slices).map(|_| line.short()).collect::<Result<_, _>>()?))
    }

    fn accept(&self, table: &Table) -> Result<(), Stop> {
        self.0.iter().try_for_each(|slice| table.accept_work(slice))
    }

    /// The result slices as they are, and the work slices all zero.
    fn after(mut self, result: &[Vec<usize>]) -> Vec<Vec<usize>> {
        self.0.iter_mut().for_each(|slice| slice.fill(0));
        [result, &self.0].concat()
    }
}

/// An answer with these slices.
fn answer(numbers: &[usize], slices: &[Vec<usize>]) -> String {
    done(numbers, &slices.iter().map(Vec::as_slice).collect::<Vec<_>>())
}

/// Three columns for the rows of a result, and work slices.
struct Room {
    result: [Vec<usize>; 3],
    work: Work,
}

impl Room {
    fn read(line: &mut Line, slices: usize) -> Result<Room, Stop> {
        Ok(Room { result: [line.short()?, line.short()?, line.short()?], work: Work::read(line, slices)? })
    }

    fn accept(&self, table: &Table) -> Result<(), Stop> {
        self.result.iter().try_for_each(|column| table.accept_rows(column))?;
        self.work.accept(table)
    }

    /// The header of a result, and the slices at return: its rows as a set, ascending, over the first cells.
    fn take(mut self, system: &System) -> ([usize; 4], Vec<Vec<usize>>) {
        let rows = rows(system);
        put(&mut self.result[0], rows.iter().map(|row| row.0));
        put(&mut self.result[1], rows.iter().map(|row| row.1));
        put(&mut self.result[2], rows.iter().map(|row| row.2));
        let initial = system.initial_state_index().value();
        ([system.num_of_states(), system.num_of_labels(), rows.len(), initial], self.work.after(&self.result))
    }
}

/// The rows of a system as a set.
fn rows(system: &System) -> BTreeSet<(usize, usize, usize)> {
    let of = |state: StateIndex| {
        system.outgoing_transitions(state).map(move |row| (state.value(), row.label.value(), row.to.value()))
    };
    system.iter_states().flat_map(of).collect()
}

/// A table, a partition of its states, and two flags.
fn partitioned(line: &mut Line) -> Result<(Table, Lent, [bool; 2]), Stop> {
    let (table, columns) = (Table::read(line)?, Columns::read(line)?);
    let lent = Lent { n: table.n, count: line.number()?, columns };
    Ok((table, lent, [line.flag()?, line.flag()?]))
}

fn quotient_lts_naive(line: &mut Line) -> Result<String, Stop> {
    let (table, lent, [inert, loops]) = partitioned(line)?;
    let room = Room::read(line, 5)?;
    line.end()?;
    table.accept()?;
    room.accept(&table)?;
    lent.accept()?;
    let (system, partition) = (table.system(), lent.partition());
    let quotient = rust(|| merc::quotient_lts_naive(&system, &partition, inert, loops))?;
    let (header, slices) = room.take(&quotient);
    Ok(answer(&header, &slices))
}

fn quotient_lts_block(line: &mut Line) -> Result<String, Stop> {
    let (table, lent, [branching, loops]) = partitioned(line)?;
    let room = Room::read(line, 6)?;
    line.end()?;
    table.accept()?;
    room.accept(&table)?;
    lent.accept()?;
    let (system, partition) = (table.system(), lent.partition());
    let quotient = rust(|| match branching {
        true => merc::quotient_lts_block::<_, true>(&system, &partition, loops),
        false => merc::quotient_lts_block::<_, false>(&system, &partition, loops),
    });
    match quotient {
        Err(Stop::Panicked(words)) => no_bottom(words),
        quotient => {
            let (header, slices) = room.take(&quotient?);
            Ok(answer(&header, &slices))
        }
    }
}

/// `panic` and the block that the words of the panic name as one without a bottom state.
fn no_bottom(words: String) -> Result<String, Stop> {
    let named = words.split_once(": block ").and_then(|(_, rest)| rest.split_once(" has no bottom state"));
    match named {
        Some((block, _)) => Ok(format!("panic {block}")),
        None => Err(Stop::Panicked(words)),
    }
}

fn remove_redundant_transitions(line: &mut Line) -> Result<String, Stop> {
    let (table, room) = (Table::read(line)?, Room::read(line, 7)?);
    line.end()?;
    table.accept()?;
    room.accept(&table)?;
    let system = table.system();
    let left = rust(|| merc::remove_redundant_transitions(&system))?;
    let (header, slices) = room.take(&left);
    Ok(answer(&header, &slices))
}

/// The number of each state, and how many numbers there are.
fn numbers(partition: &impl Partition) -> (Vec<usize>, usize) {
    let of = |state| partition.block_number(StateIndex::new(state)).value();
    ((0..partition.len()).map(of).collect(), partition.num_of_blocks())
}

/// Both ways that the Rust has; they must not differ.
fn tau_scc_decomposition(line: &mut Line) -> Result<String, Stop> {
    let (table, mut column, work) = (Table::read(line)?, line.short()?, Work::read(line, 7)?);
    line.end()?;
    table.accept()?;
    accept(column.len() >= table.n)?;
    work.accept(&table)?;
    let system = table.system();
    let found = rust(|| numbers(&merc::tau_scc_decomposition(&system)))?;
    let iterative = rust(|| numbers(&merc::tau_scc_decomposition_iterative(&system)))?;
    assert!(found == iterative, "the recursive and the iterative decomposition agree");
    put(&mut column, found.0.into_iter());
    Ok(answer(&[found.1], &work.after(&[column])))
}

/// After the slices one more: the new number of each state, since the Rust's numbers are its own.
fn tau_cycle_elimination_and_reorder(line: &mut Line) -> Result<String, Stop> {
    let (table, state, eliminate) = (Table::read(line)?, line.number()?, line.flag()?);
    let room = Room::read(line, 9)?;
    line.end()?;
    table.accept()?;
    room.accept(&table)?;
    accept(state < table.n)?;
    let reordered = |state: usize| {
        let system = table.system();
        rust(|| merc::tau_cycle_elimination_and_reorder(system, StateIndex::new(state), eliminate))
    };
    let (system, number) = reordered(state)?;
    let each = (0..table.n).map(|state| Ok(reordered(state)?.1.value())).collect::<Result<Vec<_>, _>>()?;
    let (header, mut slices) = room.take(&system);
    slices.push(each);
    Ok(answer(&[&header[..], &[number.value()]].concat(), &slices))
}
