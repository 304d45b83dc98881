//! The operations that follow the steps of a table.

use merc_collections::BlockIndex;
use merc_lts::{IncomingTransitions, LTS, StateIndex};
use merc_reduction::sort_topological as sort;

use crate::accept::accept;
use crate::answer::{done, rows};
use crate::lent::{Columns, Lent};
use crate::line::{Line, Stop};
use crate::run::{Operation, rust};
use crate::table::Table;

pub const OPERATIONS: &[(&str, Operation)] = &[
    ("outgoing_transitions", outgoing_transitions),
    ("mark_backward_closure", mark_backward_closure),
    ("sort_topological", sort_topological),
];

/// The Rust has no row numbers: the label and target of each row, in order.
fn outgoing_transitions(line: &mut Line) -> Result<String, Stop> {
    let (table, state) = (Table::read(line)?, line.number()?);
    line.end()?;
    table.accept()?;
    accept(state < table.n)?;
    let system = table.system();
    let found: Vec<_> = rust(|| system.outgoing_transitions(StateIndex::new(state)).collect())?;
    Ok(rows(found.iter().map(|row| [row.label.value(), row.to.value()])))
}

fn mark_backward_closure(line: &mut Line) -> Result<String, Stop> {
    let (table, columns) = (Table::read(line)?, Columns::read(line)?);
    let lent = Lent { n: table.n, count: line.number()?, columns };
    let block = line.number()?;
    let mut work = [line.column()?, line.column()?];
    line.end()?;
    table.accept()?;
    work.iter().try_for_each(|slice| table.accept_work(slice))?;
    lent.accept()?;
    lent.accept_block(block)?;
    let incoming = IncomingTransitions::new(&table.system());
    let (mut partition, mut columns) = (lent.partition(), lent.columns);
    rust(|| partition.mark_backward_closure(BlockIndex::new(block), &incoming))?;
    columns.take_back(&partition);
    work.iter_mut().for_each(|slice| slice.fill(0));
    let [order, spare] = &work;
    Ok(done(&[], &[&columns.elements, &columns.element_offset, &columns.marked_split, order, spare]))
}

fn sort_topological(line: &mut Line) -> Result<String, Stop> {
    let (table, hidden, reversed) = (Table::read(line)?, line.flag()?, line.flag()?);
    let mut places = line.column()?;
    let mut work = [line.column()?, line.column()?];
    line.end()?;
    table.accept()?;
    accept(places.len() >= table.n)?;
    work.iter().try_for_each(|slice| table.accept_work(slice))?;
    let system = table.system();
    let sorted = rust(|| sort(&system, |label, _| !hidden || system.is_hidden_label(label), reversed))?;
    let order = sorted.map_err(|_| Stop::Failed)?;
    for (place, state) in places.iter_mut().zip(&order) {
        *place = state.value();
    }
    work.iter_mut().for_each(|slice| slice.fill(0));
    let [marks, stack] = &work;
    Ok(done(&[], &[&places, marks, stack]))
}
