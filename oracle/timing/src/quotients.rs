//! The calls that make a table out of the given one, or number its states. What counts is the rows or the numbers.
use crate::clock::Clock;
use crate::{Given, Table};
use merc_lts::{LTS, LabelIndex, StateIndex, Transition};
use merc_reduction::*;
use std::hint::black_box;

/// The given table for a call that takes it by value.
struct Lent<'a>(&'a Table);

impl LTS for Lent<'_> {
    type Label = String;
    fn initial_state_index(&self) -> StateIndex {
        self.0.initial_state_index()
    }
    fn outgoing_transitions(&self, state: StateIndex) -> impl Iterator<Item = Transition> + '_ {
        self.0.outgoing_transitions(state)
    }
    fn iter_states(&self) -> impl Iterator<Item = StateIndex> + '_ {
        self.0.iter_states()
    }
    fn num_of_states(&self) -> usize {
        self.0.num_of_states()
    }
    fn num_of_labels(&self) -> usize {
        self.0.num_of_labels()
    }
    fn num_of_transitions(&self) -> usize {
        self.0.num_of_transitions()
    }
    fn labels(&self) -> &[String] {
        self.0.labels()
    }
    fn is_hidden_label(&self, label: LabelIndex) -> bool {
        self.0.is_hidden_label(label)
    }
}

/// The redundancy pass is timed only where the input asks for it.
pub fn time(clock: &Clock, given: &Given) {
    let (table, signed) = (&given.table, &given.signed);
    clock.time("quotient_lts_naive", || {
        black_box(quotient_lts_naive(black_box(table), signed, false, false)).num_of_transitions()
    });
    clock.time("quotient_lts_block", || {
        black_box(quotient_lts_block::<_, true>(black_box(table), signed, false)).num_of_transitions()
    });
    clock.time("tau_scc_decomposition", || black_box(tau_scc_decomposition(black_box(table))).num_of_blocks());
    clock.time("tau_cycle_elimination_and_reorder", || {
        let (made, _) = tau_cycle_elimination_and_reorder(Lent(black_box(table)), given.state, true);
        black_box(made).num_of_transitions()
    });
    if given.redundant {
        clock.time("remove_redundant_transitions", || {
            black_box(remove_redundant_transitions(black_box(table))).num_of_transitions()
        });
    }
}
