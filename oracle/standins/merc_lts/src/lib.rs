//! STAND-IN for merc_lts (not the published crate).
#![forbid(unsafe_code)]
use merc_utilities::TagIndex;
use std::fmt;
use std::sync::atomic::{AtomicUsize, Ordering};

/// For trials: a driver that sets it turns the guessed behaviours round, to see which answers hang on them.
/// 1 = finish leaves rows in insertion order reversed within a source (still without duplicates),
/// 2 = incoming lists reversed, 4 = reachability breadth first, 8 = new_from_permutation leaves rows unsorted,
/// 16 = outgoing rows of a given table are read in reverse, 32 = reachability may visit a state twice,
/// 64 = reachability doesn't visit its start unless a cycle returns to it, 128 = finish keeps duplicates.
pub static VARIANT: AtomicUsize = AtomicUsize::new(0);
fn variant(bit: usize) -> bool {
    VARIANT.load(Ordering::Relaxed) & bit != 0
}

pub struct StateTag;
pub type StateIndex = TagIndex<StateTag>;
pub struct LabelTag;
pub type LabelIndex = TagIndex<LabelTag>;

#[derive(Clone, Copy, Debug)]
pub struct Transition {
    pub label: LabelIndex,
    pub to: StateIndex,
}
#[derive(Clone, Copy, Debug)]
pub struct IncomingTransition {
    pub label: LabelIndex,
    pub from: StateIndex,
}

pub trait TransitionLabel: Clone + PartialEq + fmt::Display + fmt::Debug {}
impl TransitionLabel for String {}

pub trait LTS: Sized {
    type Label: TransitionLabel;
    fn initial_state_index(&self) -> StateIndex;
    fn outgoing_transitions(&self, state: StateIndex) -> impl Iterator<Item = Transition> + '_;
    fn iter_states(&self) -> impl Iterator<Item = StateIndex> + '_;
    fn num_of_states(&self) -> usize;
    fn num_of_labels(&self) -> usize;
    fn num_of_transitions(&self) -> usize;
    fn labels(&self) -> &[Self::Label];
    /// 01: label 0 alone is hidden.
    fn is_hidden_label(&self, label: LabelIndex) -> bool {
        label.value() == 0
    }
}

/// Rows are kept in the order given, grouped by source (stable).
#[derive(Debug)]
pub struct LabelledTransitionSystem<Label> {
    initial: StateIndex,
    labels: Vec<Label>,
    starts: Vec<usize>,
    transitions: Vec<Transition>,
}
impl<Label: TransitionLabel> LabelledTransitionSystem<Label> {
    pub fn from_rows(
        initial: StateIndex,
        num_of_states: usize,
        labels: Vec<Label>,
        rows: &[(StateIndex, LabelIndex, StateIndex)],
    ) -> Self {
        let mut rows = rows.to_vec();
        rows.sort_by_key(|r| r.0.value()); // stable
        let mut starts = vec![0usize; num_of_states + 1];
        for r in &rows {
            starts[r.0.value() + 1] += 1;
        }
        for i in 0..num_of_states {
            starts[i + 1] += starts[i];
        }
        LabelledTransitionSystem {
            initial,
            labels,
            starts,
            transitions: rows.iter().map(|r| Transition { label: r.1, to: r.2 }).collect(),
        }
    }
    /// `permutation` maps an old state to its new number; the initial state goes along.
    /// Rows of the result are sorted by (source, label, target).
    pub fn new_from_permutation<L, P>(lts: L, permutation: P) -> Self
    where
        L: LTS<Label = Label>,
        P: Fn(StateIndex) -> StateIndex,
    {
        let mut rows = Vec::new();
        for s in lts.iter_states() {
            for t in lts.outgoing_transitions(s) {
                rows.push((permutation(s), t.label, permutation(t.to)));
            }
        }
        if !variant(8) {
            rows.sort();
        }
        Self::from_rows(permutation(lts.initial_state_index()), lts.num_of_states(), lts.labels().into(), &rows)
    }
}
impl<Label: TransitionLabel> LTS for LabelledTransitionSystem<Label> {
    type Label = Label;
    fn initial_state_index(&self) -> StateIndex {
        self.initial
    }
    fn outgoing_transitions(&self, state: StateIndex) -> impl Iterator<Item = Transition> + '_ {
        self.transitions[self.starts[state.value()]..self.starts[state.value() + 1]].iter().copied()
    }
    fn iter_states(&self) -> impl Iterator<Item = StateIndex> + '_ {
        (0..self.num_of_states()).map(StateIndex::new)
    }
    fn num_of_states(&self) -> usize {
        self.starts.len() - 1
    }
    fn num_of_labels(&self) -> usize {
        self.labels.len()
    }
    fn num_of_transitions(&self) -> usize {
        self.transitions.len()
    }
    fn labels(&self) -> &[Label] {
        &self.labels
    }
}

/// Incoming rows by ascending source, then label (01); the published order isn't in the given text.
pub struct IncomingTransitions {
    incoming: Vec<Vec<IncomingTransition>>,
}
impl IncomingTransitions {
    pub fn new<L: LTS>(lts: &L) -> Self {
        let mut incoming = vec![Vec::new(); lts.num_of_states()];
        for s in lts.iter_states() {
            for t in lts.outgoing_transitions(s) {
                incoming[t.to.value()].push(IncomingTransition { label: t.label, from: s });
            }
        }
        for list in &mut incoming {
            list.sort_by_key(|t: &IncomingTransition| (t.from, t.label));
            if variant(2) {
                list.reverse();
            }
        }
        IncomingTransitions { incoming }
    }
    pub fn incoming_silent_transitions(&self, state: StateIndex) -> impl Iterator<Item = IncomingTransition> + '_ {
        self.incoming[state.value()].iter().copied().filter(|t| t.label.value() == 0)
    }
}

pub trait LtsBuilder<Label> {
    fn require_num_of_states(&mut self, num_of_states: usize);
}
pub struct LtsBuilderMem<Label> {
    labels: Vec<Label>,
    rows: Vec<(StateIndex, LabelIndex, StateIndex)>,
    num_of_states: usize,
}
impl<Label: TransitionLabel> LtsBuilderMem<Label> {
    pub fn with_capacity(
        labels: Vec<Label>,
        _hidden_labels: Vec<String>,
        _num_of_labels: usize,
        _num_of_states: usize,
        num_of_transitions: usize,
    ) -> Self {
        LtsBuilderMem { labels, rows: Vec::with_capacity(num_of_transitions), num_of_states: 0 }
    }
    /// The builder's index of each label given.
    pub fn label_indices(&mut self, labels: &[Label]) -> Vec<LabelIndex> {
        assert!(labels == self.labels);
        (0..labels.len()).map(LabelIndex::new).collect()
    }
    pub fn add_transition_index(&mut self, from: StateIndex, label: LabelIndex, to: StateIndex) {
        self.num_of_states = self.num_of_states.max(from.value() + 1).max(to.value() + 1);
        self.rows.push((from, label, to));
    }
    /// Second argument: duplicates go. Rows sorted by (source, label, target).
    pub fn finish(mut self, initial: StateIndex, remove_duplicates: bool) -> LabelledTransitionSystem<Label> {
        self.rows.sort();
        if remove_duplicates && !variant(128) {
            self.rows.dedup();
        }
        if variant(1) {
            self.rows.reverse();
        }
        LabelledTransitionSystem::from_rows(initial, self.num_of_states, self.labels, &self.rows)
    }
}
impl<Label> LtsBuilder<Label> for LtsBuilderMem<Label> {
    fn require_num_of_states(&mut self, num_of_states: usize) {
        self.num_of_states = self.num_of_states.max(num_of_states);
    }
}

/// Calls `visit` once on every state reachable from `start` (itself included) over rows whose
/// label `filter` accepts.
pub fn reachability<L, F, V>(lts: &L, start: StateIndex, filter: F, mut visit: V)
where
    L: LTS,
    F: Fn(LabelIndex) -> bool,
    V: FnMut(StateIndex),
{
    let mut seen = vec![false; lts.num_of_states()];
    let mut stack = std::collections::VecDeque::from([start]);
    let skip_start = variant(64);
    seen[start.value()] = !skip_start;
    let mut first = true;
    while let Some(s) = if variant(4) { stack.pop_front() } else { stack.pop_back() } {
        if !(first && skip_start) {
            visit(s);
            if variant(32) {
                visit(s);
            }
        }
        first = false;
        for t in lts.outgoing_transitions(s) {
            if filter(t.label) && !seen[t.to.value()] {
                seen[t.to.value()] = true;
                stack.push_back(t.to);
            }
        }
    }
}
