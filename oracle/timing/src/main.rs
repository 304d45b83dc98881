//! Times the Rust on an input of tools/bench, call by call, under the names of tools/bench_lines.py and tools/bench_quotients.py.
mod clock;
mod input;
mod quotients;

use clock::Clock;
use input::Input;
use merc_collections::BlockIndex;
use merc_lts::{IncomingTransitions, LTS, LabelIndex, LabelledTransitionSystem, StateIndex, reachability};
use merc_reduction::*;
use rustc_hash::FxHashSet;
use std::fmt::Write;
use std::hint::black_box;

type Table = LabelledTransitionSystem<String>;

/// What the calls are made on, as tools/bench_inputs.py describes it.
struct Given {
    n: usize,
    state: StateIndex,
    redundant: bool,
    one: BlockPartition,
    many: BlockPartition,
    last: BlockPartition,
    signed: BlockPartition,
    listed: BlockPartition,
    table: Table,
    numbers: Vec<usize>,
    choice: Vec<usize>,
    keys: Vec<BlockIndex>,
    this: input::Pairs,
    other: input::Pairs,
    lists: input::Pairs,
}

fn read() -> (Clock, Given) {
    let mut input = Input::read();
    let (n, m, labels) = (input.number(), input.number(), input.number());
    let (many, signed, listed) = (input.number(), input.number(), input.number());
    let state = StateIndex::new(input.number());
    let (this, other, lists) = (input.number(), input.number(), input.number());
    let clock = Clock { least: 1000 * input.number() as u64, batches: input.number() };
    let redundant = input.number() != 0;
    let _lines_of_the_port = input.column(2);
    let given = Given {
        n,
        state,
        redundant,
        one: input.partition(n, 1),
        many: input.partition(n, many),
        last: input.partition(n, 1),
        signed: input.partition(n, signed),
        listed: input.partition(n, listed),
        table: input.table(n, m, labels),
        numbers: input.column(n),
        choice: input.column(n),
        keys: input.column(n).into_iter().map(BlockIndex::new).collect(),
        this: input.pairs(this),
        other: input.pairs(other),
        lists: input.pairs(lists),
    };
    (clock, given)
}

/// Elements and offsets of one partition put into another, and where the marks of its one block begin.
fn copy_two(to: &mut BlockPartition, from: &BlockPartition, split: usize) {
    to.elements.clone_from(&from.elements);
    to.element_offset.clone_from(&from.element_offset);
    to.blocks[0].marked_split = split;
}

fn copy_all(to: &mut BlockPartition, from: &BlockPartition) {
    copy_two(to, from, 0);
    to.element_to_block.clone_from(&from.element_to_block);
    to.blocks.clone_from(&from.blocks);
}

fn copy_of(from: &BlockPartition) -> BlockPartition {
    let mut to = BlockPartition::new(from.elements.len());
    copy_all(&mut to, from);
    to
}

fn time_partition(clock: &Clock, given: &mut Given) {
    let (n, block, one, last) = (given.n, BlockIndex::new(0), &given.one, &given.last);
    let (mut now, mut closing, mut work) = (copy_of(one), copy_of(last), BlockPartitionBuilder::default());
    clock.time("all columns copied", || {
        copy_all(black_box(&mut now), one);
        black_box(&now).elements[0].value()
    });
    clock.time("two columns copied", || {
        copy_two(black_box(&mut closing), last, n - 1);
        black_box(&closing).blocks[0].marked_split
    });
    clock.time("BlockPartition::new", || black_box(BlockPartition::new(black_box(n))).blocks[0].end);
    clock.time("mark_element", || {
        closing.mark_element(black_box(given.state));
        black_box(&closing).blocks[0].marked_split
    });
    clock.time("mark_element of each state", || {
        copy_two(&mut closing, one, n);
        (0..n).for_each(|state| closing.mark_element(StateIndex::new(black_box(state))));
        black_box(&closing).blocks[0].marked_split
    });
    clock.time("partition_marked_with", || {
        copy_all(&mut now, one);
        let numbers = black_box(&given.numbers);
        now.partition_marked_with(block, &mut work, |state, _| BlockIndex::new(numbers[state.value()])).for_each(drop);
        black_box(&now).blocks.len()
    });
    clock.time("split_marked", || {
        copy_all(&mut now, one);
        let choice = black_box(&given.choice);
        now.split_marked(0, |state| choice[state.value()] != 0);
        black_box(&now).blocks.len()
    });
    let many = &mut given.many;
    clock.time("swap_blocks", || {
        many.swap_blocks(black_box(block), BlockIndex::new(1));
        black_box(&*many).blocks[0].begin
    });
    let mut text = String::new();
    clock.time("display", || {
        text.clear();
        write!(text, "{}", black_box(&*many)).expect("a string takes any text");
        text.len()
    });
}

/// The calls that read a partition, and those on one of its blocks.
fn time_readers(clock: &Clock, given: &Given) {
    let (many, state) = (&given.many, given.state);
    let some = state.value() % many.blocks.len();
    let block = || *black_box(&many.blocks[some]);
    clock.time("num_of_blocks", || black_box(many).num_of_blocks());
    clock.time("len", || black_box(many).len());
    clock.time("block_number", || black_box(many).block_number(black_box(state)).value());
    clock.time("is_element_marked", || black_box(many).is_element_marked(black_box(state)) as usize);
    clock.time("iter_block", || black_box(many).iter_block(BlockIndex::new(black_box(some))).count());
    clock.time("read_block", || black_box(black_box(many).block(BlockIndex::new(black_box(some)))).end);
    clock.time("Block::new", || black_box(Block::new(block().begin, block().end)).end);
    clock.time("Block::new_unmarked", || black_box(Block::new_unmarked(block().begin, block().end)).end);
    clock.time("Block::len", || block().len());
    clock.time("Block::len_marked", || block().len_marked());
    clock.time("Block::has_marked", || block().has_marked() as usize);
    clock.time("Block::has_unmarked", || block().has_unmarked() as usize);
    let mut one = block();
    clock.time("Block::unmark_all", || {
        black_box(&mut one).unmark_all();
        one.marked_split
    });
    clock.time("tau_hat", || tau_hat(black_box(&given.table)).value());
    clock.time("is_tau_hat", || {
        let label = LabelIndex::new(given.table.num_of_labels());
        is_tau_hat(black_box(label), black_box(&given.table)) as usize
    });
}

fn rows_of(table: &Table, state: StateIndex) -> usize {
    table.outgoing_transitions(black_box(state)).map(|row| black_box(row).to).count()
}

fn time_table(clock: &Clock, given: &Given) {
    let (n, block, table, last) = (given.n, BlockIndex::new(0), &given.table, &given.last);
    let (mut closing, mut reached, incoming) = (copy_of(last), vec![false; n], IncomingTransitions::new(table));
    clock.time("outgoing_transitions", || rows_of(table, given.state));
    clock.time("outgoing_transitions of each state", || (0..n).map(|state| rows_of(table, StateIndex::new(state))).sum());
    clock.time("incoming", || {
        black_box(IncomingTransitions::new(black_box(table)));
        0
    });
    clock.time("reachable", || {
        reached.fill(false);
        let mut number = 0;
        reachability(black_box(table), given.state, |_| true, |state| {
            reached[state.value()] = true;
            number += 1;
        });
        number
    });
    let mut close = |incoming: &IncomingTransitions| {
        copy_two(&mut closing, last, n - 1);
        closing.mark_backward_closure(block, incoming);
        black_box(&closing).blocks[0].marked_split
    };
    clock.time("incoming, mark_backward_closure", || close(&IncomingTransitions::new(black_box(table))));
    clock.time("mark_backward_closure", || close(black_box(&incoming)));
    clock.time("sort_topological", || {
        let table = black_box(table);
        let order = sort_topological(table, |label, _| table.is_hidden_label(label), true);
        order.expect("hidden rows make no cycle")[0].value()
    });
}

/// A signature of the given state, and then of each state.
fn time_signature(clock: &Clock, given: &Given, name: &str, mut sign: impl FnMut(StateIndex) -> usize) {
    clock.time(name, || sign(black_box(given.state)));
    clock.time(&format!("{name} of each state"), || (0..given.n).map(|state| sign(StateIndex::new(black_box(state)))).sum());
}

fn time_signatures(clock: &Clock, given: &Given) {
    let (table, signed) = (&given.table, &given.signed);
    let each = given.lists.len() / given.n;
    let lists: Vec<_> = given.lists.chunks(each).map(Signature::new).collect();
    let mut builder = SignatureBuilder::new();
    let (mut visited, mut stack) = (FxHashSet::default(), Vec::new());
    time_signature(clock, given, "strong_bisim_signature", |state| {
        strong_bisim_signature(state, table, signed, &mut builder);
        black_box(&builder).len()
    });
    time_signature(clock, given, "branching_bisim_signature_inductive", |state| {
        branching_bisim_signature_inductive(state, table, signed, &given.keys, &mut builder);
        black_box(&builder).len()
    });
    time_signature(clock, given, "branching_bisim_signature", |state| {
        branching_bisim_signature(state, table, signed, &mut builder, &mut visited, &mut stack);
        black_box(&builder).len()
    });
    time_signature(clock, given, "branching_bisim_signature_sorted", |state| {
        branching_bisim_signature_sorted(state, table, &given.listed, &lists, &mut builder);
        black_box(&builder).len()
    });
    clock.time("is_subset_of", || {
        let excluded = (LabelIndex::new(2000), BlockIndex::new(0));
        Signature::new(black_box(&given.this)).is_subset_of(black_box(&given.other), excluded) as usize
    });
}

fn main() {
    let (clock, mut given) = read();
    time_readers(&clock, &given);
    time_partition(&clock, &mut given);
    time_table(&clock, &given);
    time_signatures(&clock, &given);
    quotients::time(&clock, &given);
}
