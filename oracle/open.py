#!/usr/bin/env python3
"""open.py [--check] SOURCES: the copies of the five given Rust files, with private items opened.

SOURCES is the folder that holds the originals at their own paths (crates/..). Only visibility is changed: `pub ` is
put before the items listed below, and `pub(crate)` becomes `pub`. With --check nothing is written: it only tests that
original and copy are the same text once the visibility words are taken out of both.
"""
import argparse
import pathlib
import re
import sys

HERE = pathlib.Path(__file__).resolve().parent
REDUCTION = 'crates/transition_systems/reduction/src/'

# Each original: its copy, and the private items that are opened, each by a text that stands in it once.
FILES = {
    REDUCTION + 'block_partition.rs': ('merc_reduction/src/block_partition.rs', [
        '    elements: Vec<StateIndex>,',
        '    blocks: Vec<Block>,',
        '    element_to_block: Vec<BlockIndex>,',
        '    element_offset: Vec<usize>,',
        '    fn swap_elements(',
        '    fn assert_consistent(&self) -> bool',
        '    fn assert_consistent(&self) {',
        '    fn unmark_all(',
        '    begin: usize,\n    marked_split',
        '    marked_split: usize,',
        '    end: usize,\n}\n\nimpl Block {',
    ]),
    REDUCTION + 'signatures.rs': ('merc_reduction/src/signatures.rs', ['fn tau_hat<']),
    REDUCTION + 'quotient.rs': ('merc_reduction/src/quotient.rs', [
        'fn remove_redundant_transitions<',
        'fn is_redundant_transition<',
    ]),
    REDUCTION + 'sort_topological.rs': ('merc_reduction/src/sort_topological.rs', ['fn is_topologically_sorted<']),
    'crates/core/collections/src/scc_decomposition.rs': ('standins/merc_collections/src/scc_decomposition.rs', []),
}


def without_visibility(text):
    return re.sub(r'\bpub(\(crate\))? ', '', text)


def opened(text, items):
    """The text with `pub` for `pub(crate)` and with the items made public."""
    text = text.replace('pub(crate) ', 'pub ')
    for item in items:
        if text.count(item) != 1:
            sys.exit(f'stands {text.count(item)} times and not once: {item!r}')
        bare = item.lstrip(' ')
        text = text.replace(item, item[:len(item) - len(bare)] + 'pub ' + bare)
    return text


def main():
    arguments = argparse.ArgumentParser(description='Copies the given Rust files with private items opened.')
    arguments.add_argument('--check', action='store_true', help='only test that the copies are the originals')
    arguments.add_argument('sources', type=pathlib.Path, help='folder of the originals')
    given = arguments.parse_args()
    differing = 0
    for source, (copy, items) in FILES.items():
        original, target = (given.sources / source).read_text(), HERE / copy
        if not given.check:
            target.write_text(opened(original, items))
        same = without_visibility(target.read_text()) == without_visibility(original)
        print('same but for visibility' if same else 'DIFFERS', copy, sep='  ')
        differing += not same
    sys.exit(1 if differing else 0)


if __name__ == '__main__':
    main()
