//! Files of as many nodes as there may be, and of one more.

use super::Trims;
use crate::keep::ALL;
use corpus::format::{MAX_NODES, METADATA, ROOT, TABLE};
use corpus::tree::{File, Node};
use corpus::trims::Trimming;
use corpus::worked::WAGON;

pub fn add(trims: &mut Trims) {
    trims.cases.leave_out();
    let given = |row: usize| Trimming {
        row,
        table: TABLE,
        room: 16 + 24 * (MAX_NODES - 1),
    };
    // The last of 1,023 siblings.
    let notes = vec![Node::new(WAGON); MAX_NODES - 1];
    let file = File::new(0, vec![Node::with(ROOT, Vec::new(), notes)]);
    assert!(trims.valid(&file, given(MAX_NODES - 1)).is_some());
    // One more, which is refused at its header.
    let notes = vec![Node::new(WAGON); MAX_NODES];
    let file = File::new(0, vec![Node::with(ROOT, Vec::new(), notes)]).bytes();
    let place = 16 + 24 * MAX_NODES as u32;
    trims.refused(&file, given(MAX_NODES), 7, place);
    trims.cases.sweep("trims many", ALL);
    // The first child in 512 roots: the parents of all later ones are renumbered.
    let mut roots = vec![Node::with(ROOT, Vec::new(), vec![Node::new(METADATA)]); MAX_NODES / 2];
    roots[0].children[0].kind = WAGON;
    assert!(trims.valid(&File::new(1, roots), given(1)).is_some());
}
