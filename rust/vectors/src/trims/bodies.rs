//! Unknown nodes with counts, hashes and bodies of every sort: nothing in them matters but their size.

use super::Trims;
use crate::reads::placed::{elements, file, minimal, wagon};
use corpus::format::{B, MESH, METADATA, MODEL, NONE, ROOT};
use corpus::tree::{File, Node};
use corpus::worked::{e10, WAGON};

pub fn add(trims: &mut Trims) {
    add_sizes(trims);
    add_counts(trims);
    add_kinds(trims);
    add_hidden(trims);
}

/// The node in a root that has a property, before a Metadata and after another unknown node.
fn beside(node: Node) -> File {
    let root = vec![elements(B, "q", 3)];
    let children = vec![wagon(b"-"), node, minimal(METADATA), wagon(b"--")];
    file(vec![Node::with(ROOT, root, children)])
}

/// Bodies of many lengths, about those at which a byte of a size changes.
fn add_sizes(trims: &mut Trims) {
    trims.cases.sweep("trims bodies: sizes", 2);
    for size in [
        0, 1, 7, 8, 23, 24, 25, 48, 59, 60, 61, 231, 232, 233, 255, 256, 257, 1_000, 5_000,
    ] {
        let body: Vec<u8> = (0..size).map(|at| at as u8).collect();
        trims.row(&beside(wagon(&body)), 2);
    }
    // The longer one stays, and moves.
    let body: Vec<u8> = (0..3_000).map(|at| (at % 251) as u8).collect();
    trims.row(&beside(wagon(&body)), 1);
    trims.row(&beside(wagon(&body)), 4);
}

/// Counts and hashes of any bits, on the node that goes and on one that stays.
fn add_counts(trims: &mut Trims) {
    trims.cases.sweep("trims bodies: counts", 4);
    for number in [0, 1, 64, 65, 255, 256, 0xFFFF, 0x8000_0000, NONE - 1, NONE] {
        let mut node = wagon(b"abc");
        node.claimed.properties = Some(number);
        node.claimed.children = Some(!number);
        node.hash = u64::from(number) << 32 | u64::from(!number);
        let tree = beside(node);
        trims.row(&tree, 2);
        trims.row(&tree, 1);
    }
    for bit in 0..16 {
        let mut tree = beside(wagon(b""));
        let hash = 1 << (4 * bit + 3);
        tree.roots[0].hash = !hash;
        tree.roots[0].children[2].hash = hash;
        tree.flags = 1 << (2 * bit);
        trims.row(&tree, 1);
    }
}

/// Kinds that are nearly known.
fn add_kinds(trims: &mut Trims) {
    trims.cases.sweep("trims bodies: kinds", 4);
    for kind in [
        0,
        1,
        NONE,
        ROOT + 1,
        ROOT - 1,
        ROOT.swap_bytes(),
        MESH ^ 0x20,
        MESH ^ 1 << 31,
        MESH & 0xFFFF,
        METADATA & 0xFFFF_FF00,
    ] {
        let mut tree = e10();
        tree.roots[0].children[0].kind = kind;
        trims.row(&tree, 1);
        trims.row(&tree, 0);
    }
}

/// Bodies that look like nodes: they are no rows, before and after.
fn add_hidden(trims: &mut Trims) {
    trims.cases.sweep("trims bodies: hidden", 3);
    let model = Node::with(MODEL, Vec::new(), vec![minimal(MESH)]);
    for hidden in [wagon(b"abc"), minimal(MESH), model, Node::new(ROOT)] {
        let mut around = Node::new(WAGON);
        around.rest = hidden.bytes();
        around.claimed.children = Some(1);
        let mut without_header = Node::new(WAGON);
        without_header.rest = hidden.bytes().split_off(24);
        without_header.claimed.properties = Some(hidden.properties.len() as u32);
        without_header.claimed.children = Some(hidden.children.len() as u32);
        for node in [around, without_header] {
            let tree = beside(node);
            trims.row(&tree, 2);
            trims.row(&tree, 1);
        }
    }
    let mut whole = Node::new(WAGON);
    whole.rest = beside(wagon(b"inner")).bytes();
    trims.rows(&beside(whole));
}
