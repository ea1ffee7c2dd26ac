//! Every cut of some small files, and every byte of one changed.

use super::{file, root, rooted, wagon, Walks, FIRST};
use corpus::format::{B, MATERIAL, METADATA, MODEL, ROOT, S};
use corpus::tree::{File, Node, Property};

pub fn add(walks: &mut Walks) {
    let small = small();
    add_cuts(walks, &rooted(vec![wagon(b"abc")]));
    add_cuts(
        walks,
        &file(vec![root(Vec::new()), root(vec![Node::new(METADATA)])]),
    );
    add_mended(walks, &small);
    add_changes(walks, &small.bytes());
}

/// Two roots, with something of every sort in them.
fn small() -> File {
    let name = Property::new(S, b"n", 1, b"ab\0".to_vec());
    let model = Node::with(MODEL, vec![name], vec![Node::new(MATERIAL)]);
    let flag = Property::new(B, b"x", 2, vec![7, 8]);
    let last = Node::with(ROOT, vec![flag], Vec::new());
    file(vec![root(vec![model, wagon(b"abc")]), last])
}

/// The file up to each of its bytes.
fn add_cuts(walks: &mut Walks, file: &File) {
    walks.cases.sweep("walks changed: cuts", 8);
    let whole = file.encode();
    for end in 0..whole.bytes.len() {
        let roots = whole.nodes.iter().filter(|node| node.depth == 1);
        let cut = roots.clone().find(|root| end < root.end);
        let answer = match cut {
            Some(root) if end >= FIRST => (5, root.offset),
            _ => (3, 0),
        };
        walks.refused(&whole.bytes[..end], answer.0, answer.1);
    }
    walks.accepted(&whole.bytes, whole.nodes.len());
}

/// The file up to each of its bytes, where the nodes that the cut goes through end with it.
fn add_mended(walks: &mut Walks, file: &File) {
    walks.cases.sweep("walks changed: mended", 5);
    let whole = file.encode();
    for end in FIRST..whole.bytes.len() {
        let mut bytes = whole.bytes[..end].to_vec();
        let open = whole.nodes.iter();
        for node in open.filter(|node| node.offset + 8 <= end && end < node.end) {
            let size = (end - node.offset) as u32;
            bytes[node.offset + 4..][..4].copy_from_slice(&size.to_le_bytes());
        }
        walks.add(&bytes);
    }
}

/// Each byte with one bit flipped, and with another value.
fn add_changes(walks: &mut Walks, whole: &[u8]) {
    walks.cases.sweep("walks changed: changes", 3);
    for at in 0..whole.len() {
        let mut bytes = whole.to_vec();
        bytes[at] ^= 1 << walks.rng.below(8);
        walks.add(&bytes);
        let other = walks.rng.range(1, 255) as u8;
        let edges = [0, 1, 0x18, 0x40, 0x41, 0x80, 0xFF];
        bytes[at] = match walks.rng.chance(50) {
            true => whole[at].wrapping_add(other),
            false => *walks.rng.pick(&edges),
        };
        walks.add(&bytes);
    }
}
