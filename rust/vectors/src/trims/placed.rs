//! Unknown nodes in every place of a tree.

use super::Trims;
use crate::reads::placed::{file, minimal, placed, wagon};
use corpus::format::{is_known, BONE, KINDS, METADATA, MODEL, ROOT, SKELETON};
use corpus::tree::{File, Node};

pub fn add(trims: &mut Trims) {
    add_below(trims);
    add_levels(trims);
    add_siblings(trims);
    add_roots(trims);
}

/// The rows of a tree's unknown nodes.
fn unknown(file: &File) -> Vec<usize> {
    file.rows(|node| !is_known(node.kind))
}

/// Below a node of every known kind, alone and beside others. What the node's links lead to comes in later rows.
fn add_below(trims: &mut Trims) {
    trims.cases.sweep("trims placed: below", 6);
    for (kind, _) in KINDS {
        let bodies: [&[&[u8]]; 2] = [&[b"abc"], &[b"", b"12345678"]];
        for bodies in bodies {
            let mut outer = minimal(kind);
            outer.children = bodies.iter().map(|body| wagon(body)).collect();
            let file = placed(outer).file;
            for row in unknown(&file) {
                trims.row(&file, row);
            }
        }
    }
}

/// A chain of known nodes, each with an unknown child before and after the next: the sizes of all that are around the
/// removed one fall, and only its parent's child count.
fn add_levels(trims: &mut Trims) {
    trims.cases.sweep("trims placed: levels", 4);
    let mut size = 0;
    let mut note = || {
        size += 3;
        wagon(&vec![0xAB; size])
    };
    let mut bone = minimal(BONE);
    bone.children = vec![note(), note()];
    let skeleton = Node::with(SKELETON, Vec::new(), vec![note(), bone, note()]);
    let model = Node::with(MODEL, Vec::new(), vec![note(), skeleton, note()]);
    let root = Node::with(ROOT, Vec::new(), vec![note(), model, note()]);
    let tree = file(vec![root]);
    trims.rows(&tree);
    // From the last to the first, and from the first to the last.
    for backwards in [true, false] {
        let mut left = tree.clone();
        while let Some(row) = match backwards {
            true => unknown(&left).last().copied(),
            false => unknown(&left).first().copied(),
        } {
            let (new, old) = (left.without(&[row]).bytes().len(), left.bytes().len());
            let given = trims.given(row, new, old);
            left = trims.valid(&left, given).unwrap_or(left);
        }
    }
}

/// Unknown nodes only, and between known ones with children, which are renumbered.
fn add_siblings(trims: &mut Trims) {
    trims.cases.sweep("trims placed: siblings", 2);
    let notes = (0..6).map(|number: u8| {
        let mut note = wagon(&vec![number; 7 * usize::from(number)]);
        note.hash = 0x8080_8080_8080_8080 >> number;
        note
    });
    let notes: Vec<Node> = notes.collect();
    trims.rows(&file(vec![Node::with(ROOT, Vec::new(), notes.clone())]));
    let parents = (0..3).map(|number| {
        let bones = vec![wagon(b"12"), minimal(BONE), wagon(b"")];
        let skeleton = Node::with(SKELETON, Vec::new(), bones);
        let mut model = Node::with(MODEL, Vec::new(), vec![skeleton]);
        model.hash = number;
        model
    });
    let mut children = Vec::new();
    for (note, parent) in notes.into_iter().zip(parents) {
        children.extend([note, parent]);
    }
    trims.rows(&file(vec![Node::with(ROOT, Vec::new(), children)]));
}

/// Several roots, with unknown nodes in the first, in one between or in the last.
fn add_roots(trims: &mut Trims) {
    trims.cases.sweep("trims placed: roots", 3);
    for with in 1..8 {
        let roots = (0..3).map(|at| {
            let mut root = Node::with(ROOT, Vec::new(), vec![minimal(METADATA)]);
            root.hash = u64::MAX - at;
            if with & 1 << at != 0 {
                root.children.insert(at as usize % 2, wagon(b"x"));
            }
            root
        });
        let tree = file(roots.collect());
        for row in unknown(&tree) {
            trims.row(&tree, row);
        }
    }
}
