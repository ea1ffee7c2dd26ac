//! The sizes of nodes and the room that they have: 5, and 12 where a node is longer than what it holds.

use super::{file, nested, root, rooted, wagon, Walks, FIRST, SECOND, WAGON};
use crate::keep::ALL;
use corpus::format::{BONE, METADATA, MODEL, ROOT, SKELETON};
use corpus::tree::{File, Node};

pub fn add(walks: &mut Walks) {
    add_values(walks);
    add_depths(walks);
    add_room(walks);
    add_siblings(walks);
}

/// The file with another size in a row's header.
fn sized(file: &File, row: usize, size: usize) -> Vec<u8> {
    let mut file = file.clone();
    file.node_mut(row).claimed.size = Some(size as u32);
    file.bytes()
}

/// A bare root and a bare child of sizes that no such node has. The last ones wrap when the place is added.
fn add_values(walks: &mut Walks) {
    walks.cases.sweep("walks sizes: values", 8);
    let bare = rooted(Vec::new());
    let inner = [METADATA, WAGON].map(|kind| rooted(vec![Node::new(kind)]));
    walks.accepted(&bare.bytes(), 1);
    for file in &inner {
        walks.accepted(&file.bytes(), 2);
    }
    let sizes = [0, 1, 8, 22, 23, 25, 26, 0x1800, 1 << 24, 1 << 31];
    let wraps = [FIRST, FIRST - 8, SECOND, SECOND - 24, 1].map(|less| (1 << 32) - less);
    for size in sizes.into_iter().chain(wraps) {
        walks.refused(&sized(&bare, 0, size), 5, FIRST);
        for file in &inner {
            walks.refused(&sized(file, 1, size), 5, SECOND);
        }
    }
}

/// Nodes as deep as they go, each longer and shorter than it is, with a second root after them.
fn add_depths(walks: &mut Walks) {
    walks.cases.sweep("walks sizes: depths", 6);
    let mut deep = nested(&[ROOT, MODEL, SKELETON, BONE]);
    let bone = &mut deep.children[0].children[0].children[0];
    bone.children.push(wagon(b"abc"));
    let deep = file(vec![deep, root(Vec::new())]);
    let encoded = deep.encode();
    walks.accepted(&encoded.bytes, 6);
    for (row, node) in encoded.nodes[..5].iter().enumerate() {
        let size = node.end - node.offset;
        let to_end = encoded.bytes.len() - node.offset;
        for longer in [size + 1, size + 23, to_end] {
            // The first root may reach into the second, no other past its parent's end.
            let (number, place) = match row {
                0 => (12, node.end),
                _ => (5, node.offset),
            };
            walks.refused(&sized(&deep, row, longer), number, place);
        }
        walks.refused(&sized(&deep, row, 23), 5, node.offset);
        for shorter in [24, 25, size - 1] {
            // What is inside has no room; of the unknown node the rest is left to its parent.
            let (number, place) = match row {
                4 => (12, node.offset + shorter),
                _ => (5, node.offset + 24),
            };
            walks.refused(&sized(&deep, row, shorter), number, place);
        }
    }
}

/// Fewer bytes than a header has, where a child or a root is counted.
fn add_room(walks: &mut Walks) {
    walks.cases.sweep("walks sizes: room", 6);
    let inner = Node::new(METADATA).bytes();
    let outer = root(Vec::new()).bytes();
    for room in 0..24 {
        let mut file = file(vec![root(Vec::new()), root(Vec::new())]);
        file.roots[0].claimed.children = Some(1);
        file.roots[0].rest = inner[..room].to_vec();
        walks.refused(&file.bytes(), 5, SECOND);
        let mut file = rooted(Vec::new());
        file.root_count = Some(2);
        file.rest = outer[..room].to_vec();
        walks.refused(&file.bytes(), 5, SECOND);
    }
}

/// A child that takes bytes of its sibling.
fn add_siblings(walks: &mut Walks) {
    walks.cases.sweep("walks sizes: siblings", ALL);
    let two = rooted(vec![wagon(&[]), wagon(&[])]);
    walks.accepted(&two.bytes(), 3);
    for size in [25, 30, 46, 47, 48] {
        walks.refused(&sized(&two, 1, size), 5, SECOND + size);
    }
    walks.refused(&sized(&two, 1, 49), 5, SECOND);
    let mut taken = two.clone();
    taken.roots[0].claimed.children = Some(1);
    walks.accepted(&sized(&taken, 1, 48), 2);
    walks.refused(&sized(&taken, 1, 47), 12, SECOND + 47);
    let known = rooted(vec![Node::new(METADATA), wagon(&[])]);
    walks.refused(&sized(&known, 1, 25), 12, SECOND + 24);
    walks.refused(&sized(&known, 1, 48), 12, SECOND + 24);
    walks.refused(&sized(&known, 1, 49), 5, SECOND);
}
