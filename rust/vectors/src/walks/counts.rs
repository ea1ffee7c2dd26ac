//! Counts of roots, children and nodes, and bytes after the last: 5, 7 and 12.

use super::{file, nested, root, rooted, wagon, Walks, FIRST, SECOND};
use crate::keep::ALL;
use corpus::format::{BONE, MAX_NODES, MESH, METADATA, MODEL, ROOT, SKELETON, TABLE};
use corpus::tree::{File, Node, Property};

/// Where a 1,025th node of 24 bytes starts.
const PAST_MOST: usize = FIRST + 24 * MAX_NODES;

pub fn add(walks: &mut Walks) {
    add_counts(walks);
    add_rests(walks);
    add_many(walks);
}

/// Other counts of three children, and of three roots.
fn add_counts(walks: &mut Walks) {
    walks.cases.sweep("walks counts: counts", 6);
    let children = rooted(vec![wagon(&[]), Node::new(METADATA), wagon(&[])]);
    let roots = file(vec![root(Vec::new()); 3]);
    for count in [0, 1, 2, 4, 5, 0x103, 0x1_0003, 1 << 31, u32::MAX] {
        let number = if count < 3 { 12 } else { 5 };
        let nodes = count.min(3) as usize;
        let mut file = children.clone();
        file.roots[0].claimed.children = Some(count);
        walks.refused(&file.bytes(), number, SECOND + 24 * nodes);
        let mut file = roots.clone();
        file.root_count = Some(count);
        walks.refused(&file.bytes(), number, FIRST + 24 * nodes);
    }
    // As many as can be told, and no byte.
    for count in [1, 1_024, 1_025, u32::MAX] {
        let mut file = file(Vec::new());
        file.root_count = Some(count);
        walks.refused(&file.bytes(), 5, FIRST);
        let mut file = rooted(Vec::new());
        file.roots[0].claimed.children = Some(count);
        walks.refused(&file.bytes(), 5, SECOND);
    }
}

/// Bytes after the last child of each node of a path, and after the last root; with and without siblings after them.
fn add_rests(walks: &mut Walks) {
    walks.cases.sweep("walks counts: rests", 6);
    let strays = [
        vec![0],
        vec![0xFF; 23],
        Node::new(ROOT).bytes(),
        wagon(b"!").bytes(),
        vec![0; 50],
    ];
    let mut bone = Node::with(BONE, vec![Property::string("n", b"b")], Vec::new());
    bone.children.push(wagon(&[]));
    let mut outer = nested(&[ROOT, MODEL, SKELETON]);
    outer.children[0].children[0].children.push(bone);
    for followed in [false, true] {
        let mut path = file(vec![outer.clone()]);
        if followed {
            path.roots.push(root(Vec::new()));
            path.roots[0].children.push(Node::new(METADATA));
        }
        for stray in &strays {
            for row in 0..4 {
                let mut file = path.clone();
                file.node_mut(row).rest = stray.clone();
                let place = file.encode().nodes[row].rest;
                walks.refused(&file.bytes(), 12, place);
            }
            let place = path.bytes().len();
            let mut file = path.clone();
            file.rest = stray.clone();
            walks.refused(&file.bytes(), 12, place);
        }
    }
}

/// 1,023 bare unknown children of one root, and then this node.
fn many(last: Node) -> File {
    let mut children = vec![wagon(&[]); MAX_NODES - 1];
    children.push(last);
    rooted(children)
}

/// 1,024 nodes and 1,025, the last one with a fault besides. The tables have a place for its row.
fn add_many(walks: &mut Walks) {
    walks.cases.leave_out();
    let mut full = rooted(vec![wagon(&[]); MAX_NODES - 1]);
    let nodes = MAX_NODES as u32;
    assert_eq!(walks.add_with(&full.bytes(), TABLE), (0, 0, nodes));
    full.roots[0].claimed.children = Some(nodes);
    let mut properties = Node::new(MODEL);
    properties.claimed.properties = Some(65);
    for (file, number, kept) in [
        (full, 5, false),
        (many(wagon(&[])), 7, false),
        (many(Node::new(MESH)), 6, false),
        (many(properties), 7, true),
        (file(vec![root(Vec::new()); MAX_NODES + 1]), 7, false),
    ] {
        if kept {
            walks.cases.sweep("walks counts: many", ALL);
        } else {
            walks.cases.leave_out();
        }
        let answer = walks.add_with(&file.bytes(), TABLE + 8);
        assert_eq!(answer, (number, PAST_MOST as u32, 0));
    }
}
