//! Several faults in one file: the first in the order of the rules speaks.

use super::{rooted, wagon, Walks, FIRST, SECOND};
use corpus::format::{B, MESH, METADATA};
use corpus::tree::{Node, Property};

pub fn add(walks: &mut Walks) {
    add_headers(walks);
    add_one_node(walks);
    add_two_nodes(walks);
}

/// All sets of faults of the table, the first four bytes, the version and a root's size.
fn add_headers(walks: &mut Walks) {
    walks.cases.sweep("walks order: headers", 4);
    for faults in 0..16 {
        let has = |fault: usize| faults & 1 << fault != 0;
        let mut file = rooted(vec![wagon(b"abc")]);
        let length = if has(0) { 8_191 } else { 8_192 };
        if has(1) {
            file.magic[3] = b'T';
        }
        if has(2) {
            file.version = 0;
        }
        if has(3) {
            file.roots[0].claimed.size = Some(23);
        }
        let answers = [(1, 0), (3, 0), (4, 4), (5, FIRST as u32)];
        let first = (0..answers.len()).find(|&fault| has(fault));
        let told = first.map_or((0, 0, 2), |fault| (answers[fault].0, answers[fault].1, 0));
        assert_eq!(walks.add_with(&file.bytes(), length), told);
    }
}

/// A property that breaks 11, or 10.
fn wrong_property(number: u32) -> Property {
    match number {
        11 => Property::new(B, b"X", 0, Vec::new()),
        _ => Property::new(B, b"x", 1 << 20, Vec::new()),
    }
}

/// All sets of faults of one node, in their order: its size, kind, property count, a property, a child, what follows.
fn add_one_node(walks: &mut Walks) {
    walks.cases.sweep("walks order: one node", 3);
    for faults in 0..64 {
        let has = |fault: usize| faults & 1 << fault != 0;
        let number = *walks.rng.pick(&[10, 11]);
        let mut node = Node::new(METADATA);
        node.properties.push(Property::string("n", b"me"));
        if has(3) {
            node.properties.push(wrong_property(number));
        }
        let mut child = wagon(b"in");
        if has(4) {
            child.claimed.size = Some(23);
        }
        node.children.push(child);
        if has(5) {
            node.rest = vec![0; 30];
        }
        if has(0) {
            node.claimed.size = Some(*walks.rng.pick(&[23, 1 << 16]));
        }
        if has(1) {
            node.kind = MESH;
        }
        if has(2) {
            node.claimed.properties = Some(65);
        }
        let file = rooted(vec![node, wagon(&[0; 30])]);
        let body = SECOND + 24 + 12;
        let answers = [
            (5, SECOND),
            (6, SECOND),
            (9, SECOND),
            (number, body),
            (5, body),
            (12, body + 26),
        ];
        match (0..answers.len()).find(|&fault| has(fault)) {
            Some(fault) => walks.refused(&file.bytes(), answers[fault].0, answers[fault].1),
            None => walks.accepted(&file.bytes(), 4),
        }
    }
}

/// Nodes with one fault each: its number, and its place from the node's start.
fn faulty() -> [(u32, usize, Node); 7] {
    let node = |change: fn(&mut Node)| {
        let mut node = Node::with(METADATA, vec![Property::string("n", b"me")], Vec::new());
        change(&mut node);
        node
    };
    [
        (5, 0, node(|node| node.claimed.size = Some(23))),
        (5, 36, node(|node| node.claimed.children = Some(1))),
        (6, 0, node(|node| node.kind = MESH)),
        (9, 0, node(|node| node.claimed.properties = Some(65))),
        (
            10,
            36,
            node(|node| node.properties.push(wrong_property(10))),
        ),
        (
            11,
            36,
            node(|node| node.properties.push(wrong_property(11))),
        ),
        (12, 36, node(|node| node.rest.push(0))),
    ]
}

/// Of two nodes with a fault each the first speaks; so does a node inside another before what follows it there.
fn add_two_nodes(walks: &mut Walks) {
    walks.cases.sweep("walks order: two nodes", 3);
    for (number, place, first) in faulty() {
        for (_, _, second) in faulty() {
            let file = rooted(vec![first.clone(), second.clone()]);
            walks.refused(&file.bytes(), number, SECOND + place);
        }
        let mut file = rooted(vec![wagon(b"abc"), first]);
        file.roots[0].rest.push(0);
        file.rest.push(0);
        file.root_count = Some(3);
        walks.refused(&file.bytes(), number, SECOND + 27 + place);
    }
}
