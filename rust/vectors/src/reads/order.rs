//! Several faults in one file: the first in the order of the rules speaks.

use super::placed::{elements, file, hash_of, minimal, numbers, rooted, shuffled, wagon};
use super::Reads;
use corpus::format::{B, BONE, IK_HANDLE, L, MESH, METADATA, MODEL, ROOT, SKELETON};
use corpus::tree::{File, Node, Property};
use reference::Reading;
use std::slice;

/// The hash of two Bones.
const DOUBLED: u64 = 2;
/// The hash of none.
const DANGLING: u64 = 3;
/// The faults of one node.
const FAULTS: [u32; 5] = [13, 14, 15, 16, 17];

pub fn add(reads: &mut Reads) {
    add_one_row(reads);
    add_two_rows(reads);
    add_rows(reads);
    add_walk(reads);
    add_headers(reads);
    add_same(reads);
}

/// An IKHandle with these faults, each at a property of its own.
fn handle(faults: &[u32]) -> Node {
    let link = |name: &str, hash: u64| Property::array(L, name, hash.to_le_bytes().to_vec());
    let has = |fault: u32| faults.contains(&fault);
    let target = hash_of(BONE);
    let mut node = minimal(IK_HANDLE);
    if has(14) {
        node.properties.pop();
    }
    node.properties.push(match has(13) {
        true => elements(B, "n", 1),
        false => Property::string("n", b"ik"),
    });
    let flag = if has(15) { 2 } else { 1 };
    node.properties.push(numbers(B, "tr", &[flag]));
    let hash = if has(16) { DANGLING } else { target };
    node.properties.push(link("tb", hash));
    let hash = if has(17) { DOUBLED } else { target };
    node.properties.push(link("pv", hash));
    node
}

/// A Skeleton of these handles, from row 3 on, with what their links lead to in another root.
fn tree(handles: Vec<Node>) -> File {
    let skeleton = Node::with(SKELETON, Vec::new(), handles);
    let model = Node::with(MODEL, Vec::new(), vec![skeleton]);
    let mut bones = vec![minimal(BONE); 3];
    bones[1].hash = DOUBLED;
    bones[2].hash = DOUBLED;
    let targets = rooted(Node::with(SKELETON, Vec::new(), bones));
    file(vec![Node::with(ROOT, Vec::new(), vec![model]), targets])
}

/// What a tree of handles with these faults leads to: its number and place.
fn answer(tree: &File, faults: &[Vec<u32>]) -> Option<(u32, usize)> {
    let encoded = tree.encode();
    let place = |row: usize, number: u32| {
        let name = match number {
            13 => "n",
            15 => "tr",
            16 => "tb",
            17 => "pv",
            _ => return encoded.nodes[row].offset,
        };
        let index = tree.node(row).position(name).expect("it was put");
        encoded.nodes[row].properties[index].offset
    };
    for (row, faults) in (3..).zip(faults) {
        if let Some(&number) = faults.iter().filter(|&&fault| fault < 16).min() {
            return Some((number, place(row, number)));
        }
    }
    for (row, faults) in (3..).zip(faults) {
        let places = faults.iter().map(|&number| (number, place(row, number)));
        if let Some(first) = places.min_by_key(|fault| fault.1) {
            return Some(first);
        }
    }
    None
}

fn judge(reads: &mut Reads, faults: &[Vec<u32>]) {
    let handles = faults
        .iter()
        .map(|faults| shuffled(&mut reads.rng, handle(faults)));
    let tree = tree(handles.collect());
    match answer(&tree, faults) {
        None => drop(reads.accepted(&tree)),
        Some((number, place)) => reads.refused(&tree.bytes(), number, place),
    }
}

/// All sets of faults of one node, its properties in several orders.
fn add_one_row(reads: &mut Reads) {
    reads.cases.sweep("reads order: one row", 2);
    for set in 0..32 {
        let faults = (0..FAULTS.len()).filter(|fault| set & 1 << fault != 0);
        let faults: Vec<u32> = faults.map(|fault| FAULTS[fault]).collect();
        for _ in 0..4 {
            judge(reads, slice::from_ref(&faults));
        }
    }
}

/// Two nodes with a fault each, or none.
fn add_two_rows(reads: &mut Reads) {
    reads.cases.sweep("reads order: two rows", 1);
    let sets: Vec<Vec<u32>> = [vec![]]
        .into_iter()
        .chain(FAULTS.map(|fault| vec![fault]))
        .collect();
    for first in &sets {
        for second in &sets {
            judge(reads, &[first.clone(), second.clone()]);
        }
    }
}

/// Up to four nodes with any faults.
fn add_rows(reads: &mut Reads) {
    reads.cases.sweep("reads order: rows", 1);
    for _ in 0..reads.cases.draws(90) {
        let mut faults = Vec::new();
        for _ in 0..reads.rng.range(2, 4) {
            let mut set = Vec::new();
            for fault in FAULTS {
                if reads.rng.chance(if fault < 16 { 12 } else { 30 }) {
                    set.push(fault);
                }
            }
            faults.push(set);
        }
        judge(reads, &faults);
    }
}

/// Nodes that the walk refuses: the number, and the place from the node's start.
fn faulty() -> [(u32, usize, Node); 7] {
    let node = |change: fn(&mut Node)| {
        let mut node = Node::with(METADATA, vec![Property::string("a", b"me")], Vec::new());
        change(&mut node);
        node
    };
    [
        (5, 0, node(|node| node.claimed.size = Some(23))),
        (5, 36, node(|node| node.claimed.children = Some(1))),
        (6, 0, node(|node| node.kind = MESH)),
        (9, 0, node(|node| node.claimed.properties = Some(65))),
        (
            10,
            36,
            node(|node| {
                node.properties
                    .push(Property::new(B, b"x", 1 << 20, Vec::new()))
            }),
        ),
        (
            11,
            36,
            node(|node| node.properties.push(elements(B, "X", 0))),
        ),
        (12, 36, node(|node| node.rest.push(0))),
    ]
}

/// The walk speaks before all of 13 to 17, wherever in the file its fault is.
fn add_walk(reads: &mut Reads) {
    reads.cases.sweep("reads order: walk", 1);
    for (number, place, node) in faulty() {
        for fault in FAULTS {
            let mut tree = tree(vec![shuffled(&mut reads.rng, handle(&[fault]))]);
            let at = reads.rng.below(tree.roots.len() + 1);
            let root = Node::with(ROOT, Vec::new(), vec![wagon(b"abc"), node.clone()]);
            tree.roots.insert(at, root);
            let before = tree.roots[..at].iter().map(|root| root.bytes().len());
            let start = 16 + before.sum::<usize>() + 24 + 27;
            reads.refused(&tree.bytes(), number, start + place);
        }
    }
}

/// 1, 3 and 4 come before all others.
fn add_headers(reads: &mut Reads) {
    reads.cases.sweep("reads order: headers", 2);
    for fault in FAULTS {
        let tree = tree(vec![handle(&[fault])]);
        let told = Reading {
            number: 1,
            ..Reading::default()
        };
        for length in [8_191, 8_000] {
            assert_eq!(reads.add_with(&tree.bytes(), length), told);
        }
        let mut other = tree.clone();
        other.magic[0] = b'C';
        reads.refused(&other.bytes(), 3, 0);
        let mut other = tree.clone();
        other.version = 0;
        reads.refused(&other.bytes(), 4, 4);
        let mut other = tree.clone();
        other.rest.push(0);
        reads.refused(&other.bytes(), 12, tree.bytes().len());
    }
}

/// Of two faults with one number in a row the earlier property speaks: a wrong type and a name that is there twice.
fn add_same(reads: &mut Reads) {
    reads.cases.sweep("reads order: same", 4);
    let wrong = elements(B, "n", 1);
    let flag = numbers(B, "tr", &[2]);
    let free = elements(B, "q", 1);
    let orders: [(&[&Property], usize); 6] = [
        (&[&wrong, &free, &free], 0),
        (&[&free, &wrong, &free], 1),
        (&[&free, &free, &wrong], 1),
        (&[&free, &flag, &free], 2),
        (&[&flag, &wrong, &free], 1),
        (&[&flag, &flag, &wrong], 1),
    ];
    for (properties, at) in orders {
        for faults in [&[][..], &[14], &[16, 17]] {
            let mut node = handle(faults);
            node.properties
                .retain(|property| !matches!(&property.name[..], b"n" | b"tr"));
            let first = node.properties.len();
            node.properties.extend(properties.iter().copied().cloned());
            let tree = tree(vec![node]);
            let place = tree.encode().nodes[3].properties[first + at].offset;
            reads.refused(&tree.bytes(), 13, place);
        }
    }
}
