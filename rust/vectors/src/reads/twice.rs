//! Names that are on a node twice, and such that differ late.

use super::placed::{elements, file, full, index_of, minimal, placed, with_line};
use super::Reads;
use corpus::format::{
    B, BONE, D, H, KINDS, L, MATERIAL, MAX_NAME, MAX_PROPERTIES, MESH, METADATA, MODEL, ROOT,
    RULES, S, SKELETON, TYPES,
};
use corpus::tree::{Node, Property};

pub fn add(reads: &mut Reads) {
    add_kinds(reads);
    add_lines(reads);
    add_prefixes(reads);
    add_full(reads);
    add_across(reads);
}

fn short(name: &[u8]) -> Property {
    Property::new(B, name, 1, vec![7])
}

/// Free names on every known kind: side by side, apart, three times, of other types.
fn add_kinds(reads: &mut Reads) {
    reads.cases.sweep("reads twice: kinds", 8);
    for (kind, _) in KINDS {
        let node = minimal(kind);
        let first = node.properties.len();
        let with = |names: &[&str]| {
            let mut node = node.clone();
            let names = names.iter().map(|name| short(name.as_bytes()));
            node.properties.extend(names);
            node
        };
        reads.right(&placed(with(&["q", "qq", "qqq"])));
        reads.wrong(&placed(with(&["q", "q"])), 13, first + 1);
        reads.wrong(&placed(with(&["q", "w", "q", "q"])), 13, first + 2);
        reads.wrong(&placed(with(&["w", "q", "q", "w"])), 13, first + 2);
        for code in [S, L, *reads.rng.pick(&TYPES)] {
            let mut other = with(&["q", "w"]);
            other.properties.insert(0, elements(code, "w", 1));
            reads.wrong(&placed(other), 13, first + 2);
        }
    }
}

/// Every listed name once more: like the first, of another type, and after a first that is wrong itself.
fn add_lines(reads: &mut Reads) {
    reads.cases.sweep("reads twice: lines", 12);
    for rule in RULES {
        let node = with_line(rule);
        let index = index_of(&node, rule);
        let mut double = node.clone();
        double.properties.push(node.properties[index].clone());
        let last = double.properties.len() - 1;
        reads.wrong(&placed(double.clone()), 13, last);
        let name = String::from_utf8_lossy(&node.properties[index].name).into_owned();
        double.properties[last] = elements(D, &name, 3);
        reads.wrong(&placed(double.clone()), 13, last);
        double.properties.swap(index, last);
        reads.wrong(&placed(double), 13, index);
    }
}

/// Two names that are equal up to some byte, as words of four or eight bytes are, and by their sums.
fn add_prefixes(reads: &mut Reads) {
    reads.cases.sweep("reads twice: prefixes", 12);
    let pair = |first: &[u8], second: &[u8]| {
        let properties = vec![short(first), elements(H, "between", 0), short(second)];
        placed(Node::with(ROOT, properties, Vec::new()))
    };
    for size in 1..=MAX_NAME {
        let name: Vec<u8> = (0..size as u8).map(|byte| b'a' + byte % 26).collect();
        reads.wrong(&pair(&name, &name), 13, 2);
        let mut other = name.clone();
        other[size - 1] ^= 0x80;
        reads.right(&pair(&name, &other));
        if size > 1 {
            reads.right(&pair(&name[..size - 1], &name));
            reads.right(&pair(&name, &name[..size - 1]));
            reads.right(&pair(&name[1..], &name));
        }
    }
    let long = [b'n'; MAX_NAME];
    for at in 0..MAX_NAME {
        let mut other = long;
        other[at] = *reads
            .rng
            .pick(&[1, 0xFF, b'm', b'n' ^ 0x20 ^ 0x80, b'n' + 1]);
        reads.right(&pair(&long, &other));
        reads.right(&pair(&other, &long[..at.max(1)]));
        reads.wrong(&pair(&other, &other), 13, 2);
    }
    for (first, second) in [
        ("ab", "ba"),
        ("abcd", "cdab"),
        ("abcdefgh", "efghabcd"),
        ("abcdabcd", "abcd"),
        ("aaaa", "aaaaaaaa"),
        ("\u{1}", "\u{1}\u{1}"),
        ("a\u{1}b", "b\u{1}a"),
        ("\u{ff}", "\u{fe}"),
    ] {
        reads.right(&pair(first.as_bytes(), second.as_bytes()));
        reads.wrong(&pair(first.as_bytes(), first.as_bytes()), 13, 2);
    }
}

/// 64 names that differ in their last byte, and two of them made equal.
fn add_full(reads: &mut Reads) {
    reads.cases.sweep("reads twice: full", 1);
    for size in [1, 4, 8, 9, MAX_NAME] {
        let properties = (0..MAX_PROPERTIES as u8).map(|number| {
            let mut name = vec![b'n'; size];
            name[size - 1] = 0x80 + number;
            Property::new(B, &name, 0, Vec::new())
        });
        let node = Node::with(METADATA, properties.collect(), Vec::new());
        reads.right(&placed(node.clone()));
        for (first, second) in [(0, 63), (62, 63), (7, 40)] {
            let mut node = node.clone();
            node.properties[second].name = node.properties[first].name.clone();
            reads.wrong(&placed(node), 13, second);
        }
    }
}

/// Equal names on different nodes, of one kind and of others.
fn add_across(reads: &mut Reads) {
    reads.cases.sweep("reads twice: across", 2);
    let named = |kind: u32| {
        let mut node = minimal(kind);
        node.properties.push(short(b"q"));
        node
    };
    let mut outer = named(ROOT);
    let mut model = named(MODEL);
    let mut skeleton = named(SKELETON);
    skeleton.children = vec![named(BONE), named(BONE)];
    model.children = vec![skeleton, named(MESH), named(MESH), full(MESH)];
    model.children.push(minimal(MATERIAL));
    model.children[3].hash += 1;
    outer.children = vec![model, named(METADATA), named(METADATA)];
    let tree = file(vec![outer, named(ROOT)]);
    reads.accepted(&tree);
    let encoded = tree.encode();
    for row in 0..encoded.nodes.len() {
        let mut twice = tree.clone();
        let node = twice.node_mut(row);
        if node.position("q").is_some() {
            node.properties.push(short(b"q"));
            let index = node.properties.len() - 1;
            let place = twice.encode().nodes[row].properties[index].offset;
            reads.refused(&twice.bytes(), 13, place);
        }
    }
}
