//! Links: where no node, one or several of the kind have the hash.

use super::placed::{
    file, full, index_of, minimal, name_of, path, placed, rooted, wagon, with_line, Placed,
};
use super::Reads;
use corpus::expect::links;
use corpus::format::{
    Holds, Rule, BLEND_SHAPE, BONE, CONSTRAINT, FILE, IK_HANDLE, INSTANCE, L, MATERIAL, MESH,
    MODEL, ROOT, RULES, SKELETON,
};
use corpus::tree::{Node, Property};
use corpus::valid::LINKED;
use std::slice;

/// The least hash, the greatest, and one between.
const HASHES: [u64; 3] = [0, u64::MAX, 0x0123_4567_89AB_CDEF];

pub fn add(reads: &mut Reads) {
    for rule in RULES {
        if let Holds::Link(target) = rule.holds {
            add_line(reads, rule, target);
        }
    }
    add_free(reads);
    add_near(reads);
    add_drawn(reads);
}

fn link(name: &str, hash: u64) -> Property {
    Property::array(L, name, hash.to_le_bytes().to_vec())
}

/// A minimal node with this hash.
fn hashed(kind: u32, hash: u64) -> Node {
    let mut node = minimal(kind);
    node.hash = hash;
    node
}

/// A node with a link of this line to `hash`, and these nodes beside; some of them stand before it.
fn linked(reads: &mut Reads, rule: &Rule, hash: u64, nodes: &[Node]) -> Placed {
    let mut node = with_line(rule);
    let index = index_of(&node, rule);
    node.properties[index] = link(&name_of(rule), hash);
    let mut roots = Vec::new();
    // What the node's other links lead to.
    if links(&node).len() > 1 {
        roots.push(rooted(minimal(BONE)));
    }
    roots.extend(nodes.iter().map(|node| match path(node.kind).len() {
        1 => Node::with(ROOT, Vec::new(), vec![node.clone()]),
        _ => rooted(node.clone()),
    }));
    reads.rng.shuffle(&mut roots);
    let before = reads.rng.below(roots.len() + 1);
    let row = roots[..before]
        .iter()
        .map(|root| file(vec![root.clone()]).nodes().len());
    let row = row.sum::<usize>() + path(rule.kind).len() - 1;
    roots.insert(before, rooted(node));
    Placed {
        file: file(roots),
        row,
    }
}

fn add_line(reads: &mut Reads, rule: &Rule, target: u32) {
    let index = index_of(&with_line(rule), rule);
    for (round, hash) in HASHES.into_iter().enumerate() {
        let same = hashed(target, hash);
        let others = LINKED
            .into_iter()
            .filter(|&kind| kind != target && kind != rule.kind);
        let mut others: Vec<Node> = others.map(|kind| hashed(kind, hash)).collect();
        let mut unknown = wagon(&same.bytes());
        unknown.hash = hash;
        others.push(unknown);
        let near = [1, 1 << 31, 1 << 32, 1 << 63].map(|bit| hashed(target, hash ^ bit));
        let halves = hashed(target, hash.rotate_left(32));
        let mut sets: Vec<(u32, Vec<Node>)> = vec![
            (16, Vec::new()),
            (0, vec![same.clone()]),
            (17, vec![same.clone(); 2]),
        ];
        // The longer sets once for each line.
        if round == 2 {
            sets.push((16, near.to_vec()));
            sets.push((16, vec![halves.clone()]));
            sets.push((16, others.clone()));
            sets.push((0, [&others[..], slice::from_ref(&same)].concat()));
            sets.push((0, [&near[..], &[same.clone(), halves]].concat()));
            sets.push((17, [&near[..2], &vec![same.clone(); 2]].concat()));
            sets.push((17, vec![same.clone(); 3]));
            sets.push((17, [&others[..], &vec![same.clone(); 2]].concat()));
        }
        for (number, nodes) in sets {
            match nodes.len() {
                0..=2 => reads.sweep_line("links", rule, 1),
                _ => reads.cases.sweep("reads links: more nodes", 3),
            }
            let placed = linked(reads, rule, hash, &nodes);
            match number {
                0 => drop(reads.right(&placed)),
                _ => reads.wrong(&placed, number, index),
            }
        }
    }
}

/// Names of links where they are free, and each link of a node that has all of its kind.
fn add_free(reads: &mut Reads) {
    reads.cases.sweep("reads links: free", 3);
    for (kind, names) in [
        (MODEL, &["m", "b", "rf", "tb", "albedo"][..]),
        (BONE, &["m", "tb", "sb", "pb", "cb"]),
        (IK_HANDLE, &["cb", "m", "extra0"]),
        (CONSTRAINT, &["sb", "eb", "pv", "pb"]),
        (MESH, &["b", "albedo", "tb"]),
        (MATERIAL, &["m", "rf", "extra00", "extra"]),
        (FILE, &["rf", "m"]),
        (INSTANCE, &["m", "albedo", "b"]),
    ] {
        let mut node = minimal(kind);
        let before = links(&node).len() as u32;
        for name in names {
            node.properties.push(link(name, 0xDEAD));
        }
        assert_eq!(reads.right(&placed(node)).links, before);
    }
    // tb is on both kinds a link, on one of them required.
    for (kind, count) in [(IK_HANDLE, 5), (CONSTRAINT, 2), (MATERIAL, 11), (MESH, 1)] {
        let node = full(kind);
        assert_eq!(reads.right(&placed(node.clone())).links, count);
        for (index, _) in links(&node) {
            let mut node = node.clone();
            node.properties[index].data[0] ^= 1;
            reads.wrong(&placed(node), 16, index);
        }
    }
}

/// Links to a child and to what stands beside, where nodes of all kinds have one hash.
fn add_near(reads: &mut Reads) {
    reads.cases.sweep("reads links: near", 2);
    let picture = hashed(FILE, 7);
    let mut material = hashed(MATERIAL, 7);
    material.properties.push(link("albedo", 7));
    material.properties.push(link("extra7", 7));
    material.children.push(picture.clone());
    let mut mesh = hashed(MESH, 7);
    mesh.properties.push(link("m", 7));
    let mut shape = hashed(BLEND_SHAPE, 7);
    shape.properties[1] = link("b", 7);
    let mut instance = hashed(INSTANCE, 7);
    instance.properties[0] = link("rf", 7);
    let model = Node::with(MODEL, Vec::new(), vec![shape, mesh, material]);
    let tree = file(vec![Node::with(ROOT, Vec::new(), vec![instance, model])]);
    assert_eq!(reads.accepted(&tree).links, 5);
    // One more File, in the Instance: then all links to a File reach two, and the first of them speaks.
    let mut doubled = tree.clone();
    doubled.roots[0].children[0].children.push(picture);
    let place = doubled.encode().nodes[1].properties[0].offset;
    reads.refused(&doubled.bytes(), 17, place);
    let mut unlinked = doubled;
    unlinked.roots[0].children[0].children[0].hash = 8;
    assert_eq!(reads.accepted(&unlinked).links, 5);
    for row in 0..unlinked.nodes().len() {
        let mut other = unlinked.clone();
        other.node_mut(row).hash ^= 1 << 40;
        reads.add(&other.bytes());
    }
}

/// Many Bones of few hashes, and links to them; the first in file order that fails speaks.
fn add_drawn(reads: &mut Reads) {
    reads.cases.sweep("reads links: drawn", 2);
    for round in 0..reads.cases.draws(40) as u64 {
        let hashes: Vec<u64> = (0..round % 10 + 2)
            .map(|number| match reads.rng.below(3) {
                0 => number,
                1 => number << 32,
                _ => reads.rng.next_u64(),
            })
            .collect();
        let mut parts = Vec::new();
        for &hash in &hashes {
            let count = match reads.rng.below(20) {
                0 => 0,
                1 => 2,
                _ => 1,
            };
            parts.extend((0..count).map(|_| hashed(BONE, hash)));
        }
        for _ in 0..reads.rng.range(1, 4) {
            let kind = *reads.rng.pick(&[IK_HANDLE, CONSTRAINT]);
            let mut node = match reads.rng.chance(60) {
                true => minimal(kind),
                false => full(kind),
            };
            for (index, _) in links(&node) {
                node.properties[index].data = reads.rng.pick(&hashes).to_le_bytes().to_vec();
            }
            parts.push(node);
        }
        reads.rng.shuffle(&mut parts);
        let skeleton = Node::with(SKELETON, Vec::new(), parts);
        let model = Node::with(MODEL, Vec::new(), vec![skeleton]);
        let tree = file(vec![Node::with(ROOT, Vec::new(), vec![model])]);
        let nodes = tree.nodes();
        let encoded = tree.encode();
        let mut failed = None;
        for (node, place) in nodes.iter().zip(&encoded.nodes) {
            for (index, kind) in links(node) {
                let hash = node.properties[index].hash();
                let same = |other: &&&Node| other.kind == kind && other.hash == hash;
                let number = match nodes.iter().filter(same).count() {
                    0 => 16,
                    1 => continue,
                    _ => 17,
                };
                failed = failed.or(Some((number, place.properties[index].offset)));
            }
        }
        match failed {
            None => drop(reads.accepted(&tree)),
            Some((number, place)) => reads.refused(&encoded.bytes, number, place),
        }
    }
}
