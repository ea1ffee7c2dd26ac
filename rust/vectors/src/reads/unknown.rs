//! Unknown nodes: nothing in them is judged or counted but their bytes.

use super::placed::{elements, file, full, minimal, numbers, placed, wagon};
use super::Reads;
use corpus::format::{B, BONE, KINDS, MATERIAL, MESH, MODEL, ROOT};
use corpus::tree::{Node, Property};
use corpus::valid::properties::Targets;
use corpus::valid::{unknown, Profile};
use corpus::worked::WAGON;

pub fn add(reads: &mut Reads) {
    add_sizes(reads);
    add_hidden(reads);
    add_below(reads);
}

/// Bodies of every length about the size of a header, and longer ones.
fn add_sizes(reads: &mut Reads) {
    reads.cases.sweep("reads unknown: sizes", 6);
    for size in (0..=50).chain([255, 256, 257, 1_000]) {
        let tree = file(vec![Node::with(
            ROOT,
            vec![elements(B, "q", size % 7)],
            vec![wagon(&vec![0xAB; size]), wagon(&[])],
        )]);
        let sums = reads.accepted(&tree);
        assert_eq!(sums.own_unknown as usize, 48 + size);
        assert_eq!(sums.own_known as usize, 24 + 9 + size % 7);
    }
}

/// Bodies and counts that would be refused, or counted, on a known node.
fn add_hidden(reads: &mut Reads) {
    reads.cases.sweep("reads unknown: hidden", 4);
    let twice = vec![elements(B, "q", 1), elements(B, "q", 1)];
    let mut wrong_faces = minimal(MESH);
    wrong_faces.properties[1] = numbers(B, "f", &[9, 9]);
    let nodes = [
        Node::with(MESH, twice.clone(), Vec::new()),
        Node::with(BONE, Vec::new(), Vec::new()),
        Node::with(
            MESH,
            vec![Property::new(0xFFFF, b"A", 7, Vec::new())],
            Vec::new(),
        ),
        full(MESH),
        wrong_faces,
        Node::with(ROOT, twice, vec![full(MESH)]),
    ];
    for node in nodes {
        for kind in [WAGON, 0, MESH ^ 0x20, u32::MAX, MESH.swap_bytes()] {
            let mut unknown = Node::new(kind);
            unknown.rest = node.bytes().split_off(24);
            unknown.claimed.properties = Some(node.properties.len() as u32);
            unknown.claimed.children = Some(node.children.len() as u32);
            let parts = vec![full(MESH), unknown, minimal(MATERIAL)];
            let model = Node::with(MODEL, Vec::new(), parts);
            let tree = file(vec![Node::with(ROOT, Vec::new(), vec![model])]);
            let sums = reads.accepted(&tree);
            assert_eq!((sums.faces, sums.links), (1, 1));
        }
    }
}

/// Below every known kind, beside children that are known.
fn add_below(reads: &mut Reads) {
    reads.cases.sweep("reads unknown: below", 6);
    let targets = Targets::of(&[]);
    for (parent, _) in KINDS {
        for _ in 0..4 {
            let mut node = Node::new(unknown::kind(&mut reads.rng));
            node.hash = reads.rng.next_u64();
            unknown::fill(&mut reads.rng, &Profile::SMALL, &targets, &mut node);
            let mut outer = full(parent);
            outer.children = vec![node, wagon(b"abc")];
            reads.right(&placed(outer));
        }
    }
}
