//! Kinds where they may and may not stand, and unknown nodes: 6.

use super::{file, nested, root, rooted, wagon, Walks, FIRST, SECOND, WAGON};
use corpus::format::{
    children, ANIMATION, BONE, CURVE, FILE, INSTANCE, KINDS, MATERIAL, MESH, METADATA, MODEL, ROOT,
    SKELETON,
};
use corpus::tree::{File, Node};
use corpus::valid::properties::Targets;
use corpus::valid::{unknown, Profile};

pub fn add(walks: &mut Walks) {
    add_top(walks);
    add_pairs(walks);
    add_returns(walks);
    add_unknown(walks);
}

/// The kinds from a root down to this one.
fn path(kind: u32) -> Vec<u32> {
    let parent = KINDS
        .iter()
        .find(|parent| children(parent.0).contains(&kind));
    let mut path = parent.map_or(Vec::new(), |parent| path(parent.0));
    path.push(kind);
    path
}

/// Anything but a root at the top, as the first and as the second.
fn add_top(walks: &mut Walks) {
    walks.cases.sweep("walks kinds: top", 6);
    let unknown = unknown::kind(&mut walks.rng);
    for kind in KINDS.map(|kind| kind.0).into_iter().chain([unknown, WAGON]) {
        let first = file(vec![Node::new(kind), root(Vec::new())]).bytes();
        let second = file(vec![root(Vec::new()), Node::new(kind)]).bytes();
        if kind == ROOT {
            walks.accepted(&first, 2);
        } else {
            walks.refused(&first, 6, FIRST);
            walks.refused(&second, 6, SECOND);
        }
    }
}

/// Below each kind all that may stand there, an unknown node, and some that may not.
fn add_pairs(walks: &mut Walks) {
    walks.cases.sweep("walks kinds: pairs", 16);
    for (parent, _) in KINDS {
        let path = path(parent);
        let inside = |kind| file(vec![nested(&[&path[..], &[kind]].concat())]).bytes();
        for &kind in children(parent) {
            walks.accepted(&inside(kind), path.len() + 1);
        }
        let unknown = unknown::kind(&mut walks.rng);
        walks.accepted(&inside(unknown), path.len() + 1);
        let mut wrong = vec![ROOT, parent];
        wrong.extend([0; 2].map(|_| walks.rng.pick(&KINDS).0));
        wrong.retain(|kind| !children(parent).contains(kind));
        for kind in wrong {
            walks.refused(&inside(kind), 6, FIRST + 24 * path.len());
        }
    }
}

/// After a subtree its parent's next child is judged by that parent, and has it as its parent.
fn add_returns(walks: &mut Walks) {
    walks.cases.sweep("walks kinds: returns", 3);
    let model = Node::with(
        MODEL,
        Vec::new(),
        vec![
            Node::with(
                SKELETON,
                Vec::new(),
                vec![
                    Node::with(BONE, Vec::new(), vec![wagon(b"inner")]),
                    Node::new(BONE),
                ],
            ),
            nested(&[MATERIAL, FILE]),
            wagon(b"below a model"),
            Node::new(MESH),
        ],
    );
    let tree = file(vec![
        root(vec![
            model,
            nested(&[INSTANCE, FILE]),
            nested(&[ANIMATION, CURVE]),
        ]),
        root(vec![wagon(&[]), nested(&[MODEL, SKELETON]), wagon(&[1])]),
    ]);
    let rows = tree.nodes().len();
    walks.accepted(&tree.bytes(), rows);
    // Each node once with each kind of the others, right or wrong in its place.
    for row in 0..rows {
        let mut kinds = [ROOT, MODEL, MESH, BONE, FILE, CURVE];
        walks.rng.shuffle(&mut kinds);
        for &kind in &kinds[..3] {
            let mut other = tree.clone();
            other.node_mut(row).kind = kind;
            walks.add(&other.bytes());
        }
    }
    // A child that only the kind before it could have.
    for (before, kind) in [(SKELETON, BONE), (MATERIAL, FILE)] {
        let model = Node::with(MODEL, Vec::new(), vec![Node::new(before), Node::new(kind)]);
        walks.refused(&rooted(vec![model]).bytes(), 6, SECOND + 48);
    }
}

/// Unknown nodes, whose counts and bodies say nothing, below every known kind.
fn add_unknown(walks: &mut Walks) {
    walks.cases.sweep("walks kinds: unknown", 4);
    let targets = Targets::of(&[]);
    for (parent, _) in KINDS {
        for _ in 0..3 {
            let mut node = Node::new(unknown::kind(&mut walks.rng));
            node.hash = walks.rng.next_u64();
            unknown::fill(&mut walks.rng, &Profile::SMALL, &targets, &mut node);
            let mut tree = file(vec![nested(&path(parent))]);
            let rows = tree.nodes().len();
            tree.node_mut(rows - 1).children = vec![node, wagon(&[])];
            walks.accepted(&tree.bytes(), rows + 2);
        }
    }
    let hidden = [
        root(vec![Node::new(METADATA)]).bytes(),
        File::default().bytes(),
        nested(&[WAGON, WAGON, WAGON]).bytes(),
        vec![0; 23],
        vec![0xFF; 24],
        vec![0xFF; 700],
    ];
    for body in &hidden {
        for (properties, children) in [(0, 0), (1, 1), (64, 0), (65, 0), (0, 1), (u32::MAX, 7)] {
            let mut node = wagon(body);
            node.claimed.properties = Some(properties);
            node.claimed.children = Some(children);
            walks.accepted(&rooted(vec![node, Node::new(METADATA)]).bytes(), 3);
        }
    }
}
