//! The tree of kinds and hashes, without properties.

use super::{unknown, Profile, LINKED, NEEDS};
use crate::format::{
    children, is_known, BLEND_SHAPE, BONE, CONSTRAINT, FILE, IK_HANDLE, INSTANCE, MESH, METADATA,
    ROOT,
};
use crate::rng::Rng;
use crate::tree::Node;

/// A node before the tree is put together.
struct Seedling {
    kind: u32,
    parent: Option<usize>,
    hash: u64,
}

struct Nursery {
    nodes: Vec<Seedling>,
    /// Nodes that may have children.
    known: Vec<usize>,
    limit: usize,
}

impl Nursery {
    fn add(&mut self, kind: u32, parent: Option<usize>) {
        if self.nodes.len() < self.limit {
            if is_known(kind) {
                self.known.push(self.nodes.len());
            }
            self.nodes.push(Seedling {
                kind,
                parent,
                hash: 0,
            });
        }
    }
}

pub(super) fn roots(rng: &mut Rng, profile: &Profile) -> Vec<Node> {
    let mut nodes = kinds(rng, profile);
    mend_needs(&mut nodes);
    give_hashes(rng, &mut nodes);
    assemble(rng, &nodes)
}

fn kinds(rng: &mut Rng, profile: &Profile) -> Vec<Seedling> {
    let limit = match profile.exact_nodes {
        true => profile.nodes,
        false if rng.chance(3) => 0,
        false => rng.range(1, profile.nodes),
    };
    let mut nursery = Nursery {
        nodes: Vec::new(),
        known: Vec::new(),
        limit,
    };
    let roots = match rng.chance(60) {
        true => 1,
        false => rng.range(1, profile.roots),
    };
    for _ in 0..roots {
        nursery.add(ROOT, None);
    }
    while nursery.nodes.len() < limit {
        let parent = match rng.chance(40) {
            true => nursery.known[nursery.known.len() - 1],
            false => *rng.pick(&nursery.known),
        };
        let options = children(nursery.nodes[parent].kind);
        if rng.chance(profile.unknown) {
            nursery.add(unknown::kind(rng), Some(parent));
        } else if let Some(kind) = rng.pick_any(options) {
            let child = nursery.nodes.len();
            nursery.add(*kind, Some(parent));
            // Mostly the node comes with one that it can link to.
            if rng.chance(75) {
                match *kind {
                    BLEND_SHAPE => nursery.add(MESH, Some(parent)),
                    IK_HANDLE | CONSTRAINT => nursery.add(BONE, Some(parent)),
                    INSTANCE if child + 1 < limit => nursery.add(FILE, Some(child)),
                    _ => {}
                }
            }
        }
    }
    nursery.nodes
}

fn has(nodes: &[Seedling], kind: u32) -> bool {
    nodes.iter().any(|node| node.kind == kind)
}

/// Turns nodes whose required link can reach nothing into others that may
/// stand in their place.
fn mend_needs(nodes: &mut [Seedling]) {
    for (kind, target) in NEEDS {
        if has(nodes, target) {
            continue;
        }
        // Without a File an Instance has no known children either.
        let other = if kind == INSTANCE { METADATA } else { target };
        for node in nodes.iter_mut().filter(|node| node.kind == kind) {
            node.kind = other;
        }
    }
}

fn give_hashes(rng: &mut Rng, nodes: &mut [Seedling]) {
    let fresh = rng.next_u64();
    let pool = [
        0,
        1,
        1 << 32,
        1 << 32 | 1,
        fresh,
        fresh ^ 1 << 40,
        fresh ^ 1,
        u64::MAX,
    ];
    let pooled = *rng.pick(&[0, 20, 60, 100]);
    let all_zero = rng.chance(8);
    for node in nodes.iter_mut().filter(|_| !all_zero) {
        node.hash = match rng.chance(pooled) {
            true => *rng.pick(&pool),
            false => rng.next_u64(),
        };
    }
    for kind in LINKED {
        keep_one_reachable(rng, nodes, kind);
    }
}

/// Where a node of the kind is needed, one of them gets a hash of its own.
fn keep_one_reachable(rng: &mut Rng, nodes: &mut [Seedling], kind: u32) {
    let rows: Vec<usize> = (0..nodes.len())
        .filter(|row| nodes[*row].kind == kind)
        .collect();
    let unique = |hash: u64| rows.iter().filter(|row| nodes[**row].hash == hash).count() == 1;
    if rows.iter().any(|row| unique(nodes[*row].hash)) {
        return;
    }
    let needed = NEEDS
        .iter()
        .any(|(needing, target)| *target == kind && has(nodes, *needing));
    if let (true, Some(row)) = (needed, rng.pick_any(&rows)) {
        let mut hash = rng.next_u64();
        while rows.iter().any(|row| nodes[*row].hash == hash) {
            hash = rng.next_u64();
        }
        nodes[*row].hash = hash;
    }
}

fn assemble(rng: &mut Rng, nodes: &[Seedling]) -> Vec<Node> {
    let mut below = vec![Vec::new(); nodes.len()];
    let mut roots = Vec::new();
    for (row, node) in nodes.iter().enumerate() {
        match node.parent {
            Some(parent) => below[parent].push(row),
            None => roots.push(row),
        }
    }
    if rng.chance(50) {
        below.iter_mut().for_each(|rows| rng.shuffle(rows));
    }
    fn grow(rows: &[usize], nodes: &[Seedling], below: &[Vec<usize>]) -> Vec<Node> {
        let grown = rows.iter().map(|row| Node {
            kind: nodes[*row].kind,
            hash: nodes[*row].hash,
            children: grow(&below[*row], nodes, below),
            ..Node::default()
        });
        grown.collect()
    }
    grow(&roots, nodes, &below)
}
