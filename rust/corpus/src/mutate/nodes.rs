//! Faults of kinds, of the number of nodes and of links.

use super::{Fault, Place};
use crate::expect::links;
use crate::format::{children, BONE, KINDS, L, MATERIAL, MAX_NODES, MAX_PROPERTIES, MESH, ROOT};
use crate::rng::Rng;
use crate::tree::{File, Node, Property};
use crate::valid::unknown;

fn known_kind(rng: &mut Rng) -> u32 {
    rng.pick(&KINDS).0
}

/// Another kind, right or wrong in its place.
pub(super) fn kind_change(rng: &mut Rng, file: &mut File) -> Option<Fault> {
    let row = *rng.pick_any(&file.rows(|_| true))?;
    let kind = match rng.chance(50) {
        true => known_kind(rng),
        false => unknown::kind(rng),
    };
    let node = file.node_mut(row);
    let old = node.kind;
    node.kind = kind;
    (kind != old).then_some(None)
}

/// A known kind that its parent does not take.
pub(super) fn wrong_place(rng: &mut Rng, file: &mut File) -> Option<Fault> {
    let row = *rng.pick_any(&file.rows(|_| true))?;
    let parent = file.parents()[row];
    let taken = match parent {
        Some(parent) => children(file.node(parent).kind),
        None => &[ROOT],
    };
    let kind = known_kind(rng);
    file.node_mut(row).kind = kind;
    (!taken.contains(&kind)).then_some(Some((6, Place::Node(row))))
}

fn at_top(rng: &mut Rng, file: &mut File, kind: u32) -> Option<Fault> {
    let roots = file.rows_of(ROOT);
    let row = match rng.pick_any(&roots) {
        Some(row) if rng.chance(50) => *row,
        _ => {
            file.roots.push(Node::new(kind));
            file.nodes().len() - 1
        }
    };
    file.node_mut(row).kind = kind;
    Some(Some((6, Place::Node(row))))
}

pub(super) fn unknown_at_top(rng: &mut Rng, file: &mut File) -> Option<Fault> {
    let kind = unknown::kind(rng);
    at_top(rng, file, kind)
}

pub(super) fn mesh_at_top(rng: &mut Rng, file: &mut File) -> Option<Fault> {
    at_top(rng, file, MESH)
}

/// Fills the file up to 1,025 nodes, now and then a few more.
pub(super) fn many_nodes(rng: &mut Rng, file: &mut File) -> Option<Fault> {
    let missing = (MAX_NODES + 1).saturating_sub(file.nodes().len()) + rng.below(3);
    let known = file.rows(Node::is_known);
    let parent = rng.pick_any(&known).copied();
    for _ in 0..missing {
        let node = match parent {
            Some(_) => Node::new(unknown::kind(rng)),
            None => Node::new(ROOT),
        };
        file.siblings_mut(parent).push(node);
    }
    Some(Some((7, Place::Node(MAX_NODES))))
}

/// A link property, with the kind that it leads to.
struct Link {
    row: usize,
    index: usize,
    kind: u32,
    hash: u64,
}

fn all_links(file: &File) -> Vec<Link> {
    let mut out = Vec::new();
    for (row, node) in file.nodes().into_iter().enumerate() {
        for (index, kind) in links(node) {
            let hash = node.properties[index].hash();
            out.push(Link {
                row,
                index,
                kind,
                hash,
            });
        }
    }
    out
}

/// A link whose hash no node of the wanted kind has.
pub(super) fn dangling_link(rng: &mut Rng, file: &mut File) -> Option<Fault> {
    let links = all_links(file);
    let (row, index, kind, old) = match rng.pick_any(&links) {
        Some(link) => (link.row, link.index, link.kind, link.hash),
        None => {
            let row = *rng.pick_any(&file.rows_of(MESH))?;
            let node = file.node_mut(row);
            let index = rng.below(node.properties.len() + 1);
            if node.properties.len() == MAX_PROPERTIES || node.position("m").is_some() {
                return None;
            }
            let link = Property::array(L, "m", vec![0; 8]);
            node.properties.insert(index, link);
            (row, index, MATERIAL, 0)
        }
    };
    let others: Vec<u64> = file.nodes().iter().map(|node| node.hash).collect();
    let hash = match rng.below(5) {
        0 => old ^ 1 << rng.below(64),
        1 => old ^ 1 << 32,
        2 => *rng.pick(&others),
        3 => 0,
        _ => rng.next_u64(),
    };
    let reached = |node: &Node| node.kind == kind && node.hash == hash;
    if file.nodes().into_iter().any(reached) {
        return None;
    }
    let link = &mut file.node_mut(row).properties[index];
    link.data = hash.to_le_bytes().to_vec();
    link.length = 1;
    Some(Some((16, Place::Property(row, index))))
}

/// A second node with the kind and hash that a link leads to.
pub(super) fn doubled_target(rng: &mut Rng, file: &mut File) -> Option<Fault> {
    let links = all_links(file);
    let link = rng.pick_any(&links)?;
    let (kind, hash) = (link.kind, link.hash);
    let is_target = |node: &Node| node.kind == kind && node.hash == hash;
    let target = *file.rows(is_target).first()?;
    if file.nodes().len() >= MAX_NODES {
        return None;
    }
    let parents = file.parents();
    let mut double = file.node(target).clone();
    double.children.clear();
    double.claimed = Default::default();
    let kinds: Vec<u32> = file.nodes().iter().map(|node| node.kind).collect();
    let homes = (0..kinds.len()).filter(|row| children(kinds[*row]).contains(&kind));
    // A Bone goes to its own Skeleton, where its p stays right.
    let homes: Vec<usize> = match kind {
        BONE => vec![parents[target]?],
        _ => homes.collect(),
    };
    let home = *rng.pick_any(&homes)?;
    let siblings = file.siblings_mut(Some(home));
    let at = rng.below(siblings.len() + 1);
    siblings.insert(at, double);
    let mut links = all_links(file).into_iter();
    let first = links.find(|link| link.kind == kind && link.hash == hash)?;
    Some(Some((17, Place::Property(first.row, first.index))))
}
