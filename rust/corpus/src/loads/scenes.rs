//! Valid files of many nodes.

use crate::format::{
    ANIMATION, BONE, CURVE, F, FILE, I, IK_HANDLE, L, MATERIAL, MODEL, ROOT, SKELETON,
};
use crate::rng::Rng;
use crate::tree::{numbers_data, File, Node, Property};
use crate::valid::{self, Profile};
use crate::worked::WAGON;

fn in_root(nodes: Vec<Node>) -> File {
    File::new(0, vec![Node::with(ROOT, Vec::new(), nodes)])
}

fn in_model(nodes: Vec<Node>) -> File {
    in_root(vec![Node::with(MODEL, Vec::new(), nodes)])
}

/// Roots without properties.
pub fn bare(nodes: usize) -> File {
    File::new(0, vec![Node::new(ROOT); nodes])
}

/// A root of unknown nodes with bodies of this length.
pub fn unknown(nodes: usize, body: usize) -> File {
    let mut note = Node::new(WAGON);
    note.rest = vec![b'-'; body];
    in_root(vec![note; nodes - 1])
}

/// Nodes of all kinds with few elements each.
pub fn mixed(rng: &mut Rng, nodes: usize) -> File {
    let profile = Profile {
        nodes,
        ..Profile::MOST_NODES
    };
    valid::file(rng, &profile)
}

/// Bones with these hashes, each the parent of the next.
pub fn bones(hashes: impl Iterator<Item = u64>) -> Vec<Node> {
    let bones = hashes.enumerate().map(|(number, hash)| {
        let parent = (number as u32).wrapping_sub(1);
        let properties = vec![
            Property::string("n", b"bone"),
            Property::array(I, "p", parent.to_le_bytes().to_vec()),
        ];
        Node {
            hash,
            ..Node::with(BONE, properties, Vec::new())
        }
    });
    bones.collect()
}

/// A property that links to a hash.
pub fn link(name: &str, hash: u64) -> Property {
    Property::array(L, name, hash.to_le_bytes().to_vec())
}

/// Handles of five links each, to hashes of which the draw chooses.
pub fn handles(rng: &mut Rng, count: usize, hashes: &[u64]) -> Vec<Node> {
    let mut handle = || {
        let names = ["sb", "eb", "tb", "pv", "pb"];
        let links = names.map(|name| link(name, *rng.pick(hashes)));
        Node::with(IK_HANDLE, links.into(), Vec::new())
    };
    (0..count).map(|_| handle()).collect()
}

/// A Skeleton with these nodes.
pub fn skeleton(nodes: Vec<Node>) -> File {
    in_model(vec![Node::with(SKELETON, Vec::new(), nodes)])
}

/// Bones whose hashes descend, and a third as many handles that link to them.
pub fn descending_bones(rng: &mut Rng, nodes: usize) -> File {
    let count = (nodes - 3) * 3 / 4;
    let hashes: Vec<u64> = (1..=count as u64)
        .rev()
        .map(|number| number << 20)
        .collect();
    let mut parts = bones(hashes.iter().copied());
    parts.extend(handles(rng, nodes - 3 - count, &hashes));
    skeleton(parts)
}

/// Materials of 62 links each, and as many Files with hashes that are drawn.
pub fn many_targets(rng: &mut Rng, nodes: usize) -> File {
    let count = (nodes - 2) / 2;
    let hashes: Vec<u64> = (0..count).map(|_| rng.next_u64()).collect();
    let materials = hashes.iter().map(|&hash| {
        let mut links = vec![Property::string("n", b"m"), Property::string("t", b"pbr")];
        let more = (0..62).map(|number| link(&format!("extra{number}"), *rng.pick(&hashes)));
        links.extend(more);
        let picture = vec![Property::string("p", b"side.dds")];
        let picture = Node {
            hash,
            ..Node::with(FILE, picture, Vec::new())
        };
        Node::with(MATERIAL, links, vec![picture])
    });
    in_model(materials.collect())
}

/// An Animation of Curves, with this number of keys each.
pub fn curves(nodes: usize, keys: usize) -> File {
    let frames: Vec<u32> = (0..keys as u32).collect();
    let properties = vec![
        Property::string("nn", b"axle"),
        Property::string("kp", b"tx"),
        Property::array(I, "kb", numbers_data(4, &frames)),
        Property::array(F, "kv", vec![0; 4 * keys]),
        Property::string("m", b"absolute"),
    ];
    let curve = Node::with(CURVE, properties, Vec::new());
    let rate = vec![Property::array(F, "fr", vec![0; 4])];
    in_root(vec![Node::with(ANIMATION, rate, vec![curve; nodes - 2])])
}
