//! Unknown nodes: any kind number, any counts, any body.

use super::properties::{text, Targets};
use super::{names, Profile};
use crate::format::{is_known, BONE, FILE, KINDS, MATERIAL, MESH, ROOT, S};
use crate::rng::Rng;
use crate::tree::{File, Node, Property};

/// A kind number that is none of the known ones.
pub fn kind(rng: &mut Rng) -> u32 {
    loop {
        let known = rng.pick(&KINDS).0;
        let kind = match rng.below(7) {
            0 => known ^ (1 << rng.below(32)),
            1 => known.swap_bytes(),
            2 => known.wrapping_add(1),
            3 => known & 0xDFDF_DFDF,
            4 => *rng.pick(&[0, 1, u32::MAX, 0x6E67_6177, 0x7473_6163]),
            _ => rng.next_u32(),
        };
        if !is_known(kind) {
            return kind;
        }
    }
}

/// Gives an unknown node its counts and its body.
pub fn fill(rng: &mut Rng, profile: &Profile, targets: &Targets, node: &mut Node) {
    node.claimed.properties = Some(count(rng));
    node.claimed.children = Some(count(rng));
    if rng.chance(15) {
        // As many properties as the header tells, with which a known node
        // would be right too.
        let name = names::any(rng);
        let property = Property::new(S, &name, 1, text(rng, profile.string));
        node.rest = Node::with(node.kind, vec![property], Vec::new())
            .bytes()
            .split_off(24);
        node.claimed.properties = Some(1);
    } else {
        node.rest = body(rng, profile, targets);
    }
}

fn count(rng: &mut Rng) -> u32 {
    match rng.chance(40) {
        true => rng.below(3) as u32,
        false => rng.edge_u32(),
    }
}

/// A body of any bytes, often such that look like parts of a file.
pub fn body(rng: &mut Rng, profile: &Profile, targets: &Targets) -> Vec<u8> {
    match rng.below(7) {
        0 | 1 => Vec::new(),
        2 => {
            // A node with a hash that links elsewhere lead to.
            let kind = *rng.pick(&[BONE, MESH, FILE, MATERIAL, ROOT]);
            let mut node = Node::new(kind);
            node.hash = targets.any(rng).unwrap_or(0);
            node.properties.push(Property::string("n", b"hidden"));
            node.bytes()
        }
        3 => {
            let mut bytes = Node::new(rng.pick(&KINDS).0).bytes();
            bytes.truncate(rng.range(0, 24));
            bytes
        }
        4 => File::new(0, vec![Node::new(ROOT)]).bytes(),
        5 => vec![*rng.pick(&[0, 0xFF, b'c']); rng.skewed(profile.body)],
        _ => {
            let size = rng.skewed(profile.body);
            rng.bytes(size)
        }
    }
}
