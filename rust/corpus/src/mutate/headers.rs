//! Faults in the file header and in the numbers of node headers.

use super::{Fault, Place};
use crate::format::{MAX_FILE, MAX_PROPERTIES, ROOT};
use crate::rng::Rng;
use crate::tree::{File, Node};

pub(super) fn magic(rng: &mut Rng, file: &mut File) -> Option<Fault> {
    let at = rng.below(4);
    file.magic[at] ^= 1 << rng.below(8);
    Some(Some((3, Place::At(0))))
}

pub(super) fn version(rng: &mut Rng, file: &mut File) -> Option<Fault> {
    let version = match rng.chance(50) {
        true => *rng.pick(&[0, 2, 0x0100_0000, 0x101, u32::MAX]),
        false => rng.edge_u32(),
    };
    file.version = version;
    (version != 1).then_some(Some((4, Place::At(4))))
}

pub(super) fn root_count(rng: &mut Rng, file: &mut File) -> Option<Fault> {
    let count = file.roots.len() as u32;
    let claimed = other_count(rng, count);
    let encoded = file.encode();
    let mut roots = encoded.nodes.iter().filter(|node| node.depth == 1);
    file.root_count = Some(claimed);
    Some(Some(match claimed > count {
        true => (5, Place::At(encoded.bytes.len())),
        false => (12, Place::At(roots.nth(claimed as usize)?.offset)),
    }))
}

/// A number other than `count`.
fn other_count(rng: &mut Rng, count: u32) -> u32 {
    loop {
        let claimed = match rng.below(4) {
            0 => count.wrapping_add(1),
            1 if count > 0 => count - 1,
            2 => rng.below(count as usize + 2) as u32,
            _ => rng.edge_u32(),
        };
        if claimed != count {
            return claimed;
        }
    }
}

/// Bytes after the last root, sometimes in the form of a node.
pub(super) fn extension(rng: &mut Rng, file: &mut File) -> Option<Fault> {
    let length = file.bytes().len();
    file.rest = stray(rng);
    Some(Some((12, Place::At(length))))
}

/// Bytes after the last child of a known node.
pub(super) fn bytes_after(rng: &mut Rng, file: &mut File) -> Option<Fault> {
    let row = *rng.pick_any(&file.rows(Node::is_known))?;
    file.node_mut(row).rest = stray(rng);
    Some(Some((12, Place::Rest(row))))
}

fn stray(rng: &mut Rng) -> Vec<u8> {
    match rng.below(4) {
        0 => vec![0],
        1 => Node::new(ROOT).bytes(),
        2 => vec![0; rng.range(1, 30)],
        _ => {
            let size = rng.range(1, 40);
            rng.bytes(size)
        }
    }
}

/// The true size of a row's node.
fn size(file: &File, row: usize) -> usize {
    let place = &file.encode().nodes[row];
    place.end - place.offset
}

fn any_row(rng: &mut Rng, file: &File) -> Option<usize> {
    rng.pick_any(&file.rows(|_| true)).copied()
}

pub(super) fn size_less(rng: &mut Rng, file: &mut File) -> Option<Fault> {
    let row = any_row(rng, file)?;
    let size = size(file, row);
    let less = rng.skewed((size - 24).min(40));
    file.node_mut(row).claimed.size = Some((size - less) as u32);
    (less > 0).then_some(None)
}

pub(super) fn size_more(rng: &mut Rng, file: &mut File) -> Option<Fault> {
    let row = any_row(rng, file)?;
    let encoded = file.encode();
    let place = &encoded.nodes[row];
    let more = rng.skewed(39) + 1;
    let size = place.end - place.offset + more;
    let around = match place.parent {
        Some(parent) => encoded.nodes[parent].end,
        None => encoded.bytes.len(),
    };
    let node = file.node_mut(row);
    node.claimed.size = Some(size as u32);
    Some(if place.offset + size > around {
        Some((5, Place::Node(row)))
    } else if node.is_known() {
        Some((12, Place::Rest(row)))
    } else {
        None
    })
}

pub(super) fn size_under(rng: &mut Rng, file: &mut File) -> Option<Fault> {
    let row = any_row(rng, file)?;
    let size = match rng.below(3) {
        0 => 0,
        1 => 23,
        _ => rng.below(24) as u32,
    };
    file.node_mut(row).claimed.size = Some(size);
    Some(Some((5, Place::Node(row))))
}

/// A size past the file, also such that its sum with the offset wraps.
pub(super) fn size_huge(rng: &mut Rng, file: &mut File) -> Option<Fault> {
    let row = any_row(rng, file)?;
    let offset = file.encode().nodes[row].offset as u32;
    let size = match rng.below(5) {
        0 => u32::MAX,
        1 => 0x8000_0000,
        2 => 0u32.wrapping_sub(offset),
        3 => 24u32.wrapping_sub(offset),
        _ => rng.next_u32() | 0x0200_0000,
    };
    if size as usize <= MAX_FILE {
        return None;
    }
    file.node_mut(row).claimed.size = Some(size);
    Some(Some((5, Place::Node(row))))
}

pub(super) fn property_count(rng: &mut Rng, file: &mut File) -> Option<Fault> {
    let row = *rng.pick_any(&file.rows(Node::is_known))?;
    let node = file.node_mut(row);
    let count = other_count(rng, node.properties.len() as u32);
    node.claimed.properties = Some(count);
    Some(match count as usize > MAX_PROPERTIES {
        true => Some((9, Place::Node(row))),
        false => None,
    })
}

pub(super) fn child_count(rng: &mut Rng, file: &mut File) -> Option<Fault> {
    let row = *rng.pick_any(&file.rows(Node::is_known))?;
    let encoded = file.encode();
    let mut below = encoded.nodes.iter().filter(|node| node.parent == Some(row));
    let node = file.node_mut(row);
    let count = node.children.len() as u32;
    let claimed = other_count(rng, count);
    node.claimed.children = Some(claimed);
    Some(Some(match claimed > count {
        true => (5, Place::Rest(row)),
        false => (12, Place::At(below.nth(claimed as usize)?.offset)),
    }))
}

/// A size that ends inside a property of the node.
pub(super) fn cut_property(rng: &mut Rng, file: &mut File) -> Option<Fault> {
    let rows = file.rows(|node| node.is_known() && !node.properties.is_empty());
    let row = *rng.pick_any(&rows)?;
    let encoded = file.encode();
    let place = &encoded.nodes[row];
    let index = rng.below(place.properties.len());
    let property = place.properties[index];
    let within = match rng.chance(40) {
        true => rng.below(8),
        false => rng.below(property.end - property.offset),
    };
    let size = property.offset + within - place.offset;
    file.node_mut(row).claimed.size = Some(size as u32);
    Some(Some((10, Place::Property(row, index))))
}
