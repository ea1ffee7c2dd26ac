//! Damage of the encoded bytes.

use crate::format::KINDS;
use crate::rng::Rng;
use crate::tree::Encoded;
use crate::valid::unknown;

pub(super) fn byte_change(rng: &mut Rng, mut bytes: Vec<u8>) -> Vec<u8> {
    let at = rng.below(bytes.len());
    if let Some(byte) = bytes.get_mut(at) {
        *byte = match rng.chance(30) {
            true => *rng.pick(&[0, 1, 0x41, 0x5A, 0x7F, 0x80, 0xFF]),
            false => byte.wrapping_add(rng.range(1, 255) as u8),
        };
    }
    bytes
}

pub(super) fn bit_flip(rng: &mut Rng, mut bytes: Vec<u8>) -> Vec<u8> {
    let at = rng.below(bytes.len());
    if let Some(byte) = bytes.get_mut(at) {
        *byte ^= 1 << rng.below(8);
    }
    bytes
}

/// Another number in a field of a node or property header.
pub(super) fn field_change(rng: &mut Rng, encoded: Encoded) -> Option<Vec<u8>> {
    let node = rng.pick_any(&encoded.nodes)?;
    let (at, size) = match rng.pick_any(&node.properties) {
        Some(property) if rng.chance(60) => {
            let (field, size) = *rng.pick(&[(0, 2), (2, 2), (4, 4)]);
            (property.offset + field, size)
        }
        _ => {
            let field = *rng.pick(&[0, 4, 8, 12, 16, 20]);
            (node.offset + field, 4)
        }
    };
    let mut bytes = encoded.bytes;
    let field = bytes.get_mut(at..at + size)?;
    let mut old = [0; 4];
    old[..size].copy_from_slice(field);
    let old = u32::from_le_bytes(old);
    let new = match rng.below(3) {
        0 => old.wrapping_add(rng.range(1, 40) as u32),
        1 => old.wrapping_sub(rng.range(1, 40) as u32),
        _ => rng.edge_u32(),
    };
    field.copy_from_slice(&new.to_le_bytes()[..size]);
    Some(bytes)
}

/// The file up to some place before its end.
pub(super) fn cut(rng: &mut Rng, encoded: Encoded) -> (Vec<u8>, Option<(u32, u32)>) {
    let mut bytes = encoded.bytes;
    bytes.truncate(rng.below(bytes.len()));
    let length = bytes.len();
    if length < 16 {
        return (bytes, Some((3, 0)));
    }
    // The root that the cut goes through, or the one that would start there.
    let roots = encoded.nodes.iter().filter(|node| node.depth == 1);
    let cut = roots.filter(|root| root.offset <= length && length < root.end);
    let place = cut.map(|root| root.offset as u32).next_back();
    (bytes, place.map(|place| (5, place)))
}

/// Some bytes taken out, doubled or moved elsewhere.
pub(super) fn splice(rng: &mut Rng, mut bytes: Vec<u8>) -> Vec<u8> {
    let start = rng.below(bytes.len());
    let end = start + rng.skewed((bytes.len() - start).min(64));
    let piece = bytes[start..end].to_vec();
    if rng.chance(60) {
        bytes.drain(start..end);
    }
    if rng.chance(60) {
        let at = rng.below(bytes.len() + 1);
        bytes.splice(at..at, piece);
    }
    bytes
}

pub(super) fn random(rng: &mut Rng) -> Vec<u8> {
    let length = rng.below(200);
    let mut bytes = rng.bytes(length);
    if rng.chance(50) {
        let start = b"cast\x01\0\0\0";
        let shared = start.len().min(bytes.len());
        bytes[..shared].copy_from_slice(&start[..shared]);
    }
    bytes
}

/// A right file header, mostly a right root header, then anything.
pub(super) fn random_nodes(rng: &mut Rng) -> Vec<u8> {
    let length = rng.below(400);
    let mut rest = rng.bytes(length);
    let mut bytes = b"cast\x01\0\0\0".to_vec();
    bytes.extend_from_slice(&(rng.range(1, 3) as u32).to_le_bytes());
    bytes.extend_from_slice(&rng.next_u32().to_le_bytes());
    if rng.chance(80) && rest.len() >= 24 {
        let size = rest.len() as u32;
        put_header(rng, &mut rest, 0, size);
        rest[..4].copy_from_slice(b"root");
        // Some more headers, wherever they fall.
        for _ in 0..rng.below(4) {
            let at = 24 + rng.below(rest.len() - 24);
            let size = (rest.len() - at) as u32;
            put_header(rng, &mut rest, at, size);
        }
    }
    bytes.extend(rest);
    bytes
}

/// Writes a node header with small counts at a place, if it fits.
fn put_header(rng: &mut Rng, bytes: &mut [u8], at: usize, size: u32) {
    let Some(header) = bytes.get_mut(at..at + 24) else {
        return;
    };
    let kind = match rng.chance(20) {
        true => unknown::kind(rng),
        false => rng.pick(&KINDS).0,
    };
    let size = match rng.chance(70) {
        true => size,
        false => rng.below(size as usize + 2) as u32,
    };
    header[..4].copy_from_slice(&kind.to_le_bytes());
    header[4..8].copy_from_slice(&size.to_le_bytes());
    header[16..20].copy_from_slice(&(rng.below(2) as u32).to_le_bytes());
    header[20..24].copy_from_slice(&(rng.below(3) as u32).to_le_bytes());
}
