//! The values of a mesh's f.

use crate::bytes::{u16_at, u32_at};
use crate::types::{BYTE, SHORT};

/// An element of type `b`, `h` or `i`, unsigned.
pub(crate) fn unsigned(type_code: u16, data: &[u8]) -> u32 {
    match type_code {
        BYTE => value::<1>(data),
        SHORT => value::<2>(data),
        _ => value::<4>(data),
    }
}

#[inline(always)]
fn value<const WIDTH: usize>(data: &[u8]) -> u32 {
    match WIDTH {
        1 => u32::from(data[0]),
        2 => u32::from(u16_at(data, 0)),
        _ => u32_at(data, 0),
    }
}

#[derive(Clone, Copy, Debug, Default, PartialEq, Eq)]
pub(crate) struct Faces {
    pub count: u32,
    pub degenerate: u32,
}

/// The faces of an f of this length; `None` where the length does not divide by three or a value
/// is no vertex.
pub(crate) fn faces(type_code: u16, length: u32, data: &[u8], vertices: u32) -> Option<Faces> {
    if !length.is_multiple_of(3) {
        return None;
    }
    match type_code {
        BYTE => count(data, vertices, u8::from_le_bytes),
        SHORT => count(data, vertices, u16::from_le_bytes),
        _ => count(data, vertices, u32::from_le_bytes),
    }
}

/// Values of one block: a whole number of faces.
const BLOCK: usize = 48;

/// 1 at the first value of each face of a block.
const FIRST: [u8; BLOCK] = {
    let mut first = [0; BLOCK];
    let mut at = 0;
    while at < BLOCK {
        first[at] = 1;
        at += 3;
    }
    first
};

fn count<T: Copy + Ord + Into<u32>, const WIDTH: usize>(
    data: &[u8],
    vertices: u32,
    value: impl Fn([u8; WIDTH]) -> T,
) -> Option<Faces> {
    let (mut rest, _) = data.as_chunks::<WIDTH>();
    let mut faces = Faces {
        count: rest.len() as u32 / 3,
        degenerate: 0,
    };
    // A block looks at two values after it.
    while let Some(block) = rest.first_chunk::<{ BLOCK + 2 }>() {
        let (mut degenerate, mut greatest) = (0, value(block[0]));
        for at in 0..BLOCK {
            // Every value is compared as if it were the first of a face, and those that are count:
            // that is faster than to step by three.
            let [a, b, c] = [block[at], block[at + 1], block[at + 2]].map(&value);
            degenerate += u8::from((a == b) | (b == c) | (a == c)) & FIRST[at];
            greatest = greatest.max(a);
        }
        if greatest.into() >= vertices {
            return None;
        }
        faces.degenerate += u32::from(degenerate);
        rest = &rest[BLOCK..];
    }
    for face in rest.chunks_exact(3) {
        let [a, b, c] = [face[0], face[1], face[2]].map(&value);
        if a.max(b).max(c).into() >= vertices {
            return None;
        }
        faces.degenerate += u32::from((a == b) | (b == c) | (a == c));
    }
    Some(faces)
}
