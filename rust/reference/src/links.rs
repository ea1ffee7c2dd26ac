//! Links: refusals 16 and 17.

use crate::kinds::{BONE, FILE, MATERIAL, MESH};
use crate::table::{hash, KIND, ROW, TABLE_ROWS};
use std::ops::Range;

/// The kinds that links reach.
const REACHED: [u32; 4] = [MATERIAL, MESH, BONE, FILE];

/// The hashes of the nodes of these kinds, sorted within each kind.
pub(crate) struct Targets {
    hashes: [u64; TABLE_ROWS],
    kinds: [Range<usize>; REACHED.len()],
}

impl Targets {
    pub fn new(rows: &[u32]) -> Targets {
        let mut hashes = [0; TABLE_ROWS];
        let mut end = 0;
        let kinds = REACHED.map(|kind| {
            let start = end;
            for row in rows.chunks_exact(ROW).filter(|row| row[KIND] == kind) {
                hashes[end] = hash(row);
                end += 1;
            }
            hashes[start..end].sort_unstable();
            start..end
        });
        Targets { hashes, kinds }
    }

    /// 0 where exactly one node has the kind and hash, else 16 or 17.
    pub fn resolve(&self, kind: u32, hash: u64) -> u32 {
        let Some(index) = REACHED.iter().position(|&reached| reached == kind) else {
            return 16;
        };
        let hashes = &self.hashes[self.kinds[index].clone()];
        let first = hashes.partition_point(|&other| other < hash);
        if hashes.get(first) != Some(&hash) {
            16
        } else if hashes.get(first + 1) == Some(&hash) {
            17
        } else {
            0
        }
    }
}
