//! Files that the reader refuses, though a row that is asked for was an unknown node.

use super::Trims;
use corpus::format::TABLE;
use corpus::mutate::{self, Damage};
use corpus::trims::Trimming;
use corpus::valid::{file, Profile};

/// Longer files are left out.
const MOST: usize = 330;

pub fn add(trims: &mut Trims) {
    for &kind in mutate::ALL {
        let count = match kind {
            // Their files are long.
            Damage::ManyNodes | Damage::ManyProperties => 0,
            Damage::ByteChange | Damage::BitFlip | Damage::FieldChange | Damage::Splice => 5,
            Damage::DanglingLink | Damage::DoubledTarget => 8,
            _ => 3,
        };
        add_kind(trims, kind, count);
    }
}

/// Files with damage of this kind; where their answer is certain, it comes along.
fn add_kind(trims: &mut Trims, kind: Damage, count: usize) {
    let profile = Profile {
        unknown: 30,
        ..Profile::TINY
    };
    trims.cases.sweep("trims damaged", 2);
    let mut left = trims.cases.draws(count);
    while left > 0 {
        let file = file(&mut trims.rng, &profile);
        let Some(&row) = file.rows(|node| !node.is_known()).first() else {
            continue;
        };
        let damaged = mutate::damage(&mut trims.rng, &file, kind);
        let Some(damaged) = damaged.filter(|damaged| damaged.bytes.len() <= MOST) else {
            continue;
        };
        left -= 1;
        let row = match trims.rng.below(8) {
            0 => trims.rng.below(10),
            1 => usize::MAX,
            _ => row,
        };
        let (table, room) = (TABLE + trims.rng.below(3), trims.rng.skewed(500));
        let given = Trimming { row, table, room };
        match damaged.answer {
            Some((number, place)) => trims.refused(&damaged.bytes, given, number, place),
            None => drop(trims.add(&damaged.bytes, given)),
        }
    }
}
