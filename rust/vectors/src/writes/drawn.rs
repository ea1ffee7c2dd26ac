//! Plans of every kind from generated wagons.

use super::{Writes, LONGEST_OUTPUT};
use corpus::expect::expected;
use corpus::plans::{self, Plan};
use corpus::rows::numbers;
use corpus::valid::{file, Profile};

/// Longer cases are left out.
const MOST: usize = 420;

pub fn add(writes: &mut Writes) {
    for &kind in plans::ALL {
        let count = match kind {
            // Those of 1,024 rows and more are made apart.
            Plan::LengthOver | Plan::LengthMost | Plan::Chain => 0,
            Plan::LongestFile | Plan::OverLongest | Plan::OverWord => 0,
            Plan::Same | Plan::Reordered | Plan::Moved | Plan::Random => 16,
            _ => 8,
        };
        add_kind(writes, kind, count);
    }
}

/// Plans of this kind, some by one call and some in parts.
fn add_kind(writes: &mut Writes, kind: Plan, count: usize) {
    let name = format!("writes drawn: {}", kind.name());
    writes.cases.sweep(&name, 1);
    let mut left = writes.cases.draws(count);
    while left > 0 {
        let file = file(&mut writes.rng, &Profile::TINY);
        let encoded = file.encode();
        let table = numbers(&expected(&file, &encoded).rows);
        let case = plans::plan(&mut writes.rng, &table, &encoded.bytes, kind);
        let short = |case: &plans::Case| case.source.len() + 4 * case.plan.len() <= MOST;
        let Some(case) = case.filter(short) else {
            continue;
        };
        let room = case.room.min(LONGEST_OUTPUT);
        let whole = kind == Plan::LengthOdd || writes.rng.chance(60);
        let written = match whole {
            true => writes.add_flagged(&case.plan, &case.source, case.flags, room),
            false => {
                let rows = case.plan.len() / 8;
                let mut table = case.plan.clone();
                let later = writes.rng.below(20);
                writes.follow(&mut table, rows, later);
                writes.add_parts(&table, rows, &case.source, room)
            }
        };
        left -= 1;
        if let Some(told) = case.answer {
            assert_eq!((written.number, written.place), told, "{}", kind.name());
        }
    }
}
