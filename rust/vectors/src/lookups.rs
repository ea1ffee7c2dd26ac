//! Lookups of a property by name.

use crate::frame::{checksum, Case, Cases};
use crate::function::LOOKUP;
use corpus::lookups::{self, Lookup};
use corpus::tree::numbers_data;
use corpus::valid::{file, mixed, Profile};
use corpus::Rng;
use reference::lookup;

/// Tables are cut to the row asked for and a little more.
const ROWS: usize = 64;

pub fn add(cases: &mut Cases) {
    let mut rng = cases.rng(20);
    add_some(cases, &mut rng, 700, 900);
    add_some(cases, &mut rng, 20, 6_000);
    add_full(cases, &mut rng);
}

/// As many properties as a body may have, and one more.
fn add_full(cases: &mut Cases, rng: &mut Rng) {
    let file = file(rng, &Profile::TINY);
    cases.leave_out();
    for kind in [Lookup::Full, Lookup::OverFull].repeat(12) {
        let case = lookups::lookup(rng, &file, kind);
        if let Some(case) = case.filter(|case| case.row < ROWS) {
            add_lookup(cases, &case);
        }
    }
}

/// Lookups of at most `most` bytes each.
fn add_some(cases: &mut Cases, rng: &mut Rng, count: usize, most: usize) {
    let mut left = cases.draws(count);
    while left > 0 {
        let file = match rng.chance(80) {
            true => file(rng, &Profile::TINY),
            false => mixed(rng),
        };
        let (kind, mut case) = lookups::any(rng, &file);
        case.table.truncate((case.row.min(ROWS) + 1) * 8 + 3);
        if rng.chance(40) {
            lookups::change(rng, &mut case);
        }
        if case.bytes.len() + 4 * case.table.len() + case.name.len() <= most {
            let kept = if kind == Lookup::Present { 8 } else { 1 };
            cases.sweep(&format!("lookups: {}", kind.name()), kept);
            add_lookup(cases, &case);
            left -= 1;
        }
    }
}

fn add_lookup(cases: &mut Cases, asked: &lookups::Case) {
    let mut second = numbers_data(4, &asked.table);
    second.extend_from_slice(&asked.name);
    let case = Case {
        function: LOOKUP,
        first: &asked.bytes,
        second: &second,
        x: asked.row as u64,
        y: asked.table.len() as u64,
        ..Case::default()
    };
    let found = lookup(&asked.bytes, &asked.table, asked.row, &asked.name);
    let answer = [
        found.number.into(),
        found.place.into(),
        found.start as u64,
        found.end as u64,
        checksum(&asked.bytes[found.start..found.end]),
    ];
    cases.add(&case, &answer);
}
