//! Wherever a refusal lies among all cases, one of its number lies there among the kept ones.

mod common;

use common::{cases, Case};
use std::collections::BTreeMap;
use vectors::function::{LOOKUP, READ, TRIM, WALK, WRITE, WRITE_PARTS};
use vectors::{make, make_all, Vectors};

/// Longer cases are left out for their length.
const LONG: usize = 20_000;

/// What stands at a refusal's place.
#[derive(Clone, Copy, Debug, PartialEq, Eq, PartialOrd, Ord)]
enum Place {
    Start,
    Version,
    FirstRoot,
    /// In a file that the walk refuses.
    Inside,
    End,
    /// In a file that the walk accepts: whether the node is the first, and of a property whether it is the first.
    Node(bool),
    Property(bool, bool),
    /// Of a plan.
    FirstRow,
    Row,
    LastRow,
}

fn place(case: &Case) -> Place {
    let (number, place) = case.refusal();
    match (case.function, number) {
        (WRITE | WRITE_PARTS, _) => row_place(case, place),
        // The reader's own, whose places are kept with readings.
        (TRIM, 1..=17) => Place::Inside,
        (_, 13..=17) => node_place(case, place as u32),
        _ => match place {
            0 => Place::Start,
            4 => Place::Version,
            16 => Place::FirstRoot,
            _ if place == case.first.len() as u64 => Place::End,
            _ => Place::Inside,
        },
    }
}

fn row_place(case: &Case, place: u64) -> Place {
    let rows = match case.function {
        WRITE => (case.input.len() - 32 - case.first.len()) / 32,
        _ => case.input[16].into(),
    };
    match place {
        0 => Place::FirstRow,
        _ if place + 1 == rows as u64 => Place::LastRow,
        _ => Place::Row,
    }
}

fn node_place(case: &Case, place: u32) -> Place {
    let rows = case.rows();
    let at = rows.iter().position(|row| place + 24 == row.start);
    if let Some(at) = at {
        return Place::Node(at == 0);
    }
    let at = rows
        .iter()
        .position(|row| (row.start..row.end).contains(&place));
    let at = at.expect("a header or a property");
    Place::Property(at == 0, place == rows[at].start)
}

fn places(made: &Vectors) -> BTreeMap<(u32, u64, Place), usize> {
    let functions = [LOOKUP, WALK, READ, WRITE, WRITE_PARTS, TRIM];
    let mut places = BTreeMap::new();
    for case in cases(made) {
        let refused = functions.contains(&case.function) && case.refusal().0 != 0;
        if refused && case.input.len() < LONG {
            let key = (case.function, case.refusal().0, place(&case));
            *places.entry(key).or_default() += 1;
        }
    }
    places
}

#[test]
fn every_place_of_a_refusal_is_among_the_kept_cases() {
    let (kept, all) = (places(&make()), places(&make_all(1, 0)));
    let mut missing = Vec::new();
    for (key, count) in &all {
        let left = kept.get(key).copied().unwrap_or(0);
        println!("{key:?}: {left} of {count}");
        if left == 0 {
            missing.push(key);
        }
    }
    assert!(missing.is_empty(), "no case is kept of {missing:?}");
}
