//! Generated wagons, whole and damaged.

use super::Walks;
use corpus::mutate::{self, Damage};
use corpus::tree::File;
use corpus::valid::{file, mixed, Profile};
use std::ops::RangeInclusive;

/// Longer files are left out.
const MOST: usize = 700;

/// What the rules of 13 to 17 refuse, the walk accepts.
const LATER: RangeInclusive<Damage> = Damage::NameTwice..=Damage::DoubledTarget;

pub fn add(walks: &mut Walks) {
    add_valid(walks, 50);
    for &kind in mutate::ALL {
        let (count, most) = match kind {
            Damage::ManyNodes => (0, 0),
            Damage::ManyProperties => (2, 4_000),
            Damage::TwoFaults | Damage::ManyFaults => (15, MOST),
            kind if LATER.contains(&kind) => (1, MOST),
            // The only ones that give 4.
            Damage::Version => (15, MOST),
            _ => (8, MOST),
        };
        add_damaged(walks, kind, count, most);
    }
}

fn some_file(walks: &mut Walks) -> File {
    match walks.rng.chance(85) {
        true => file(&mut walks.rng, &Profile::TINY),
        false => mixed(&mut walks.rng),
    }
}

fn add_valid(walks: &mut Walks, count: usize) {
    walks.cases.sweep("walks drawn: valid", 4);
    let mut left = walks.cases.draws(count);
    while left > 0 {
        let file = some_file(walks);
        let bytes = file.bytes();
        if bytes.len() <= MOST {
            walks.accepted(&bytes, file.nodes().len());
            left -= 1;
        }
    }
}

/// Files with damage of this kind, of at most `most` bytes.
fn add_damaged(walks: &mut Walks, kind: Damage, count: usize, most: usize) {
    let name = match LATER.contains(&kind) {
        true => "walks drawn: later".into(),
        false => format!("walks drawn: {}", kind.name()),
    };
    walks.cases.sweep(&name, 1);
    let mut left = walks.cases.draws(count);
    while left > 0 {
        let file = some_file(walks);
        let damaged = mutate::damage(&mut walks.rng, &file, kind);
        let Some(damaged) = damaged.filter(|damaged| damaged.bytes.len() <= most) else {
            continue;
        };
        left -= 1;
        let answer = walks.add(&damaged.bytes);
        if let Some((number, place)) = damaged.answer {
            let told = if number > 12 { (0, 0) } else { (number, place) };
            assert_eq!((answer.0, answer.1), told, "{}", kind.name());
        }
    }
}
