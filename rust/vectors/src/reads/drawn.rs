//! Generated wagons, whole and damaged.

use super::Reads;
use crate::keep::ALL;
use corpus::format::{MAX_NODES, ROOT};
use corpus::mutate::{self, Damage};
use corpus::tree::{File, Node};
use corpus::valid::{file, mixed, Profile};

/// Longer files are left out.
const MOST: usize = 450;

pub fn add(reads: &mut Reads) {
    add_valid(reads, 100, &Profile::TINY, MOST);
    add_valid(reads, 8, &Profile::SMALL, 3_000);
    for &kind in mutate::ALL {
        let rule = Damage::NameTwice..=Damage::DoubledTarget;
        let (count, most) = match kind {
            Damage::ManyNodes => (0, 0),
            Damage::ManyProperties => (2, 4_000),
            Damage::TwoFaults | Damage::ManyFaults => (50, MOST),
            kind if rule.contains(&kind) => (10, MOST),
            _ => (4, MOST),
        };
        add_damaged(reads, kind, count, most);
    }
    add_many(reads);
}

fn some_file(reads: &mut Reads) -> File {
    match reads.rng.chance(85) {
        true => file(&mut reads.rng, &Profile::TINY),
        false => mixed(&mut reads.rng),
    }
}

fn add_valid(reads: &mut Reads, count: usize, profile: &Profile, most: usize) {
    reads.cases.sweep("reads drawn: valid", 8);
    let mut left = reads.cases.draws(count);
    while left > 0 {
        let file = file(&mut reads.rng, profile);
        if file.bytes().len() <= most {
            reads.accepted(&file);
            left -= 1;
        }
    }
}

/// Files with damage of this kind, of at most `most` bytes.
fn add_damaged(reads: &mut Reads, kind: Damage, count: usize, most: usize) {
    let name = format!("reads drawn: {}", kind.name());
    reads.cases.sweep(&name, 1);
    let mut left = reads.cases.draws(count);
    while left > 0 {
        let file = some_file(reads);
        let damaged = mutate::damage(&mut reads.rng, &file, kind);
        let Some(damaged) = damaged.filter(|damaged| damaged.bytes.len() <= most) else {
            continue;
        };
        left -= 1;
        let answer = reads.add(&damaged.bytes);
        if let Some(told) = damaged.answer {
            assert_eq!((answer.number, answer.place), told, "{}", kind.name());
        }
    }
}

/// 1,024 nodes, and one more.
fn add_many(reads: &mut Reads) {
    reads.cases.sweep("reads drawn: many", ALL);
    let mut file = File::new(0, vec![Node::new(ROOT); MAX_NODES]);
    reads.accepted(&file);
    file.roots.push(Node::new(ROOT));
    reads.refused(&file.bytes(), 7, 16 + 24 * MAX_NODES);
}
