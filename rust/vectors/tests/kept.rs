//! The kept cases are of all cases, and all cases are as many and as other as they are wanted.

mod common;

use common::cases;
use std::collections::BTreeSet;
use vectors::{make, make_all};

#[test]
fn each_kept_case_is_one_of_all() {
    let (kept, all) = (cases(&make()), cases(&make_all(1, 0)));
    let mut rest = all.iter();
    for case in &kept {
        let found = rest.any(|other| other == case);
        assert!(found, "{} {:?} is not made", case.function, case.answer);
    }
    println!("{} of {}", kept.len(), all.len());
}

#[test]
fn draws_and_seeds_make_other_cases() {
    let [once, twice, other] = [(1, 0), (2, 0), (1, 1)].map(|(draws, seed)| make_all(draws, seed));
    println!("{}, {}, {}", once.cases, twice.cases, other.cases);
    assert!(once.cases + 5_000 < twice.cases);
    assert!(once.stdin != other.stdin);
    let (once, other) = (cases(&once), cases(&other));
    let other: BTreeSet<&[u8]> = other.iter().map(|case| &case.input[..]).collect();
    let same = once
        .iter()
        .filter(|case| other.contains(&case.input[..]))
        .count();
    println!("{same} with both seeds");
    assert!(same < once.len() / 2);
}
