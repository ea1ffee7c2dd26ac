//! How often each function and each answer of it is among the cases, the kept ones and all.

mod common;

use common::cases;
use std::collections::{BTreeMap, BTreeSet};
use vectors::function::{
    self, EXACT, INDEX, KNOWN, LINE, LIST, LOOKUP, MAY_STAND, NAME_OK, NUMBERED, READ, SAME,
    SIZE_OF, STEP, TABLE, TRIM, WALK, WRITE, WRITE_PARTS,
};
use vectors::{make, make_all, Vectors};

/// All but 2, whose files are too long for a case, and 8, which no file reaches.
const REFUSALS: [&[u64]; 4] = [
    &[1, 3, 4, 5, 6, 7, 9, 10, 11, 12, 13, 14, 15, 16, 17],
    &[20, 21, 22, 23, 24, 25, 26],
    &[30, 31, 32],
    &[40, 41, 42, 43],
];

/// Functions that answer with a refusal's number, or 0.
const REFUSING: [u32; 6] = [LOOKUP, WALK, READ, WRITE, WRITE_PARTS, TRIM];

/// Of each function how often each answer.
type Census = BTreeMap<u32, BTreeMap<u64, usize>>;

fn census(made: &Vectors) -> Census {
    let mut census = Census::new();
    for case in cases(made) {
        let answer = match case.function {
            // Where there is room, the answer is the text's length.
            LIST | LINE => case.answer[0].min(1),
            WRITE_PARTS => case.refusal().0,
            _ => case.answer[0],
        };
        let answers = census.entry(case.function).or_default();
        *answers.entry(answer).or_default() += 1;
    }
    for (function, answers) in &census {
        let total: usize = answers.values().sum();
        let few = answers.len() <= 20;
        let counts = answers.iter().filter(|_| few);
        let counts: String = counts
            .map(|(answer, count)| format!(" {answer}:{count}"))
            .collect();
        println!("{function:3}: {total:4}{counts}");
    }
    census
}

/// Functions, answers of theirs, and how often each must be there.
type Least<'a> = (u32, &'a [u64], usize);

fn check(census: &Census, least: &[Least]) {
    for &(function, answers, least) in least {
        for answer in answers {
            let count = census[&function].get(answer).copied().unwrap_or(0);
            assert!(
                count >= least,
                "{function} answers {answer} only {count} times"
            );
        }
    }
}

#[test]
fn every_answer_is_among_the_kept_cases() {
    let census = census(&make());
    let functions: Vec<u32> = census.keys().copied().collect();
    assert_eq!(functions, function::ALL);
    let refusing = REFUSING.iter().flat_map(|function| census[function].keys());
    let numbers: BTreeSet<u64> = refusing.copied().filter(|&number| number != 0).collect();
    assert!(numbers.iter().eq(REFUSALS.concat().iter()), "{numbers:?}");
    check(
        &census,
        &[
            (SIZE_OF, &[0, 1], 20),
            (SIZE_OF, &[2], 1),
            (NAME_OK, &[0, 1], 20),
            (SAME, &[0, 1], 20),
            (NUMBERED, &[0, 1], 20),
            (KNOWN, &[0, 1], 15),
            (MAY_STAND, &[0, 1], 20),
            (TABLE, &[0, 1], 8),
            (STEP, &[0, 10, 11], 20),
            (INDEX, &[0, 9, 10, 11], 5),
            (EXACT, &[0, 1], 8),
            (LOOKUP, &[0, 40, 41, 42, 43], 10),
            (WALK, &[0, 1, 3, 4, 5, 6, 9, 10, 11, 12], 8),
            (READ, &[0, 13, 14, 15, 16, 17], 30),
            (READ, &[1, 3, 4, 5, 6, 9, 10, 11, 12], 4),
            (WRITE, &[0, 20, 21, 22, 23, 24, 26], 8),
            (WRITE_PARTS, &[0, 21, 22, 23, 24, 26], 8),
            (TRIM, &[0, 1, 30, 31, 32], 20),
            (TRIM, &[3, 4, 5, 6, 9, 10, 11, 12, 13, 14, 15, 16, 17], 2),
            (LIST, &[0, 1], 20),
            (LINE, &[0, 1], 40),
            // Files of 1,025 nodes are long, and so are plans of files over 16 MiB.
            (WALK, &[7], 1),
            (READ, &[7], 1),
            (WRITE, &[25], 1),
        ],
    );
}

#[test]
fn every_answer_is_among_all_cases() {
    check(
        &census(&make_all(1, 0)),
        &[
            (STEP, &[0, 10, 11], 100),
            (INDEX, &[0, 9, 10, 11], 20),
            (EXACT, &[0, 1], 100),
            (LOOKUP, &[0, 40, 41, 42, 43], 60),
            (WALK, &[0, 1, 3, 4, 5, 6, 9, 10, 11, 12], 30),
            (WALK, &[7], 3),
            (READ, &[0, 13, 14, 15, 16, 17], 150),
            (READ, &[1, 3, 4, 5, 6, 9, 10, 11, 12], 8),
            (READ, &[7], 1),
            (WRITE, &[0, 20, 21, 22, 23, 24, 26], 40),
            (WRITE_PARTS, &[0, 21, 22, 23, 24, 26], 40),
            (WRITE, &[25], 2),
            (WRITE_PARTS, &[25], 1),
            (TRIM, &[0], 250),
            (TRIM, &[1, 30, 31, 32], 70),
            (TRIM, &[3, 4, 5, 6, 10, 11, 12, 13, 14, 15, 16, 17], 5),
            (TRIM, &[9], 3),
            (TRIM, &[7], 1),
            (LIST, &[0, 1], 200),
            (LINE, &[0, 1], 350),
        ],
    );
}
