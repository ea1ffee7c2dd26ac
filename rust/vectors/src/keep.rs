//! Which cases are made, and which of them are kept.
//!
//! A case is of a class: the sweep that made it, its function and its answer. Of a class as many are kept as the sweep
//! says, evenly spread; so each sweep keeps something of each answer that it has.

use crate::function::{
    LINE, LIST, NUMBER_AT, PUT_U16, PUT_U32, PUT_U64, U16_AT, U32_AT, U64_AT, WRITE_PARTS,
};
use std::collections::BTreeMap;

/// For sweeps that keep all of their cases.
pub const ALL: usize = usize::MAX;

/// What is wanted.
#[derive(Clone, Copy)]
pub struct Wanted {
    /// How many times as many draws as the kept cases are taken from.
    pub draws: usize,
    /// Another one draws other cases.
    pub seed: u32,
    /// Whether only the telling cases are kept.
    pub thinned: bool,
}

/// A sweep's number, a function's, and which answer.
#[derive(Clone, Copy, PartialEq, Eq, PartialOrd, Ord)]
pub struct Class {
    pub sweep: usize,
    pub function: u32,
    pub answer: u64,
}

/// The sweeps so far: of each its number, and how many it keeps of each answer.
#[derive(Default)]
pub struct Sweeps {
    numbers: BTreeMap<String, usize>,
    most: Vec<usize>,
    current: usize,
}

impl Sweeps {
    /// What comes now is of this sweep.
    pub fn start(&mut self, name: &str, most: usize) {
        let next = self.numbers.len();
        self.current = *self.numbers.entry(name.into()).or_insert(next);
        if self.current == next {
            self.most.push(most);
        }
        assert_eq!(self.most[self.current], most, "two sweeps named {name}");
    }

    pub fn class(&self, function: u32, answer: &[u64]) -> Class {
        Class {
            sweep: self.current,
            function,
            answer: kind_of(function, answer),
        }
    }

    /// For each case by its class: whether it is kept.
    pub fn kept(&self, classes: &[Class]) -> Vec<bool> {
        let mut totals: BTreeMap<Class, usize> = BTreeMap::new();
        for class in classes {
            *totals.entry(*class).or_default() += 1;
        }
        let mut passed: BTreeMap<Class, usize> = BTreeMap::new();
        let mut is_kept = |class: &Class| {
            let (total, most) = (totals[class], self.most[class.sweep]);
            let index = passed.entry(*class).or_default();
            *index += 1;
            // Where a class starts is by its sweep, so that like sweeps do not keep like cases.
            most >= total || ((*index - 1) * most + class.sweep) % total < most
        };
        classes.iter().map(&mut is_kept).collect()
    }
}

/// The refusal's number, or what stands in its place.
fn kind_of(function: u32, answer: &[u64]) -> u64 {
    match function {
        // A checksum.
        PUT_U16 | PUT_U32 | PUT_U64 => 0,
        // What was read there, or the length of the text where it has room.
        U16_AT | U32_AT | U64_AT | NUMBER_AT | LIST | LINE => answer[0].min(1),
        // What is judged to be right is then put.
        WRITE_PARTS if answer[0] == 0 => answer[2],
        _ => answer[0],
    }
}

#[cfg(test)]
mod tests {
    use super::*;

    /// Which of `total` cases of one class are kept.
    fn kept(most: usize, total: usize, before: usize) -> Vec<usize> {
        let mut sweeps = Sweeps::default();
        for number in 0..before {
            sweeps.start(&number.to_string(), ALL);
        }
        sweeps.start("this", most);
        let class = sweeps.class(crate::function::READ, &[13]);
        let kept = sweeps.kept(&vec![class; total]);
        (0..total).filter(|&index| kept[index]).collect()
    }

    #[test]
    fn as_many_are_kept_as_the_sweep_says() {
        for most in [0, 1, 2, 5, 20, ALL] {
            for total in 0..30 {
                for before in [0, 1, 7, 100] {
                    assert_eq!(kept(most, total, before).len(), most.min(total));
                }
            }
        }
    }

    #[test]
    fn the_kept_are_evenly_spread() {
        assert_eq!(kept(3, 9, 0), [0, 3, 6]);
        assert_eq!(kept(3, 9, 3), [2, 5, 8]);
        assert_eq!(kept(2, 7, 0), [0, 4]);
    }

    #[test]
    fn each_answer_is_a_class() {
        let mut sweeps = Sweeps::default();
        sweeps.start("this", 1);
        let classes =
            [13, 0, 13, 14, 0].map(|number| sweeps.class(crate::function::READ, &[number]));
        assert_eq!(sweeps.kept(&classes), [true, true, false, true, false]);
    }
}
