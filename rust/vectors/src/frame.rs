//! The layout of a case and of its line.

use crate::keep::{Class, Sweeps, Wanted};
use crate::Vectors;
use corpus::Rng;
use std::fmt::Write;

/// One case. What `x`, `y` and the blocks mean is the function's matter.
#[derive(Default)]
pub struct Case<'a> {
    pub function: u32,
    pub first: &'a [u8],
    pub second: &'a [u8],
    pub seed: u32,
    pub x: u64,
    pub y: u64,
}

/// A case as bytes, and its line.
struct Made {
    input: Vec<u8>,
    line: String,
}

pub struct Cases {
    wanted: Wanted,
    sweeps: Sweeps,
    made: Vec<Made>,
    classes: Vec<Class>,
}

impl Cases {
    pub fn new(wanted: Wanted) -> Cases {
        Cases {
            wanted,
            sweeps: Sweeps::default(),
            made: Vec::new(),
            classes: Vec::new(),
        }
    }

    /// Draws of their own for each number, and for each seed that is wanted.
    pub fn rng(&self, number: u8) -> Rng {
        Rng::new(u64::from(number) | u64::from(self.wanted.seed) << 8)
    }

    /// How many cases are drawn where `count` are drawn for the kept ones.
    pub fn draws(&self, count: usize) -> usize {
        count * self.wanted.draws
    }

    /// What is added now is of this sweep, of which at most `most` cases of each answer are kept.
    pub fn sweep(&mut self, name: &str, most: usize) {
        self.sweeps.start(name, most);
    }

    /// What is added now is not kept: it tells little more than what is, or is long for what it tells.
    pub fn leave_out(&mut self) {
        self.sweeps.start("left out", 0);
    }

    /// Adds a case with the numbers that its line must have after the function's.
    pub fn add(&mut self, case: &Case, answer: &[u64]) {
        let mut input = Vec::new();
        let lengths = [case.first.len() as u32, case.second.len() as u32];
        for number in [case.function, lengths[0], lengths[1], case.seed] {
            input.extend_from_slice(&number.to_le_bytes());
        }
        for number in [case.x, case.y] {
            input.extend_from_slice(&number.to_le_bytes());
        }
        input.extend_from_slice(case.first);
        input.extend_from_slice(case.second);
        let mut line = case.function.to_string();
        for number in answer {
            write!(line, " {number}").expect("a string takes any text");
        }
        line.push('\n');
        self.made.push(Made { input, line });
        self.classes.push(self.sweeps.class(case.function, answer));
    }

    pub fn finish(self) -> Vectors {
        let mut kept = vec![true; self.made.len()];
        if self.wanted.thinned {
            kept = self.sweeps.kept(&self.classes);
        }
        let mut vectors = Vectors::default();
        for (made, _) in self.made.iter().zip(kept).filter(|made| made.1) {
            vectors.stdin.extend_from_slice(&made.input);
            vectors.stdout.extend_from_slice(made.line.as_bytes());
            vectors.cases += 1;
        }
        vectors
    }
}

/// What a lent buffer of bytes holds at first.
pub fn filled(len: usize, seed: u32) -> Vec<u8> {
    (0..len as u32)
        .map(|i| (seed % 256 + 37 * (i % 256)) as u8)
        .collect()
}

/// The checksum of what a buffer of bytes holds at last.
pub fn checksum(bytes: &[u8]) -> u64 {
    checksum_of(bytes.iter().map(|&byte| byte.into()))
}

/// The checksum of numbers, each by its lowest 32 bits.
pub fn checksum_of(numbers: impl IntoIterator<Item = u64>) -> u64 {
    let step = |sum: u32, number: u64| sum.wrapping_mul(16_777_619).wrapping_add(number as u32);
    numbers.into_iter().fold(2_166_136_261, step).into()
}

/// The checksum of what a table holds at last.
pub fn numbers_checksum(numbers: &[u32]) -> u64 {
    checksum_of(numbers.iter().map(|&number| number.into()))
}
