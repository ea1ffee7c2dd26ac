//! Listings of inputs, and single lines of them, put into a lent output that has room for all of the text or has not.

mod inputs;
mod lines;

use crate::frame::{checksum, filled, Case, Cases};
use corpus::Rng;

/// The longest output that the program lends.
const LONGEST: usize = 98_304;

pub fn add(cases: &mut Cases) {
    let rng = cases.rng(32);
    let mut listings = Listings { cases, rng };
    inputs::add(&mut listings);
    lines::add(&mut listings);
}

/// The cases so far, and the draws for the next.
struct Listings<'a> {
    cases: &'a mut Cases,
    rng: Rng,
}

impl Listings<'_> {
    /// A case that puts this text into an output of this length.
    fn add(&mut self, case: Case, text: &[u8], room: usize) {
        let case = Case {
            seed: self.rng.next_u32(),
            y: room as u64,
            ..case
        };
        let mut out = filled(room, case.seed);
        let put = match out.get_mut(..text.len()) {
            Some(start) => {
                start.copy_from_slice(text);
                text.len()
            }
            None => 0,
        };
        self.cases.add(&case, &[put as u64, checksum(&out)]);
    }

    /// Mostly exact or about it, for a text of this length.
    fn room(&mut self, length: usize) -> usize {
        match self.rng.below(16) {
            0..=3 => length - 1,
            4 => self.rng.below(length),
            5 => length + 1,
            6 => length + self.rng.below(200),
            _ => length,
        }
    }
}
