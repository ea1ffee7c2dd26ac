//! Trimmings of whole files: all refusals but 2, whose files are too long for a case, and 8, which no file reaches.
//!
//! A trimming made for one answer comes with that answer, by the rules, and that of a valid tree with the tree that is
//! left; the maker stops where `reference` gives another.

mod bodies;
mod damaged;
mod drawn;
mod many;
mod placed;
mod worked;

use crate::frame::{checksum, filled, numbers_checksum, Case, Cases};
use crate::function::TRIM;
use corpus::expect::expected;
use corpus::format::TABLE;
use corpus::rows::numbers;
use corpus::tree::File;
use corpus::trims::Trimming;
use corpus::Rng;
use reference::{trim, Written};

/// The longest table that the program lends, in numbers.
const LONGEST: usize = 8_300;
/// The longest output that it lends.
const LONGEST_OUTPUT: usize = 98_304;

pub fn add(cases: &mut Cases) {
    let rng = cases.rng(36);
    let mut trims = Trims { cases, rng };
    worked::add(&mut trims);
    placed::add(&mut trims);
    bodies::add(&mut trims);
    damaged::add(&mut trims);
    drawn::add(&mut trims);
    many::add(&mut trims);
}

/// What a trimming answers, and what the buffers then hold.
#[derive(PartialEq, Eq)]
struct After {
    written: Written,
    table: Vec<u32>,
    out: Vec<u8>,
}

/// What must come of a trimming.
enum Told {
    /// Number and place.
    Refused(u32, u32),
    /// The file without the node.
    Left(File),
}

/// The cases so far, and the draws for the next.
struct Trims<'a> {
    cases: &'a mut Cases,
    rng: Rng,
}

impl Trims<'_> {
    /// A trimming, with the seed of what the buffers hold.
    fn add_seeded(&mut self, file: &[u8], given: Trimming, seed: u32) -> After {
        assert!(given.table <= LONGEST && given.room <= LONGEST_OUTPUT);
        let length = (given.table as u32).to_le_bytes();
        let case = Case {
            function: TRIM,
            first: file,
            second: &length,
            seed,
            x: given.row as u64,
            y: given.room as u64,
        };
        let (mut table, mut out) = before(given, seed);
        let written = trim(file, given.row, &mut table, &mut out);
        let answer = [written.number, written.place, written.length];
        let mut answer = answer.map(u64::from).to_vec();
        answer.extend([numbers_checksum(&table), checksum(&out)]);
        self.cases.add(&case, &answer);
        After {
            written,
            table,
            out,
        }
    }

    /// A trimming of any bytes.
    fn add(&mut self, file: &[u8], given: Trimming) -> Written {
        let seed = self.rng.next_u32();
        self.add_seeded(file, given, seed).written
    }

    /// A trimming of which this must come, in the answer and in both buffers.
    fn told(&mut self, file: &[u8], given: Trimming, told: &Told) {
        let seed = self.rng.next_u32();
        let after = self.add_seeded(file, given, seed);
        let right = after == after_told(given, seed, told);
        assert!(right, "{:?} of {given:?}: {file:02X?}", after.written);
    }

    /// A trimming of bytes that the reader refuses with this number at this place.
    fn refused(&mut self, file: &[u8], given: Trimming, number: u32, place: u32) {
        self.told(file, given, &Told::Refused(number, place));
    }

    /// A trimming of a valid tree. Gives the tree that is left, if a node goes.
    fn valid(&mut self, file: &File, given: Trimming) -> Option<File> {
        let told = told(file, given);
        self.told(&file.bytes(), given, &told);
        match told {
            Told::Left(left) => Some(left),
            Told::Refused(..) => None,
        }
    }

    /// A row of a valid tree, with a table and an output that are mostly long enough.
    fn row(&mut self, file: &File, row: usize) {
        let old = file.bytes().len();
        let new = match file.nodes().get(row) {
            Some(node) if !node.is_known() => old - node.bytes().len(),
            _ => old,
        };
        let given = self.given(row, new, old);
        self.valid(file, given);
    }

    /// Every row of a valid tree, and the one after the last.
    fn rows(&mut self, file: &File) {
        for row in 0..=file.nodes().len() {
            self.row(file, row);
        }
    }

    /// A row with buffers, for files of these lengths.
    fn given(&mut self, row: usize, new: usize, old: usize) -> Trimming {
        let table = match self.rng.below(12) {
            0 => TABLE - 1,
            1 => TABLE + 8,
            2 | 3 => self.rng.range(TABLE + 1, LONGEST),
            _ => TABLE,
        };
        let room = match self.rng.below(12) {
            0 | 1 => new - 1,
            2 => self.rng.below(new),
            3 | 4 => old,
            5 => new + self.rng.below(200),
            _ => new,
        };
        Trimming { row, table, room }
    }
}

/// What the table and the output hold at first.
fn before(given: Trimming, seed: u32) -> (Vec<u32>, Vec<u8>) {
    (vec![seed; given.table], filled(given.room, seed))
}

/// The first that holds of 1, 30, 31 and 32, else the tree without the row's node.
fn told(file: &File, given: Trimming) -> Told {
    if given.table < TABLE {
        return Told::Refused(1, 0);
    }
    match file.nodes().get(given.row) {
        None => return Told::Refused(30, 0),
        Some(node) if node.is_known() => return Told::Refused(31, 0),
        _ => {}
    }
    let left = file.without(&[given.row]);
    if left.bytes().len() > given.room {
        return Told::Refused(32, 0);
    }
    Told::Left(left)
}

/// The answer by the rules, and the buffers that go with it.
fn after_told(given: Trimming, seed: u32, told: &Told) -> After {
    let (mut table, mut out) = before(given, seed);
    let mut written = Written::default();
    match told {
        Told::Refused(number, place) => (written.number, written.place) = (*number, *place),
        Told::Left(left) => written.length = left.bytes().len() as u32,
    }
    if written.number != 1 {
        table[..TABLE].fill(0);
    }
    if let Told::Left(left) = told {
        let encoded = left.encode();
        let rows = numbers(&expected(left, &encoded).rows);
        table[..rows.len()].copy_from_slice(&rows);
        out[..encoded.bytes.len()].copy_from_slice(&encoded.bytes);
    }
    After {
        written,
        table,
        out,
    }
}
