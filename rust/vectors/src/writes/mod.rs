//! Writings of plans into a lent output, by one call and in two parts: all refusals.
//!
//! A plan made for one answer comes with that answer, by the rules; the maker stops where `reference` gives another.

mod bodies;
mod counts;
mod drawn;
mod kinds;
mod long;
mod order;
mod parents;
mod planned;
mod rooms;

use crate::frame::{checksum, filled, Case, Cases};
use crate::function::{WRITE, WRITE_PARTS};
use corpus::format::{MAX_NODES, NONE};
use corpus::rows::{numbers, written_length, Row};
use corpus::tree::numbers_data;
use corpus::Rng;
use planned::Planned;
use reference::{write, Written};

/// The longest plan or table that the program lends, in numbers.
const LONGEST: usize = 8_300;
/// The longest output that it lends.
const LONGEST_OUTPUT: usize = 98_304;

pub fn add(cases: &mut Cases) {
    let rng = cases.rng(34);
    let mut writes = Writes { cases, rng };
    rooms::add(&mut writes);
    parents::add(&mut writes);
    kinds::add(&mut writes);
    bodies::add(&mut writes);
    counts::add(&mut writes);
    order::add(&mut writes);
    long::add(&mut writes);
    drawn::add(&mut writes);
}

/// The cases so far, and the draws for the next.
struct Writes<'a> {
    cases: &'a mut Cases,
    rng: Rng,
}

impl Writes<'_> {
    /// Numbers as a plan, by one call.
    fn add_whole(&mut self, plan: &[u32], source: &[u8], room: usize) -> Written {
        let flags = self.rng.edge_u32();
        self.add_flagged(plan, source, flags, room)
    }

    /// As [`Self::add_whole`], with these flags.
    fn add_flagged(&mut self, plan: &[u32], source: &[u8], flags: u32, room: usize) -> Written {
        assert!(plan.len() <= LONGEST && room <= LONGEST_OUTPUT);
        let second = numbers_data(4, plan);
        let case = Case {
            function: WRITE,
            first: source,
            second: &second,
            seed: self.rng.next_u32(),
            x: flags.into(),
            y: room as u64,
        };
        let mut out = filled(room, case.seed);
        let written = write(plan, source, flags, &mut out);
        let answer = [written.number, written.place, written.length];
        let mut answer = answer.map(u64::from).to_vec();
        answer.push(checksum(&out));
        self.cases.add(&case, &answer);
        written
    }

    /// The first rows of a table as a plan, judged and then put. The flags are the seed.
    fn add_parts(&mut self, table: &[u32], rows: usize, source: &[u8], room: usize) -> Written {
        assert!(table.len() <= LONGEST && rows <= MAX_NODES && room <= LONGEST_OUTPUT);
        let second = numbers_data(4, table);
        let case = Case {
            function: WRITE_PARTS,
            first: source,
            second: &second,
            seed: self.rng.next_u32(),
            x: rows as u64,
            y: room as u64,
        };
        let mut out = filled(room, case.seed);
        let written = write(&table[..8 * rows], source, case.seed, &mut out);
        let told = [written.number, written.place, written.length];
        let answer = match written.number {
            21..=24 => [told[0], told[1], 0, 0, 0],
            _ => [0, 0, told[0], told[1], told[2]],
        };
        let mut answer = answer.map(u64::from).to_vec();
        answer.push(checksum(&out));
        self.cases.add(&case, &answer);
        written
    }

    /// Rows as a plan, in one of both ways.
    fn add(&mut self, rows: &[Row], source: &[u8], room: usize) -> Written {
        let mut numbers = numbers(rows);
        if self.rng.chance(55) {
            return self.add_whole(&numbers, source, room);
        }
        let later = match self.rng.below(4) {
            0 => 0,
            1 => self.rng.range(1, 7),
            _ => self.rng.range(8, 24),
        };
        self.follow(&mut numbers, rows.len(), later);
        self.add_parts(&numbers, rows.len(), source, room)
    }

    /// Puts numbers after the rows, mostly such as name some of these as parents.
    fn follow(&mut self, numbers: &mut Vec<u32>, rows: usize, later: usize) {
        let end = numbers.len() + later;
        while numbers.len() < end {
            numbers.push(match self.rng.chance(60) {
                true => self.rng.below(rows + 1) as u32,
                false => self.rng.edge_u32(),
            });
        }
    }

    /// Mostly exact or about it, for a file of these rows.
    fn room(&mut self, rows: &[Row]) -> usize {
        let length = written_length(rows).min(LONGEST_OUTPUT as u64 - 200) as usize;
        match self.rng.below(8) {
            0 => length - 1,
            1 => self.rng.below(length),
            2 => length + self.rng.below(200),
            3 => 0,
            _ => length,
        }
    }

    /// Rows that are refused with this number at this row.
    fn refused(&mut self, rows: &[Row], source: &[u8], number: u32, place: usize) {
        let room = self.room(rows);
        let written = self.add(rows, source, room);
        assert_eq!(written, refusal(number, place), "{rows:?} {source:02X?}");
    }

    /// Rows that are written, if the output has room for all of the file.
    fn right(&mut self, rows: &[Row], source: &[u8]) {
        let room = self.room(rows);
        self.right_with(rows, source, room);
    }

    /// As [`Self::right`], with an output of this length.
    fn right_with(&mut self, rows: &[Row], source: &[u8], room: usize) {
        let length = written_length(rows);
        let told = match length <= room as u64 {
            true => Written {
                number: 0,
                place: 0,
                length: length as u32,
            },
            false => refusal(26, 0),
        };
        let written = self.add(rows, source, room);
        assert_eq!(written, told, "{rows:?} {source:02X?}");
    }
}

fn refusal(number: u32, place: usize) -> Written {
    Written {
        number,
        place: place as u32,
        length: 0,
    }
}

/// The row before `row` and all that are above that one.
fn line(rows: &[Row], row: usize) -> Vec<u32> {
    let mut line = Vec::new();
    let mut above = row.checked_sub(1);
    while let Some(row) = above {
        line.push(row as u32);
        above = Some(rows[row].parent)
            .filter(|&parent| parent != NONE)
            .map(|parent| parent as usize);
    }
    line
}
