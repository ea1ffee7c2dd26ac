//! Readings of whole files: all refusals but 2, whose files are too long for a case, and 8, which no file reaches.
//!
//! A file made for one answer comes with that answer, by the rules; the maker stops where `reference` gives another.

mod bones;
mod curves;
mod drawn;
mod faces;
mod lines;
mod links;
mod meshes;
mod names;
mod order;
pub mod placed;
mod twice;
mod unknown;
mod values;
mod worked;

use crate::frame::{numbers_checksum, Case, Cases};
use crate::function::READ;
use corpus::expect::expected;
use corpus::format::{Rule, TABLE};
use corpus::tree::File;
use corpus::Rng;
use placed::Placed;
use reference::{read, Reading};

/// The longest table that the program lends.
const LONGEST: usize = 8_300;

pub fn add(cases: &mut Cases) {
    let rng = cases.rng(31);
    let mut reads = Reads { cases, rng };
    worked::add(&mut reads);
    lines::add(&mut reads);
    names::add(&mut reads);
    twice::add(&mut reads);
    values::add(&mut reads);
    meshes::add(&mut reads);
    faces::add(&mut reads);
    curves::add(&mut reads);
    bones::add(&mut reads);
    links::add(&mut reads);
    order::add(&mut reads);
    unknown::add(&mut reads);
    drawn::add(&mut reads);
}

/// The cases so far, and the draws for the next.
struct Reads<'a> {
    cases: &'a mut Cases,
    rng: Rng,
}

impl Reads<'_> {
    /// What is added now is of a sweep over this line of the rules.
    fn sweep_line(&mut self, name: &str, rule: &Rule, most: usize) {
        let line = format!("reads {name}: {:08X} {}", rule.kind, rule.name);
        self.cases.sweep(&line, most);
    }

    /// A file, with a table that has room for its rows.
    fn add(&mut self, file: &[u8]) -> Reading {
        let length = match self.rng.below(8) {
            0 => TABLE + 8,
            1 => self.rng.range(TABLE + 1, LONGEST),
            _ => TABLE,
        };
        self.add_with(file, length)
    }

    /// A file, with a table of this length.
    fn add_with(&mut self, file: &[u8], length: usize) -> Reading {
        let case = Case {
            function: READ,
            first: file,
            seed: self.rng.next_u32(),
            y: length as u64,
            ..Case::default()
        };
        let mut table = vec![case.seed; length];
        let reading = read(file, &mut table);
        let numbers = [
            reading.number,
            reading.place,
            reading.nodes,
            reading.flags,
            reading.own_known,
            reading.own_unknown,
            reading.faces,
            reading.degenerate,
            reading.links,
        ];
        let mut answer = numbers.map(u64::from).to_vec();
        answer.push(numbers_checksum(&table));
        self.cases.add(&case, &answer);
        reading
    }

    /// A file that is refused with this number at this place.
    fn refused(&mut self, file: &[u8], number: u32, place: usize) {
        let told = Reading {
            number,
            place: place as u32,
            ..Reading::default()
        };
        assert_eq!(self.add(file), told, "{file:02X?}");
    }

    /// A file that is accepted, with the sums that its tree has.
    fn accepted(&mut self, file: &File) -> Reading {
        let encoded = file.encode();
        let told = expected(file, &encoded);
        let told = Reading {
            number: 0,
            place: 0,
            nodes: told.rows.len() as u32,
            flags: told.flags,
            own_known: told.own_known as u32,
            own_unknown: told.own_unknown as u32,
            faces: told.faces as u32,
            degenerate: told.degenerate as u32,
            links: told.links as u32,
        };
        assert_eq!(self.add(&encoded.bytes), told, "{file:?}");
        told
    }

    fn right(&mut self, placed: &Placed) -> Reading {
        self.accepted(&placed.file)
    }

    /// Refused at a property of the placed node.
    fn wrong(&mut self, placed: &Placed, number: u32, index: usize) {
        self.refused(&placed.file.bytes(), number, placed.property(index));
    }

    /// Refused at the placed node's header.
    fn lacking(&mut self, placed: &Placed) {
        self.refused(&placed.file.bytes(), 14, placed.header());
    }
}
