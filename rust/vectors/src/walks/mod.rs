//! The walk over a file's nodes.
//!
//! A file made for one answer comes with that answer, by the rules; the maker stops where `reference` gives another.

mod changed;
mod counts;
mod drawn;
mod kinds;
mod order;
mod properties;
mod sizes;
mod worked;

use crate::frame::{numbers_checksum, Case, Cases};
use crate::function::WALK;
use corpus::format::{NONE, ROOT, TABLE};
use corpus::tree::{File, Node};
use corpus::worked::WAGON;
use corpus::Rng;
use reference::{number_at, walk};

/// The longest table that the program lends.
const LONGEST: usize = 8_300;
/// Where the first root starts, and its first child where it has no properties.
const FIRST: usize = 16;
const SECOND: usize = 40;

pub fn add(cases: &mut Cases) {
    let rng = cases.rng(30);
    let mut walks = Walks { cases, rng };
    worked::add(&mut walks);
    sizes::add(&mut walks);
    kinds::add(&mut walks);
    counts::add(&mut walks);
    properties::add(&mut walks);
    order::add(&mut walks);
    changed::add(&mut walks);
    drawn::add(&mut walks);
}

/// The cases so far, and the draws for the next.
struct Walks<'a> {
    cases: &'a mut Cases,
    rng: Rng,
}

impl Walks<'_> {
    /// A file, with a table that has room for its rows. Answers number, place and nodes.
    fn add(&mut self, file: &[u8]) -> (u32, u32, u32) {
        let length = match self.rng.below(8) {
            0 => TABLE + 8,
            1 => self.rng.range(TABLE + 1, LONGEST),
            _ => TABLE,
        };
        self.add_with(file, length)
    }

    /// A file, with a table of this length.
    fn add_with(&mut self, file: &[u8], length: usize) -> (u32, u32, u32) {
        let case = Case {
            function: WALK,
            first: file,
            seed: self.rng.next_u32(),
            y: length as u64,
            ..Case::default()
        };
        let mut table = vec![case.seed; length];
        let (number, place, nodes) = walk(file, &mut table);
        let flags = match number {
            0 => number_at(file, 12, 4),
            _ => 0,
        };
        let sum = numbers_checksum(&table);
        let answer = [number.into(), place.into(), nodes.into(), flags, sum];
        self.cases.add(&case, &answer);
        (number, place, nodes)
    }

    /// A file that is refused with this number at this place.
    fn refused(&mut self, file: &[u8], number: u32, place: usize) {
        let answer = self.add(file);
        assert_eq!(answer, (number, place as u32, 0), "{file:02X?}");
    }

    /// A file of exactly this number of nodes that is accepted.
    fn accepted(&mut self, file: &[u8], nodes: usize) {
        let answer = self.add(file);
        assert_eq!(answer, (0, 0, nodes as u32), "{file:02X?}");
    }
}

/// A file of these roots, its flags not zero.
fn file(roots: Vec<Node>) -> File {
    File::new(0x8765_4321, roots)
}

fn root(children: Vec<Node>) -> Node {
    Node::with(ROOT, Vec::new(), children)
}

/// A file of one root with these children.
fn rooted(children: Vec<Node>) -> File {
    file(vec![root(children)])
}

/// An unknown node with this body and counts that nothing bears out.
fn wagon(body: &[u8]) -> Node {
    let mut node = Node::new(WAGON);
    node.hash = 0x0123_4567_89AB_CDEF;
    node.rest = body.to_vec();
    node.claimed.properties = Some(NONE);
    node.claimed.children = Some(NONE);
    node
}

/// Childless nodes, each the only child of the one before.
fn nested(kinds: &[u32]) -> Node {
    let (&outer, inner) = kinds.split_first().expect("a kind at least");
    let children = match inner {
        [] => Vec::new(),
        _ => vec![nested(inner)],
    };
    Node::with(outer, Vec::new(), children)
}
