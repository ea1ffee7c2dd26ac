//! Single lines, as the rules write them.

use super::Listings;
use crate::frame::Case;
use crate::function::LINE;
use corpus::format::{KINDS, NONE};
use corpus::rows::Row;
use corpus::Rng;

pub fn add(listings: &mut Listings) {
    add_rooms(listings);
    add_numbers(listings);
    add_rows(listings);
    listings.cases.sweep("listings lines: drawn", 8);
    for _ in 0..listings.cases.draws(200) {
        let line = drawn(&mut listings.rng);
        add_line(listings, &line);
    }
}

enum Line {
    /// Flags, nodes and bytes.
    Head(u32, u32, u64),
    /// A row and its index.
    Row(u32, Row),
    Header,
    /// Faces, and how many of them are degenerate.
    Faces(u64, u64),
    Total(u64),
    /// Number and place.
    Refused(u32, u32),
    TooLong,
}

impl Line {
    fn text(&self) -> String {
        match self {
            Line::Head(flags, nodes, bytes) => {
                format!("cast 1 flags {flags} nodes {nodes} bytes {bytes}\n")
            }
            Line::Row(index, row) => {
                let parent = match row.parent {
                    NONE => "-".into(),
                    parent => parent.to_string(),
                };
                let (kind, own) = (row.kind, 24 + row.body());
                format!("row {index} kind {kind:08X} parent {parent} own {own}\n")
            }
            Line::Header => "header 16\n".into(),
            Line::Faces(faces, degenerate) => format!("faces {faces} degenerate {degenerate}\n"),
            Line::Total(total) => format!("total {total}\n"),
            Line::Refused(number, place) => format!("refused {number} at {place}\n"),
            Line::TooLong => "too long\n".into(),
        }
    }

    /// Which line it is, and its numbers but those of a row.
    fn numbers(&self) -> (u64, Vec<u64>) {
        match *self {
            Line::Head(flags, nodes, bytes) => (0, vec![flags.into(), nodes.into(), bytes]),
            Line::Row(index, _) => (1, vec![index.into()]),
            Line::Header => (2, Vec::new()),
            Line::Faces(faces, degenerate) => (3, vec![faces, degenerate]),
            Line::Total(total) => (4, vec![total]),
            Line::Refused(number, place) => (5, vec![number.into(), place.into()]),
            Line::TooLong => (6, Vec::new()),
        }
    }

    fn row(&self) -> Vec<u8> {
        match self {
            Line::Row(_, row) => row
                .numbers()
                .into_iter()
                .flat_map(u32::to_le_bytes)
                .collect(),
            _ => Vec::new(),
        }
    }
}

/// A line, with an output of this length.
fn add_with(listings: &mut Listings, line: &Line, room: usize) {
    let (which, numbers) = line.numbers();
    let block: Vec<u8> = numbers.into_iter().flat_map(u64::to_le_bytes).collect();
    let case = Case {
        function: LINE,
        first: &block,
        second: &line.row(),
        x: which,
        ..Case::default()
    };
    listings.add(case, line.text().as_bytes(), room);
}

fn add_line(listings: &mut Listings, line: &Line) {
    let room = listings.room(line.text().len());
    add_with(listings, line, room);
}

/// Every room up to a little more than the line needs.
fn add_rooms(listings: &mut Listings) {
    listings.cases.sweep("listings lines: rooms", 14);
    let mut row = Row::new(0x0000_00AF, 1_022);
    row.end = 1_000;
    for line in [
        Line::Head(10, 2, 67),
        Line::Row(7, row),
        Line::Header,
        Line::Faces(12, 0),
        Line::Total(32_768),
        Line::Refused(12, 40),
        Line::TooLong,
    ] {
        for room in 0..line.text().len() + 3 {
            add_with(listings, &line, room);
        }
    }
}

/// Numbers at which the count of digits changes, and the last ones.
fn edges() -> Vec<u64> {
    let mut edges = vec![0, 1, u32::MAX.into(), 1 << 32, u64::MAX - 1, u64::MAX];
    for zeros in 1..20 {
        let power = 10u64.pow(zeros);
        edges.extend([power - 1, power, power + 1]);
    }
    edges
}

fn narrow_edges() -> Vec<u32> {
    let edges = edges().into_iter();
    edges.filter_map(|edge| edge.try_into().ok()).collect()
}

/// Each edge as each number of each line but the row.
fn add_numbers(listings: &mut Listings) {
    listings.cases.sweep("listings lines: numbers", 24);
    for edge in edges() {
        let (other, flags, nodes) = {
            let rng = &mut listings.rng;
            (number(rng), narrow(rng), narrow(rng))
        };
        add_line(listings, &Line::Head(flags, nodes, edge));
        add_line(listings, &Line::Faces(edge, other));
        add_line(listings, &Line::Faces(other, edge));
        let total = Line::Total(edge);
        let length = total.text().len();
        add_with(listings, &total, length);
        add_with(listings, &total, length - 1);
    }
    for edge in narrow_edges() {
        let other = narrow(&mut listings.rng);
        let bytes = number(&mut listings.rng);
        add_line(listings, &Line::Head(edge, other, bytes));
        add_line(listings, &Line::Head(other, edge, bytes));
        add_line(listings, &Line::Refused(edge, other));
        add_line(listings, &Line::Refused(other, edge));
    }
}

/// Rows: each edge as index, parent, body's length and own bytes; kinds with every digit at every place.
fn add_rows(listings: &mut Listings) {
    listings.cases.sweep("listings lines: rows", 16);
    for edge in narrow_edges() {
        let other = narrow(&mut listings.rng);
        let row = drawn_row(&mut listings.rng);
        add_line(listings, &Line::Row(edge, row));
        let below = Row {
            parent: edge,
            ..row
        };
        add_line(listings, &Line::Row(other, below));
        for start in [0, 24] {
            let end = edge;
            add_line(listings, &Line::Row(other, Row { start, end, ..row }));
        }
    }
    let last = u32::MAX;
    for (start, end) in [(1, 0), (last, 0), (last, last - 1), (last, last)] {
        let row = drawn_row(&mut listings.rng);
        add_line(listings, &Line::Row(0, Row { start, end, ..row }));
    }
    let digits = (0..16).map(|turn| 0x0123_4567_89AB_CDEF_u64.rotate_left(4 * turn) as u32);
    let known = KINDS.iter().map(|kind| kind.0);
    for kind in digits.chain(known).chain([0, 1, 0xF000_0000, last]) {
        let row = drawn_row(&mut listings.rng);
        add_line(listings, &Line::Row(1_023, Row { kind, ..row }));
    }
}

/// A number of any length.
fn number(rng: &mut Rng) -> u64 {
    rng.next_u64() >> rng.below(64)
}

fn narrow(rng: &mut Rng) -> u32 {
    rng.next_u32() >> rng.below(32)
}

fn drawn_row(rng: &mut Rng) -> Row {
    Row {
        kind: narrow(rng),
        hash: rng.next_u64(),
        parent: narrow(rng),
        start: narrow(rng),
        end: narrow(rng),
        properties: rng.next_u32(),
        children: rng.next_u32(),
    }
}

fn drawn(rng: &mut Rng) -> Line {
    match rng.below(5) {
        0 => Line::Head(narrow(rng), narrow(rng), number(rng)),
        1 => Line::Row(narrow(rng), drawn_row(rng)),
        2 => Line::Faces(number(rng), number(rng)),
        3 => Line::Total(number(rng)),
        _ => Line::Refused(narrow(rng), narrow(rng)),
    }
}
