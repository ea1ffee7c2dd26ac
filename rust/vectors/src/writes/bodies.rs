//! Refusals 22 and 23: where bodies lie, and what is in them.

use super::planned::{base, body};
use super::{Planned, Writes};
use corpus::format::{B, H, MAX_PROPERTIES, METADATA, NONE, ROOT, S};
use corpus::rows::{mend_children, Row};
use corpus::tree::Property;
use corpus::worked::WAGON;

pub fn add(writes: &mut Writes) {
    let base = base();
    for row in 0..base.rows.len() {
        add_places(writes, &base, row);
        add_exchanged(writes, &base, row);
    }
    add_cuts(writes, &base);
    for (count, body, right) in contents() {
        add_content(writes, count, &body, right);
    }
}

/// A row's body elsewhere.
fn add_places(writes: &mut Writes, base: &Planned, row: usize) {
    writes.cases.sweep("writes bodies: places", 3);
    let Row { start, end, .. } = base.rows[row];
    let source = base.source.len() as u32;
    let mut at = |start, end| {
        let mut rows = base.rows.clone();
        (rows[row].start, rows[row].end) = (start, end);
        let right = match rows[row].is_known() {
            true => start == end && rows[row].properties == 0,
            false => true,
        };
        match right {
            _ if end < start || end > source => writes.refused(&rows, &base.source, 22, row),
            true => writes.right(&rows, &base.source),
            false => writes.refused(&rows, &base.source, 23, row),
        }
    };
    for (start, end) in [
        (start - 1, end),
        (start, end + 1),
        (start, source),
        (start, source + 1),
        (start, start - 1),
        (end + 1, end),
        (source, source),
        (source + 1, source + 1),
        (NONE, NONE),
        (NONE, 0),
        (0, 0),
        (0x8000_0000, 0x8000_0000 + end - start),
    ] {
        at(start, end);
    }
    if start < end {
        for (start, end) in [
            (start + 1, end),
            (start, end - 1),
            (start, start),
            (end, start),
        ] {
            at(start, end);
        }
    }
}

/// Any row may have the body of any other.
fn add_exchanged(writes: &mut Writes, base: &Planned, row: usize) {
    writes.cases.sweep("writes bodies: exchanged", 3);
    for other in [1, 2] {
        let mut rows = base.rows.clone();
        rows[row].start = base.rows[other].start;
        rows[row].end = base.rows[other].end;
        rows[row].properties = base.rows[other].properties;
        writes.right(&rows, &base.source);
    }
}

/// The source up to the end of each body, and to a byte before.
fn add_cuts(writes: &mut Writes, base: &Planned) {
    writes.cases.sweep("writes bodies: cuts", 3);
    for row in &base.rows {
        for cut in [row.end - 1, row.end] {
            let source = &base.source[..cut as usize];
            match base.rows.iter().position(|row| row.end > cut) {
                Some(first) => writes.refused(&base.rows, source, 22, first),
                None => writes.right(&base.rows, source),
            }
        }
    }
    writes.refused(&base.rows, b"", 22, 0);
}

/// Counts and bodies, and whether a known row may have them.
fn contents() -> Vec<(u32, Vec<u8>, bool)> {
    let bytes = |name: &[u8], length: usize| Property::new(B, name, length, vec![1; length]);
    let most = MAX_PROPERTIES;
    let many = |count: usize| body(vec![bytes(b"a", 0); count]);
    let one = |property: Property| body(vec![property]);
    let cut = |mut body: Vec<u8>| {
        body.pop();
        body
    };
    let more = |mut body: Vec<u8>| {
        body.push(0);
        body
    };
    let mut long = bytes(b"a", 2);
    long.length = 3;
    let mut longest = bytes(b"a", 2);
    longest.length = NONE;
    let mut unnamed = bytes(b"", 2);
    let none = one(unnamed.clone());
    unnamed.name_size = Some(40);
    vec![
        (0, Vec::new(), true),
        (1, Vec::new(), false),
        (most as u32, Vec::new(), false),
        (NONE, Vec::new(), false),
        (0, vec![0], false),
        (most as u32, many(most), true),
        (most as u32 + 1, many(most + 1), false),
        (most as u32, many(most + 1), false),
        (most as u32 + 1, many(most), false),
        (most as u32 - 1, many(most), false),
        (2, many(2), true),
        (2, cut(many(2)), false),
        (2, more(many(2)), false),
        (1, one(bytes(b"a", 3)), true),
        (1, cut(one(bytes(b"a", 3))), false),
        (1, more(one(bytes(b"a", 3))), false),
        (1, one(long), false),
        (1, one(longest), false),
        (1, one(Property::new(H, b"a", 1, vec![0, 1])), true),
        (1, one(Property::new(H, b"a", 2, vec![0, 1])), false),
        (1, one(Property::new(0x61, b"a", 0, Vec::new())), false),
        (1, one(Property::new(0, b"a", 0, Vec::new())), false),
        (1, one(bytes(b"A", 0)), false),
        (1, one(bytes(b"a\0", 0)), false),
        (1, none, false),
        (1, one(unnamed), false),
        (1, one(bytes(&[b'n'; 32], 1)), true),
        (1, one(bytes(&[b'n'; 33], 1)), false),
        (1, one(Property::string("n", b"")), true),
        (1, one(Property::string("n", b"text")), true),
        (1, cut(one(Property::string("n", b"text"))), false),
        (1, more(one(Property::string("n", b"text"))), false),
        (1, one(Property::new(S, b"n", 0, Vec::new())), false),
        (1, one(Property::new(S, b"n", 2, b"a\0b\0".to_vec())), false),
        // A name that is there twice is the reader's matter.
        (
            2,
            body(vec![bytes(b"f", 1), Property::string("f", b"x")]),
            true,
        ),
    ]
}

/// As the body of the only row, and of an unknown row and the last one. Zeros follow it in the source, so that a string
/// could go on.
fn add_content(writes: &mut Writes, count: u32, body: &[u8], right: bool) {
    writes.cases.sweep("writes bodies: content", 6);
    let mut judge = |mut plan: Planned, row: usize| {
        plan.source.extend_from_slice(&[0; 3]);
        mend_children(&mut plan.rows);
        match right {
            true => writes.right(&plan.rows, &plan.source),
            false => writes.refused(&plan.rows, &plan.source, 23, row),
        }
    };
    let mut only = Planned::empty();
    only.push(ROOT, NONE, count, body);
    judge(only, 0);
    let mut last = Planned::empty();
    last.source.push(0);
    last.push_known(ROOT, NONE, Vec::new());
    last.push(WAGON, 0, count, body);
    last.push(METADATA, 0, count, body);
    judge(last, 2);
}
