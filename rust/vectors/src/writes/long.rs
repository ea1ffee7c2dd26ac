//! Plans of as many rows as there may be, and files as long as they may be.

use super::planned::base;
use super::{refusal, Writes, LONGEST};
use crate::keep::ALL;
use corpus::format::{FILE, MAX_FILE, MAX_NODES, NONE, ROOT, TABLE};
use corpus::plans::{chain, overlapping};
use corpus::rows::{mend_children, numbers, rows, written_length, Row};
use corpus::worked::WAGON;
use reference::Written;

/// What 1,024 bare rows are as a file.
const BARE: usize = 16 + 24 * MAX_NODES;
const LAST: usize = MAX_NODES - 1;

pub fn add(writes: &mut Writes) {
    add_chains(writes);
    add_wide(writes);
    add_lengths(writes);
    add_files(writes);
}

fn written(length: usize) -> Written {
    Written {
        number: 0,
        place: 0,
        length: length as u32,
    }
}

/// A chain of 1,024 rows, and with a change of its last row.
fn add_chains(writes: &mut Writes) {
    writes.cases.sweep("writes long: chain", ALL);
    let case = chain(&mut writes.rng, MAX_NODES);
    let whole = rows(&case.plan, MAX_NODES);
    let answer = writes.add_whole(&case.plan, b"", BARE);
    assert_eq!(answer, written(BARE));
    writes.cases.leave_out();
    let mut table = case.plan.clone();
    writes.follow(&mut table, MAX_NODES, LONGEST - TABLE);
    let answer = writes.add_parts(&table, MAX_NODES, b"", BARE + 9);
    assert_eq!(answer, written(BARE));

    let mut changed = whole.clone();
    changed[LAST].parent = LAST as u32;
    mend_children(&mut changed);
    let answer = writes.add_whole(&numbers(&changed), b"", BARE);
    assert_eq!(answer, refusal(21, LAST));

    changed[LAST].parent = 0;
    mend_children(&mut changed);
    let plan = numbers(&changed);
    let answer = writes.add_whole(&plan, b"", BARE + 1);
    assert_eq!(answer, written(BARE));
    // The last row is after the plan, and names row 0 no more.
    let answer = writes.add_parts(&plan, LAST, b"", BARE);
    assert_eq!(answer, refusal(24, 0));
}

/// 1,023 rows below one root, the output a byte short.
fn add_wide(writes: &mut Writes) {
    writes.cases.leave_out();
    let mut rows = vec![Row::new(FILE, 0); MAX_NODES];
    rows[0] = Row::new(ROOT, NONE);
    mend_children(&mut rows);
    let answer = writes.add_parts(&numbers(&rows), MAX_NODES, b"", BARE - 1);
    assert_eq!(answer, refusal(26, 0));
}

/// A whole table as a plan, a number less, and a row more.
fn add_lengths(writes: &mut Writes) {
    writes.cases.leave_out();
    let base = base();
    let mut table = numbers(&base.rows);
    table.resize(TABLE, 0);
    // Each row of zeros names row 0.
    let answer = writes.add_whole(&table, &base.source, BARE);
    assert_eq!(answer, refusal(24, 0));
    let answer = writes.add_whole(&table[..TABLE - 1], &base.source, BARE);
    assert_eq!(answer, refusal(20, 0));
    let room = written_length(&base.rows) as usize;
    let answer = writes.add_parts(&table, base.rows.len(), &base.source, room);
    assert_eq!(answer, written(room));
    writes.cases.sweep("writes long: rows", ALL);
    let roots = numbers(&vec![Row::new(ROOT, NONE); MAX_NODES + 1]);
    let answer = writes.add_whole(&roots, b"", BARE + 24);
    assert_eq!(answer, refusal(20, 0));
}

/// Bodies that overlap, so that the file is as long as it may be, a byte longer, or much longer.
fn add_files(writes: &mut Writes) {
    writes.cases.sweep("writes long: files", ALL);
    let longest = overlapping(&mut writes.rng, MAX_FILE as u64);
    let answer = writes.add_whole(&longest.plan, &longest.source, 1_000);
    assert_eq!(answer, refusal(26, 0));
    let over = overlapping(&mut writes.rng, MAX_FILE as u64 + 1);
    let answer = writes.add_whole(&over.plan, &over.source, 1_000);
    assert_eq!(answer, refusal(25, 0));
    writes.cases.leave_out();
    let answer = writes.add_parts(&over.plan, MAX_NODES, &over.source, 1_000);
    assert_eq!(answer, refusal(25, 0));

    let source = vec![7; 28_000];
    let mut rows = vec![Row::new(WAGON, 0); 640];
    rows[0] = Row::new(ROOT, NONE);
    mend_children(&mut rows);
    for row in &mut rows[1..] {
        row.end = source.len() as u32;
    }
    let answer = writes.add_whole(&numbers(&rows), &source, 0);
    assert_eq!(answer, refusal(25, 0));
}
