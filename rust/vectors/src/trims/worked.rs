//! The worked files of the rules with rows, tables and outputs of every sort, and which refusal speaks first.

use super::{Trims, LONGEST, LONGEST_OUTPUT};
use corpus::format::TABLE;
use corpus::tree::File;
use corpus::trims::{Trimming, FAR};
use corpus::worked::{changed, e1, e10, e11, e3, e4, e5, e6, e7, e8, e9, triangle};

/// Lengths of tables without room for 1,024 rows, and with it.
const SHORT: [usize; 7] = [0, 1, 8, 16, 8_184, 8_190, 8_191];
const ENOUGH: [usize; 5] = [TABLE, TABLE + 1, TABLE + 7, TABLE + 8, LONGEST];

pub fn add(trims: &mut Trims) {
    add_wagon(trims);
    add_tables(trims);
    add_accepted(trims);
    add_refused(trims);
}

fn given(row: usize, table: usize, room: usize) -> Trimming {
    Trimming { row, table, room }
}

/// E10 without its row 1 is E3, wherever 40 bytes have room. No other row goes, and 30 and 31 come before 32.
fn add_wagon(trims: &mut Trims) {
    trims.cases.sweep("trims worked: wagon", 5);
    let wagon = e10();
    for room in [40, 41, 66, 67, 68, 100, 1_000, LONGEST_OUTPUT] {
        let left = trims.valid(&wagon, given(1, TABLE, room));
        assert!(left == Some(e3()));
    }
    for room in [0, 1, 15, 16, 24, 27, 38, 39] {
        trims.valid(&wagon, given(1, TABLE, room));
    }
    for row in [0, 2, 3, 1_023].into_iter().chain(FAR) {
        for room in [0, 39, 67] {
            trims.valid(&wagon, given(row, TABLE, room));
        }
    }
}

/// Tables of many lengths, with each answer.
fn add_tables(trims: &mut Trims) {
    trims.cases.sweep("trims worked: tables", 4);
    let wagon = e10();
    for table in SHORT.into_iter().chain(ENOUGH) {
        for (row, room) in [(1, 40), (1, 39), (0, 67), (2, 67), (usize::MAX, 0)] {
            trims.valid(&wagon, given(row, table, room));
        }
    }
}

/// Files that have no unknown node, and E10 with other flags.
fn add_accepted(trims: &mut Trims) {
    trims.cases.sweep("trims worked: accepted", 4);
    for file in [e1(), e3(), e11(), triangle([0, 1, 1])] {
        for row in 0..4 {
            trims.valid(&file, given(row, TABLE, 0));
            trims.valid(&file, given(row, TABLE + 8, 200));
        }
    }
    for flags in [1, 0x0102_0304, 0x8000_0000, u32::MAX] {
        let file = File { flags, ..e10() };
        trims.valid(&file, given(1, TABLE, 40));
    }
}

/// The reader's refusals come before 30 to 32, and 1 before all.
fn add_refused(trims: &mut Trims) {
    trims.cases.sweep("trims worked: refused", 2);
    let mut cut = e10().bytes();
    cut.pop();
    let mut more = e10();
    more.rest.push(0);
    let mut version = e10();
    version.version = 0;
    let no_roots = changed(|file| file.root_count = Some(0));
    let mut properties = e10();
    properties.roots[0].claimed.properties = Some(65);
    let files = [
        (Vec::new(), 3, 0),
        (e10().bytes()[..15].to_vec(), 3, 0),
        (b"cost\x02".repeat(4), 3, 0),
        (e4(), 5, 16),
        (e5().bytes(), 12, 40),
        (e6().bytes(), 12, 40),
        (e7().bytes(), 5, 16),
        (e8().bytes(), 6, 16),
        (e9().bytes(), 4, 4),
        (triangle([0, 1, 3]).bytes(), 15, 134),
        (cut, 5, 16),
        (more.bytes(), 12, 67),
        (version.bytes(), 4, 4),
        (no_roots.bytes(), 12, 16),
        (properties.bytes(), 9, 16),
    ];
    for (file, number, place) in &files {
        for (row, room) in [(1, 200), (0, 0), (usize::MAX, 39)] {
            trims.refused(file, given(row, TABLE, room), *number, *place);
        }
        trims.refused(file, given(1, LONGEST, 1), *number, *place);
        trims.refused(file, given(1, TABLE - 1, 200), 1, 0);
    }
}
