//! The worked files of the rules, and tables that are too short for any file.

use super::{Walks, FIRST, LONGEST, SECOND};
use crate::keep::ALL;
use corpus::format::TABLE;
use corpus::tree::File;
use corpus::worked::{changed, e1, e10, e3, e4, e5, e6, e7, e8, e9};

/// Lengths of tables without room for 1,024 rows.
const SHORT: [usize; 9] = [0, 1, 7, 8, 16, 4_096, 8_184, 8_190, 8_191];

pub fn add(walks: &mut Walks) {
    walks.cases.sweep("walks worked", ALL);
    walks.accepted(&e1().bytes(), 0);
    walks.refused(&[], 3, 0);
    walks.accepted(&e3().bytes(), 1);
    walks.refused(&e4(), 5, FIRST);
    walks.refused(&e5().bytes(), 12, 40);
    walks.refused(&e6().bytes(), 12, 40);
    walks.refused(&e7().bytes(), 5, FIRST);
    walks.refused(&e8().bytes(), 6, FIRST);
    walks.refused(&e9().bytes(), 4, 4);
    assert_eq!(e10().bytes().len(), 67);
    walks.accepted(&e10().bytes(), 2);
    add_headers(walks);
    add_tables(walks);
}

/// Every first four bytes that differ in one bit, versions, and flags.
fn add_headers(walks: &mut Walks) {
    walks.cases.sweep("walks worked: headers", 6);
    for bit in 0..32 {
        let magic = |file: &mut File| file.magic[bit / 8] ^= 1 << (bit % 8);
        walks.refused(&changed(magic).bytes(), 3, 0);
    }
    for version in [0, 2, 0x101, 0x1_0000, 0x1_0001, 0x0100_0000, u32::MAX] {
        walks.refused(&changed(|file| file.version = version).bytes(), 4, 4);
    }
    for flags in [0, 1, 0x0102_0304, 0x8000_0000, u32::MAX] {
        walks.accepted(&changed(|file| file.flags = flags).bytes(), 1);
        walks.accepted(&File::new(flags, Vec::new()).bytes(), 0);
    }
    // Fewer than 16 bytes, and more where no root is counted.
    let whole = e1().bytes();
    for end in 0..whole.len() {
        walks.refused(&whole[..end], 3, 0);
    }
    for more in [1, 8, 23, 24, 25] {
        let bytes = [&whole[..], &vec![0; more]].concat();
        walks.refused(&bytes, 12, FIRST);
    }
    let uncounted = changed(|file| file.root_count = Some(0));
    walks.refused(&uncounted.bytes(), 12, FIRST);
}

/// Refusal 1 comes before all others, and leaves the table; numbers past 8,192 stay.
fn add_tables(walks: &mut Walks) {
    walks.cases.sweep("walks worked: tables", 6);
    let files = [
        e3().bytes(),
        e10().bytes(),
        Vec::new(),
        b"cost\x02".repeat(4),
    ];
    for file in &files {
        for length in SHORT {
            let answer = walks.add_with(file, length);
            assert_eq!(answer, (1, 0, 0));
        }
        for length in [TABLE, TABLE + 1, TABLE + 7, TABLE + 8, LONGEST] {
            walks.add_with(file, length);
        }
    }
    let cut = &e10().bytes()[..SECOND + 24];
    for length in [TABLE - 1, TABLE, TABLE + 8] {
        walks.add_with(cut, length);
    }
}
