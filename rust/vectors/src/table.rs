//! Rows of a table, and the table as a whole.

use crate::frame::{numbers_checksum, Case, Cases};
use crate::function::TABLE;
use crate::keep::ALL;
use corpus::tree::numbers_data;
use corpus::Rng;
use reference::{clear, is_whole, put_row, row};

/// Tables that a reading may use, or nearly, with rows at their ends.
const LONG: [(usize, u64); 7] = [
    (8_191, 1_022),
    (8_191, 1_023),
    (8_192, 1_023),
    (8_192, 1_024),
    (8_193, 1_024),
    (8_200, 1_024),
    (8_200, 1_025),
];

/// The last row of a table that is just long enough.
const LAST: (usize, u64) = (8_192, 1_023);

pub fn add(cases: &mut Cases) {
    let mut rng = cases.rng(19);
    cases.sweep("table", 8);
    for length in [0, 1, 7, 8, 9, 15, 16, 17, 64, 100] {
        let rows = length as u64 / 8;
        for at in 0..=rows + 1 {
            add_table(cases, &mut rng, length, at);
        }
        for at in [1 << 32, (1 << 61) - 1, 1 << 61, (1 << 61) + 1, 1 << 63] {
            add_table(cases, &mut rng, length, at);
        }
        add_table(cases, &mut rng, length, u64::MAX / 8);
        add_table(cases, &mut rng, length, u64::MAX);
        let at = rng.next_u64();
        add_table(cases, &mut rng, length, at);
    }
    for (length, at) in LONG {
        match (length, at) == LAST {
            true => cases.sweep("table: last row", ALL),
            false => cases.leave_out(),
        }
        add_table(cases, &mut rng, length, at);
    }
}

fn add_table(cases: &mut Cases, rng: &mut Rng, length: usize, x: u64) {
    let mut table: Vec<u32> = (0..length).map(|_| rng.next_u32()).collect();
    let numbers: [u32; 8] = std::array::from_fn(|_| rng.edge_u32());
    let (first, second) = (numbers_data(4, &table), numbers_data(4, &numbers));
    let case = Case {
        function: TABLE,
        first: &first,
        second: &second,
        x,
        ..Case::default()
    };
    let x = x as usize;
    let there = row(&table, x);
    let mut answer = vec![there.is_some().into()];
    answer.extend(there.unwrap_or(&[0; 8]).map(u64::from));
    answer.push(is_whole(&table).into());
    put_row(&mut table, x, &numbers);
    answer.push(numbers_checksum(&table));
    clear(&mut table);
    answer.push(numbers_checksum(&table));
    cases.add(&case, &answer);
}
