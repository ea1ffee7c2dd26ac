//! Helpers of the tests.
#![allow(dead_code)]

use corpus::expect::{expected, Expected};
use corpus::format::TABLE;
use corpus::rows::{numbers, rows, Row};
use corpus::tree::File;
use reference::Reading;

/// What a table holds before a reading.
pub const STALE: u32 = 0xDEAD_BEEF;
/// What an output holds before a writing.
pub const BLANK: u8 = 0xA5;

pub fn hex(bytes: &[u8]) -> String {
    bytes.iter().map(|byte| format!("{byte:02x}")).collect()
}

/// A table with some numbers past those of the rows.
pub fn table() -> Vec<u32> {
    vec![STALE; TABLE + 5]
}

/// Reads into a fresh table and checks what the table holds afterwards.
pub fn read(bytes: &[u8]) -> (Reading, Vec<u32>) {
    let mut table = table();
    let reading = reference::read(bytes, &mut table);
    check_table(bytes, &table, reading.number, reading.nodes);
    (reading, table)
}

/// Zero after the rows, on a refusal from the start; untouched past 8,192.
pub fn check_table(bytes: &[u8], table: &[u32], number: u32, nodes: u32) {
    let used = match number {
        0 => nodes as usize * 8,
        _ => 0,
    };
    let stray = table[used..TABLE].iter().any(|number| *number != 0);
    assert!(!stray, "table after the rows: {}", hex(bytes));
    let changed = table[TABLE..].iter().any(|number| *number != STALE);
    assert!(!changed, "table past its rows: {}", hex(bytes));
}

/// The rows of an accepted file.
pub fn accepted(bytes: &[u8]) -> (Reading, Vec<Row>) {
    let (reading, table) = read(bytes);
    let (number, place) = (reading.number, reading.place);
    assert_eq!((number, place), (0, 0), "refused: {}", hex(bytes));
    let rows = rows(&table, reading.nodes as usize);
    (reading, rows)
}

/// Reads a valid tree's bytes and compares with what the tree tells.
pub fn accepted_as(file: &File) -> (Vec<u8>, Vec<u32>) {
    let encoded = file.encode();
    let (reading, rows) = accepted(&encoded.bytes);
    let answer = Expected {
        flags: reading.flags,
        own_known: reading.own_known as usize,
        own_unknown: reading.own_unknown as usize,
        faces: reading.faces as usize,
        degenerate: reading.degenerate as usize,
        links: reading.links as usize,
        rows: rows.clone(),
    };
    let own = answer.own_known + answer.own_unknown;
    assert_eq!(16 + own, encoded.bytes.len());
    let expected = expected(file, &encoded);
    assert!(answer == expected, "answer: {}", hex(&encoded.bytes));
    (encoded.bytes, numbers(&rows))
}

/// Rows without the places of their bodies.
pub fn placeless(rows: &[Row]) -> Vec<Row> {
    let rows = rows.iter().map(|row| Row {
        start: 0,
        end: row.end.wrapping_sub(row.start),
        ..*row
    });
    rows.collect()
}

/// The body bytes of a row.
pub fn body<'a>(bytes: &'a [u8], row: &Row) -> &'a [u8] {
    &bytes[row.start as usize..row.end as usize]
}
