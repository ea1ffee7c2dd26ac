//! Refusals 40 to 43.

mod common;

use common::*;
use reference::{lookup, Found};

fn refused(number: u32) -> Found {
    Found {
        number,
        place: 0,
        start: 0,
        end: 0,
    }
}

fn found(start: usize, end: usize) -> Found {
    Found {
        number: 0,
        place: 0,
        start,
        end,
    }
}

fn bytes() -> Vec<u8> {
    let props = [
        raw(0x73, b"n", 1, b"abc\0"),
        raw(0x68, b"empty", 0, &[]),
        raw(0x62, b"n", 2, &[8, 9]),
    ];
    [vec![0xEE; 3], props.concat(), vec![0xEE; 4]].concat()
}

fn row(start: u32, end: u32, count: u32) -> [u32; 8] {
    [kind(b"mesh"), 0, 0, 0, start, end, count, 0]
}

#[test]
fn finds_the_first_of_equal_names() {
    let table = row(3, 40, 3);
    assert_eq!(bytes().len(), 44);
    assert_eq!(lookup(&bytes(), &table, 0, b"n"), found(12, 16));
    assert_eq!(&bytes()[12..16], b"abc\0");
    assert_eq!(lookup(&bytes(), &table, 0, b"empty"), found(29, 29));
}

#[test]
fn forty_row_not_wholly_in_the_table() {
    let table = [row(3, 40, 3), row(3, 40, 3)].concat();
    assert_eq!(lookup(&bytes(), &table, 1, b"n"), found(12, 16));
    assert_eq!(lookup(&bytes(), &table[..15], 1, b"n"), refused(40));
    assert_eq!(lookup(&bytes(), &table, 2, b"n"), refused(40));
    assert_eq!(lookup(&[], &[], 0, b"n"), refused(40));
    for row in [1 << 61, (1 << 61) + 1, usize::MAX, usize::MAX / 8 + 1] {
        assert_eq!(lookup(&bytes(), &table, row, b"n"), refused(40));
    }
}

#[test]
fn forty_one_body_out_of_the_bytes() {
    for (start, end) in [
        (4, 3),
        (3, 45),
        (45, 45),
        (u32::MAX, u32::MAX),
        (u32::MAX, 0),
    ] {
        assert_eq!(lookup(&bytes(), &row(start, end, 65), 0, b"n"), refused(41));
    }
    assert_eq!(lookup(&bytes(), &row(44, 44, 0), 0, b"n"), refused(43));
}

#[test]
fn forty_two_body_not_its_properties() {
    for (start, end, count) in [
        (3, 40, 2),
        (3, 40, 4),
        (3, 39, 3),
        (3, 41, 3),
        (2, 40, 3),
        (3, 40, 0),
        (44, 44, 1),
        (44, 44, 65),
        (44, 44, u32::MAX),
    ] {
        let table = row(start, end, count);
        assert_eq!(lookup(&bytes(), &table, 0, b"n"), refused(42));
        assert_eq!(lookup(&bytes(), &table, 0, b"none"), refused(42));
    }
    let many = raw(0x62, b"x", 0, &[]).repeat(65);
    let end = many.len() as u32;
    assert_eq!(lookup(&many, &row(0, end - 9, 64), 0, b"x"), found(9, 9));
    assert_eq!(lookup(&many, &row(0, end, 65), 0, b"x"), refused(42));
}

#[test]
fn forty_three_no_such_name() {
    let table = row(3, 40, 3);
    for name in [
        &b""[..],
        b"N",
        b"nn",
        b"e",
        b"empty\0",
        b"abc",
        &[b'n'; 100],
    ] {
        assert_eq!(lookup(&bytes(), &table, 0, name), refused(43));
    }
}

#[test]
fn any_kind_is_judged() {
    let mut table = row(3, 40, 3);
    for kind in [0, kind(b"wagn"), kind(b"root"), u32::MAX] {
        table[0] = kind;
        assert_eq!(lookup(&bytes(), &table, 0, b"n"), found(12, 16));
        table[6] = 2;
        assert_eq!(lookup(&bytes(), &table, 0, b"n"), refused(42));
        table[6] = 3;
    }
}
