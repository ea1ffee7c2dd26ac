//! Refusals 20 to 26 and the round trip.

mod common;

use common::*;
use reference::{read, write, Written};

const R: u32 = 0x746F_6F72;
const M: u32 = 0x6C64_6F6D;
const U: u32 = 0x6E67_6177;

fn assert_refused(plan: &[[u32; 8]], source: &[u8], number: u32, place: u32) {
    assert_flat_refused(&plan.concat(), source, number, place);
}

fn assert_flat_refused(plan: &[u32], source: &[u8], number: u32, place: u32) {
    let mut out = vec![0xEE; 1000];
    let expected = Written {
        number,
        place,
        length: 0,
    };
    assert_eq!(write(plan, source, 7, &mut out), expected);
    assert!(out.iter().all(|&byte| byte == 0xEE));
}

fn written(plan: &[[u32; 8]], source: &[u8], flags: u32) -> Vec<u8> {
    let mut out = vec![0xEE; 1000];
    let written = write(&plan.concat(), source, flags, &mut out);
    assert_eq!((written.number, written.place), (0, 0));
    let length = written.length as usize;
    assert!(out[length..].iter().all(|&byte| byte == 0xEE));
    out.truncate(length);
    out
}

#[test]
fn an_empty_plan_is_an_empty_file() {
    assert_eq!(
        written(&[], &[], 0x0403_0201),
        b"cast\x01\0\0\0\0\0\0\0\x01\x02\x03\x04"
    );
}

#[test]
fn bodies_come_from_anywhere() {
    let props = [raw(0x62, b"x", 1, &[5]), raw(0x73, b"n", 1, b"ab\0")].concat();
    let source = [vec![1, 2, 3], props.clone()].concat();
    let plan = [
        [R, 1, 2, NONE, 13, 25, 1, 1],
        [M, 3, 4, 0, 3, 25, 2, 1],
        [U, 5, 6, 1, 1, 3, 99, 98],
        [R, 7, 8, NONE, 0, 0, 0, 0],
    ];
    let mut inner = unknown(0x0000_0006_0000_0005, &[2, 3]);
    inner.kind = U.to_le_bytes();
    let prop = |bytes: &[u8]| Prop {
        name: String::new(),
        bytes: bytes.to_vec(),
    };
    let model = node(
        b"modl",
        0x0000_0004_0000_0003,
        vec![prop(&props[..10]), prop(&props[10..])],
        vec![inner],
    );
    let first = node(
        b"root",
        0x0000_0002_0000_0001,
        vec![prop(&props[10..])],
        vec![model],
    );
    let second = node(b"root", 0x0000_0008_0000_0007, vec![], vec![]);
    let mut expected = file_with_flags(9, &[first, second]);
    let at = place(&expected, b"wagn") as usize;
    put(&mut expected, at + 16, 99);
    put(&mut expected, at + 20, 98);
    assert_eq!(written(&plan, &source, 9), expected);
}

#[test]
fn the_round_trip() {
    let mut tree = everything();
    tree.find(b"bone").children.push(unknown(3, b"private"));
    let bytes = file_with_flags(0xFFFF_0001, &[tree, root(vec![])]);
    let (reading, rows) = accepted(&bytes);
    let mut out = vec![0; bytes.len()];
    let written = write(&rows.concat(), &bytes, reading.flags, &mut out);
    assert_eq!((written.number, written.length as usize), (0, bytes.len()));
    assert_eq!(out, bytes);
}

#[test]
fn twenty_plan_length() {
    let row = [R, 0, 0, NONE, 0, 0, 0, 0];
    for length in [1, 7, 9, 15] {
        assert_flat_refused(&row.repeat(2)[..length], &[], 20, 0);
    }
    assert_flat_refused(&row.repeat(1025), &[], 20, 0);
    let mut out = vec![0; 16 + 24 * 1024];
    let written = write(&row.repeat(1024), &[], 0, &mut out);
    assert_eq!((written.number, written.length), (0, 16 + 24 * 1024));
    // A whole table is a plan of 1,024 rows; the empty ones name row 0 as their parent.
    let mut table = table();
    read(&rooted(vec![]), &mut table);
    assert_flat_refused(&table[..8192], &[0; 40], 24, 0);
}

#[test]
fn twenty_one_parents() {
    let row = |kind: u32, parent: u32, children: u32| [kind, 0, 0, parent, 0, 0, 0, children];
    // The first row, and none exactly for Root.
    assert_refused(&[row(M, NONE, 0)], &[], 21, 0);
    assert_refused(&[row(U, NONE, 0)], &[], 21, 0);
    assert_refused(&[row(R, 0, 1)], &[], 21, 0);
    assert_refused(&[row(M, 0, 1)], &[], 21, 0);
    assert_refused(&[row(R, NONE, 1), row(R, 0, 0)], &[], 21, 1);
    assert_refused(&[row(R, NONE, 0), row(M, NONE, 0)], &[], 21, 1);
    // Itself, later rows, rows past the plan, an unknown row.
    for parent in [1, 2, 3, 1023, 1024, 0xFFFF_FFFE] {
        assert_refused(
            &[row(R, NONE, 1), row(M, parent, 0), row(M, 0, 0)],
            &[],
            21,
            1,
        );
    }
    assert_refused(&[row(R, NONE, 1), row(U, 0, 1), row(U, 1, 0)], &[], 21, 2);
    // Not an ancestor: a closed sibling, a closed root.
    let closed = [row(R, NONE, 2), row(M, 0, 1), row(M, 0, 0), row(M, 1, 0)];
    assert_refused(&closed, &[], 21, 3);
    assert_refused(
        &[row(R, NONE, 1), row(R, NONE, 0), row(U, 0, 0)],
        &[],
        21,
        2,
    );
    // The previous row, any ancestor of it, and after an unknown row its ancestors.
    let right = [
        row(R, NONE, 3),
        row(M, 0, 1),
        row(M, 1, 1),
        row(U, 2, 7),
        row(M, 0, 0),
        row(U, 0, 7),
        row(R, NONE, 1),
        row(U, 6, 7),
    ];
    assert_eq!(written(&right, &[], 0).len(), 16 + 8 * 24);
    // Any known kind may be below any: places are the reader's matter, as is the depth.
    let mut deep = vec![row(R, NONE, 1)];
    deep.extend((0..30).map(|i| row(M, i, u32::from(i < 29))));
    assert_eq!(written(&deep, &[], 0).len(), 16 + 31 * 24);
}

#[test]
fn twenty_two_bodies() {
    let plan = |kind, start, end| {
        let root = [R, 0, 0, NONE, 0, 0, 0, 1];
        [root, [kind, 0, 0, 0, start, end, 0, 0]]
    };
    for (start, end) in [
        (1, 0),
        (0, 5),
        (5, 5),
        (4, 5),
        (u32::MAX, u32::MAX),
        (u32::MAX, 0),
    ] {
        assert_refused(&plan(M, start, end), &[0; 4], 22, 1);
        assert_refused(&plan(U, start, end), &[0; 4], 22, 1);
    }
    assert_eq!(written(&plan(U, 0, 4), &[0; 4], 0).len(), 68);
    assert_eq!(written(&plan(M, 4, 4), &[0; 4], 0).len(), 64);
}

#[test]
fn twenty_three_properties() {
    let one = raw(0x62, b"x", 0, &[]);
    let source = one.repeat(65);
    let plan = |end: u32, count: u32| [[R, 0, 0, NONE, 0, end, count, 0]];
    assert_refused(&plan(9, 0), &source, 23, 0);
    assert_refused(&plan(9, 2), &source, 23, 0);
    assert_refused(&plan(8, 1), &source, 23, 0);
    assert_refused(&plan(10, 1), &source, 23, 0);
    assert_refused(&plan(9 * 65, 65), &source, 23, 0);
    assert_refused(&plan(0, u32::MAX), &source, 23, 0);
    assert_eq!(written(&plan(9 * 64, 64), &source, 0).len(), 40 + 9 * 64);
    // The body's end is the end, though the source goes on.
    let cut = raw(0x62, b"x", 2, &[0; 2]);
    assert_refused(&plan(10, 1), &cut, 23, 0);
    assert_refused(&plan(9, 1), &raw(0x61, b"x", 0, &[]), 23, 0);
}

#[test]
fn twenty_four_child_counts() {
    let row = |kind: u32, parent: u32, children: u32| [kind, 0, 0, parent, 0, 0, 0, children];
    assert_refused(&[row(R, NONE, 1)], &[], 24, 0);
    assert_refused(&[row(R, NONE, 0), row(U, 0, 0)], &[], 24, 0);
    assert_refused(&[row(R, NONE, 1), row(M, 0, 0), row(U, 1, 0)], &[], 24, 1);
    // Later rows count even where they are wrong themselves.
    assert_refused(&[row(R, NONE, 1), row(R, 0, 0)], &[], 21, 1);
    let later = [row(R, NONE, 1), row(M, 0, 1), row(R, NONE, 0), row(M, 1, 0)];
    assert_refused(&later, &[], 21, 3);
}

#[test]
fn order_of_the_writer() {
    // One row after the other; within a row 21 to 24.
    let bad = [M, 0, 0, NONE, 9, 8, 99, 99];
    assert_refused(&[bad], &[], 21, 0);
    assert_refused(&[[R, 0, 0, NONE, 9, 8, 99, 99]], &[], 22, 0);
    assert_refused(&[[R, 0, 0, NONE, 0, 0, 99, 99]], &[], 23, 0);
    assert_refused(&[[R, 0, 0, NONE, 0, 0, 0, 99], bad], &[], 24, 0);
    assert_refused(&[[R, 0, 0, NONE, 0, 0, 0, 0], bad], &[], 21, 1);
    // 20 before all of them.
    let mut plan = bad.to_vec();
    plan.push(0);
    assert_flat_refused(&plan, &[], 20, 0);
    // 24 in an earlier row before 21 in a later one; 25 and 26 after all rows.
    let plan = [[R, 0, 0, NONE, 0, 0, 0, 0], [R, 0, 0, NONE, 0, 0, 0, 1]];
    let expected = Written {
        number: 24,
        place: 1,
        length: 0,
    };
    assert_eq!(write(&plan.concat(), &[], 0, &mut []), expected);
}

#[test]
fn twenty_five_and_twenty_six_length() {
    // 1,023 unknown bodies over the same source bytes.
    let plan = |end: u32, rows: u32| {
        let mut plan = vec![[R, 0, 0, NONE, 0, 0, 0, rows]];
        plan.extend((0..rows).map(|_| [U, 0, 0, 0, 0, end, 0, 0]));
        plan.concat()
    };
    let source = vec![7; 16_777_217];
    let refused = |number| Written {
        number,
        place: 0,
        length: 0,
    };
    let longest = 16_777_216 - 64;
    assert_eq!(
        write(&plan(longest + 1, 1), &source, 0, &mut []),
        refused(25)
    );
    assert_eq!(write(&plan(longest, 1), &source, 0, &mut []), refused(26));
    // Past 2^32: 1,023 times 16 MiB.
    assert_eq!(
        write(&plan(16_777_216, 1023), &source, 0, &mut []),
        refused(25)
    );
    // 256 bodies and headers make 2^32 + 16 bytes.
    let wrapping = 16_777_216 - 24;
    let mut out = vec![0xEE; 100];
    assert_eq!(
        write(&plan(wrapping, 256), &source, 0, &mut out),
        refused(25)
    );
    assert!(out.iter().all(|&byte| byte == 0xEE));

    let mut out = vec![0xEE; 67];
    assert_eq!(write(&plan(4, 1), &source, 0, &mut out), refused(26));
    assert!(out.iter().all(|&byte| byte == 0xEE));
    out.push(0xEE);
    assert_eq!(write(&plan(4, 1), &source, 0, &mut out).length, 68);
    let mut out = vec![0xEE; 16_777_216];
    let written = write(&plan(longest, 1), &source, 0, &mut out);
    assert_eq!((written.number, written.length), (0, 16_777_216));
    assert_eq!(accepted(&out).0.own_unknown, 24 + longest);
}

/// The source's zeros are never written to, so its pages are never there.
#[test]
fn bodies_at_the_end_of_a_source_of_nearly_2_to_the_32() {
    let last = 0xFFFF_FFFF;
    let source = vec![0; last as usize];
    let plan = [
        [R, 0, 0, NONE, last, last, 0, 1],
        [U, 0, 0, 0, last - 15, last - 12, 0, 0],
    ]
    .concat();
    let mut out = vec![0xEE; 70];
    let written = write(&plan, &source, 0, &mut out);
    assert_eq!((written.number, written.length), (0, 67));
    let (reading, rows) = accepted(&out[..67]);
    assert_eq!((reading.own_known, reading.own_unknown), (24, 27));
    assert_eq!(rows[1][4..6], [64, 67]);
    assert_eq!(out[67..], [0xEE; 3]);
}
