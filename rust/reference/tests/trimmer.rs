//! Refusals 30 to 32, trimmed files, and the tally.

mod common;

use common::*;
use reference::{trim, Tally, Written};

fn answer(number: u32, place: u32, length: u32) -> Written {
    Written {
        number,
        place,
        length,
    }
}

/// Rows: 0 root, 1 unknown, 2 model, 3 mesh, 4 unknown, 5 unknown, 6 unknown, 7 root, 8 unknown.
fn sample(keep: &[bool; 5]) -> Vec<u8> {
    let notes = [
        unknown(1, b"first"),
        unknown(2, &unknown(0, b"inner").bytes()),
        unknown(3, b""),
        unknown(4, b"fourth"),
        unknown(5, b"x"),
    ];
    let some = |range: std::ops::Range<usize>| -> Vec<Node> {
        range
            .filter(|&i| keep[i])
            .map(|i| notes[i].clone())
            .collect()
    };
    let props = vec![zeros("v3", "vp", 3), ints("b", "f", &[0, 1, 1])];
    let mesh = node(b"mesh", 9, props, some(1..3));
    let mut model = node(b"modl", 0, vec![text("n", "wagon")], vec![mesh]);
    model.children.extend(some(3..4));
    let mut children = some(0..1);
    children.push(model);
    file_with_flags(0xABCD, &[root(children), root(some(4..5))])
}

const NOTES: [usize; 5] = [1, 4, 5, 6, 8];

#[test]
fn each_single_trimming() {
    let all = sample(&[true; 5]);
    for (note, row) in NOTES.iter().enumerate() {
        let mut keep = [true; 5];
        keep[note] = false;
        let expected = sample(&keep);
        let mut table = table();
        let mut out = vec![0xEE; all.len()];
        let written = trim(&all, *row, &mut table, &mut out);
        assert_eq!(written, answer(0, 0, expected.len() as u32));
        assert_eq!(out[..expected.len()], expected);
        assert!(out[expected.len()..].iter().all(|&byte| byte == 0xEE));
        assert_eq!(rows_of(&table, 8), accepted(&expected).1);
    }
}

#[test]
fn refusals_and_their_buffers() {
    let file = sample(&[true; 5]);
    let refused = |file: &[u8], row: usize, room: usize, expected: Written| {
        let mut table = table();
        let mut out = vec![0xEE; room];
        assert_eq!(trim(file, row, &mut table, &mut out), expected);
        assert_cleared(&table);
        assert!(out.iter().all(|&byte| byte == 0xEE));
    };
    for row in [9, 10, 1023, 1024, 1 << 61, usize::MAX] {
        refused(&file, row, 1000, answer(30, 0, 0));
        refused(&file, row, 0, answer(30, 0, 0));
    }
    for row in [0, 2, 3, 7] {
        refused(&file, row, 1000, answer(31, 0, 0));
        refused(&file, row, 0, answer(31, 0, 0));
    }
    for (note, row) in NOTES.iter().enumerate() {
        let mut keep = [true; 5];
        keep[note] = false;
        let length = sample(&keep).len();
        refused(&file, *row, length - 1, answer(32, 0, 0));
        refused(&file, *row, 0, answer(32, 0, 0));
    }
    // The reader's refusals come first, with their places.
    refused(&file[..20], 99, 0, answer(5, 16, 0));
    refused(&[], 1, 0, answer(3, 0, 0));
    refused(&vec![0; 16_777_217], 1, 0, answer(2, 0, 0));
    let mut longer = file.clone();
    longer.push(0);
    refused(&longer, 1, 1000, answer(12, file.len() as u32, 0));
    let mut wrong = file.clone();
    let f = place(&file, &ints("b", "f", &[0, 1, 1]).bytes) as usize;
    wrong[f + 11] = 3;
    refused(&wrong, 1, 1000, answer(15, f as u32, 0));
    // 1 leaves the table too.
    let mut short = vec![OLD; 8191];
    let mut out = vec![0xEE; 1000];
    assert_eq!(trim(&file, 1, &mut short, &mut out), answer(1, 0, 0));
    assert!(short.iter().all(|&n| n == OLD));
    assert!(out.iter().all(|&byte| byte == 0xEE));
}

#[test]
fn every_subset_in_two_orders() {
    let all = sample(&[true; 5]);
    for mask in 0..32usize {
        let keep: [bool; 5] = std::array::from_fn(|i| mask >> i & 1 == 0);
        let expected = sample(&keep);
        for backwards in [false, true] {
            let mut order: Vec<usize> = (0..5).filter(|&i| !keep[i]).collect();
            if backwards {
                order.reverse();
            }
            let mut tally = Tally::new(&all).unwrap();
            let mut file = all.clone();
            for (done, &note) in order.iter().enumerate() {
                let gone = order[..done].iter().filter(|&&other| other < note);
                let row = NOTES[note] - gone.count();
                let mut table = table();
                let mut out = vec![0; file.len()];
                let written = trim(&file, row, &mut table, &mut out);
                assert_eq!(written, tally.answer(row, 8200, file.len()));
                assert_eq!(written.number, 0);
                out.truncate(written.length as usize);
                file = out;
                assert_eq!(file, tally.file());
            }
            assert_eq!(file, expected);
            assert_eq!(tally.file(), expected);
            let marked: Vec<bool> = (0..9)
                .map(|row| NOTES.iter().zip(keep).any(|(&n, keep)| n == row && !keep))
                .collect();
            assert_eq!(tally.marked(), marked);
        }
    }
}

#[test]
fn the_tally_refuses_in_order() {
    let file = sample(&[true; 5]);
    let mut tally = Tally::new(&file).unwrap();
    assert_eq!(tally.answer(99, 8191, 0), answer(1, 0, 0));
    assert_eq!(tally.answer(9, 8192, 0), answer(30, 0, 0));
    assert_eq!(tally.answer(usize::MAX, 8192, 0), answer(30, 0, 0));
    assert_eq!(tally.answer(0, 8192, 0), answer(31, 0, 0));
    let without = file.len() - 29;
    assert_eq!(tally.answer(1, 8192, without - 1), answer(32, 0, 0));
    assert_eq!(tally.marked(), [false; 9]);
    assert_eq!(tally.file(), file);
    assert_eq!(tally.answer(1, 8192, without), answer(0, 0, without as u32));
    assert_eq!(tally.answer(1, usize::MAX, usize::MAX), answer(31, 0, 0));
    assert_eq!(tally.answer(8, 8192, usize::MAX), answer(30, 0, 0));
    assert_eq!(tally.file(), sample(&[false, true, true, true, true]));
    assert!(Tally::new(&file[..40]).is_none());
    assert_eq!(Tally::new(&common::file(&[])).unwrap().marked().len(), 0);
}
