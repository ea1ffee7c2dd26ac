//! Generated wagons with private notes.

use super::Trims;
use corpus::expect::expected;
use corpus::rows::numbers;
use corpus::samples::noted_wagon;
use corpus::tree::File;
use corpus::trims;
use corpus::valid::{file, Profile};
use reference::Tally;

/// Longer files are left out.
const MOST: usize = 300;

pub fn add(trims: &mut Trims) {
    trims.cases.sweep("trims drawn: rows", 3);
    for _ in 0..trims.cases.draws(16) {
        let file = noted(trims);
        trims.rows(&file);
    }
    trims.cases.sweep("trims drawn: lists", 3);
    for _ in 0..trims.cases.draws(55) {
        add_list(trims);
    }
    trims.cases.leave_out();
    let wagon = noted_wagon();
    let notes = wagon.rows(|node| !node.is_known());
    for &row in notes.iter().step_by(2) {
        trims.row(&wagon, row);
    }
}

/// A short file with two unknown nodes at least.
fn noted(trims: &mut Trims) -> File {
    let profile = Profile {
        unknown: 45,
        optional: 10,
        ..Profile::TINY
    };
    loop {
        let file = file(&mut trims.rng, &profile);
        let notes = file.rows(|node| !node.is_known()).len();
        if notes > 1 && file.bytes().len() <= MOST {
            return file;
        }
    }
}

/// A list of trimmings, each of the file that the one before left. The tally answers the same.
fn add_list(trims: &mut Trims) {
    let mut left = noted(trims);
    let encoded = left.encode();
    let table = numbers(&expected(&left, &encoded).rows);
    let list = trims::list(&mut trims.rng, &table, encoded.bytes.len(), 7);
    let mut tally = Tally::new(&encoded.bytes).expect("an accepted file");
    for given in list {
        let written = tally.answer(given.row, given.table, given.room);
        let new = trims.valid(&left, given);
        let length = new.as_ref().map_or(0, |file| file.bytes().len());
        assert_eq!(written.length as usize, length);
        left = new.unwrap_or(left);
    }
    assert!(tally.file() == left.bytes());
}
