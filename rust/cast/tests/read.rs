//! The proved reader against the independent one.

use std::collections::BTreeMap;

use cast::{read, Reading, TABLE_NUMBERS};
use corpus::valid::{file, mixed, Profile};
use corpus::{large, mutate, worked, Rng};

const FILES: usize = 200_000;
/// Every answer that a short file may lead to comes at least this often.
const LEAST: usize = 100;

/// How often each answer came.
type Census = BTreeMap<u32, usize>;

/// A table for each reader, with the same numbers in both.
struct Tables {
    proved: Vec<u32>,
    independent: Vec<u32>,
}

impl Tables {
    /// Tables of this length, of drawn numbers.
    fn new(rng: &mut Rng, length: usize) -> Tables {
        let mut tables = Tables {
            proved: Vec::new(),
            independent: Vec::new(),
        };
        tables.draw(rng, length);
        tables
    }

    fn draw(&mut self, rng: &mut Rng, length: usize) {
        self.proved.clear();
        self.proved.resize_with(length, || rng.next_u32());
        self.independent.clone_from(&self.proved);
    }

    /// Compares both answers and both tables. Answers the number.
    fn agree(&mut self, file: &[u8]) -> u32 {
        let told = reference::read(file, &mut self.independent);
        let told = Reading {
            number: told.number,
            place: told.place,
            nodes: told.nodes,
            flags: told.flags,
            own_known: told.own_known,
            own_unknown: told.own_unknown,
            faces: told.faces,
            degenerate: told.degenerate,
            links: told.links,
        };
        let start = &file[..file.len().min(4_000)];
        assert_eq!(read(file, &mut self.proved), told, "{start:02X?}");
        let differs = (0..self.proved.len()).find(|&at| self.proved[at] != self.independent[at]);
        assert_eq!(differs, None, "the tables differ there: {start:02X?}");
        told.number
    }
}

/// Mostly as long as a reading needs, else shorter or longer.
fn table_length(rng: &mut Rng) -> usize {
    match rng.below(20) {
        0 => TABLE_NUMBERS - 1,
        1 => rng.below(TABLE_NUMBERS),
        2 | 3 => TABLE_NUMBERS + 1,
        4 | 5 => TABLE_NUMBERS + rng.below(200),
        _ => TABLE_NUMBERS,
    }
}

/// A file, and nine more from it by damage; two that are too long.
#[test]
fn generated() {
    let mut rng = Rng::new(51);
    let mut census = Census::new();
    let mut tables = Tables::new(&mut rng, 0);
    let mut agree = |rng: &mut Rng, file: &[u8]| {
        let length = table_length(rng);
        tables.draw(rng, length);
        *census.entry(tables.agree(file)).or_default() += 1;
    };
    let mut left = FILES;
    while left > 0 {
        let file = match rng.chance(40) {
            true => file(&mut rng, &Profile::TINY),
            false => mixed(&mut rng),
        };
        agree(&mut rng, &file.bytes());
        left -= 1;
        for _ in 0..left.min(9) {
            let (_, damaged) = mutate::any(&mut rng, &file);
            agree(&mut rng, &damaged.bytes);
            left -= 1;
        }
    }
    let mut long = mutate::too_long(&mut rng);
    for more in [0, 1_000] {
        long.resize(long.len() + more, b'c');
        let number = Tables::new(&mut rng, TABLE_NUMBERS).agree(&long);
        *census.entry(number).or_default() += 1;
    }
    println!("{FILES} readings and two of long files by answer: {census:?}");
    for number in (0..=17).filter(|number| *number != 8) {
        let count = census.get(&number).copied().unwrap_or(0);
        let least = if number == 2 { 2 } else { LEAST };
        assert!(count >= least, "{number} only {count} times");
    }
    assert!(!census.contains_key(&8));
}

/// Files near the limits.
#[test]
fn long() {
    let mut rng = Rng::new(52);
    for (name, make) in large::ALL {
        let bytes = make(&mut rng).bytes();
        let mut tables = Tables::new(&mut rng, TABLE_NUMBERS + 3);
        assert_eq!(tables.agree(&bytes), 0, "{name}");
        let cut = &bytes[..bytes.len() - 1];
        assert_ne!(tables.agree(cut), 0, "{name}");
    }
}

/// Each byte of a small file with each value, and each cut of it, read into what the reading before left.
#[test]
fn changed() {
    let whole = worked::e11().bytes();
    let mut rng = Rng::new(53);
    let mut tables = Tables::new(&mut rng, TABLE_NUMBERS);
    let mut census = Census::new();
    for at in 0..whole.len() {
        let mut bytes = whole.clone();
        for value in 0..=255 {
            bytes[at] = value;
            *census.entry(tables.agree(&bytes)).or_default() += 1;
        }
        *census.entry(tables.agree(&whole[..at])).or_default() += 1;
    }
    println!("changed readings by answer: {census:?}");
}

/// Empty slices, and tables that are too short.
#[test]
fn empty() {
    let mut rng = Rng::new(54);
    for length in [0, 1, 8, TABLE_NUMBERS - 1, TABLE_NUMBERS] {
        for file in [&b""[..], b"c", b"cast\x01\0\0\0\0\0\0\0\xFF\0\0\0"] {
            Tables::new(&mut rng, length).agree(file);
        }
    }
}
