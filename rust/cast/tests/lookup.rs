//! The proved lookup against the independent one.

use std::collections::BTreeMap;

use cast::{data, lookup, Found};
use corpus::format::{B, S};
use corpus::lookups::{self, Case};
use corpus::tree::{Node, Property};
use corpus::valid::{file, mixed, Profile};
use corpus::Rng;

const CASES: usize = 100_000;
/// Every answer comes at least this often.
const LEAST: usize = 1_000;

/// Compares both answers, and the data with the part of the bytes. Answers the number.
fn agree(case: &Case) -> u32 {
    let Case {
        bytes,
        table,
        row,
        name,
        ..
    } = case;
    let told = reference::lookup(bytes, table, *row, name);
    let told = Found {
        number: told.number,
        place: told.place,
        start: told.start,
        end: told.end,
    };
    assert_eq!(lookup(bytes, table, *row, name), told, "{case:?}");
    let part = match told.number {
        0 => Ok(&bytes[told.start..told.end]),
        _ => Err(told),
    };
    assert_eq!(data(bytes, table, *row, name), part, "{case:?}");
    told.number
}

#[test]
fn generated() {
    let mut rng = Rng::new(50);
    let mut census: BTreeMap<u32, usize> = BTreeMap::new();
    let mut left = CASES;
    while left > 0 {
        let file = match rng.chance(70) {
            true => file(&mut rng, &Profile::TINY),
            false => mixed(&mut rng),
        };
        for _ in 0..left.min(10) {
            let (_, mut case) = lookups::any(&mut rng, &file);
            for _ in 0..rng.below(4).saturating_sub(1) {
                lookups::change(&mut rng, &mut case);
            }
            *census.entry(agree(&case)).or_default() += 1;
            left -= 1;
        }
    }
    println!("{CASES} lookups by answer: {census:?}");
    for number in [0, 40, 41, 42, 43] {
        let count = census.get(&number).copied().unwrap_or(0);
        assert!(count >= LEAST, "{number} only {count} times");
    }
}

/// The body of these properties as a case of one row.
fn whole(properties: Vec<Property>, name: &[u8]) -> Case {
    let count = properties.len() as u32;
    let bytes = Node::with(0, properties, Vec::new()).bytes();
    Case {
        table: vec![0, 0, 0, 0, 24, bytes.len() as u32, count, 0],
        bytes,
        row: 0,
        name: name.to_vec(),
        answer: None,
    }
}

/// Strings of a few lengths and a long one, cut and closed early at every place or at some.
#[test]
fn strings() {
    for length in (0..140).chain([4_095, 1 << 16, 1 << 20]) {
        let text = vec![0xFF; length];
        let after = Property::new(B, b"z", 2, vec![0, 7]);
        let mut case = whole(vec![Property::string("n", &text), after], b"z");
        assert_eq!(agree(&case), 0);
        for back in 1..4 {
            let at = case.bytes.len() - 12 - back;
            let byte = std::mem::replace(&mut case.bytes[at], 0);
            agree(&case);
            case.bytes[at] = byte;
        }
        case.name = b"n".to_vec();
        assert_eq!(agree(&case), 0);
        let mut open = whole(vec![Property::new(S, b"n", 1, text)], b"n");
        assert_eq!(agree(&open), 42);
        open.table[6] = 0;
        assert_eq!(agree(&open), 42);
    }
}

/// Empty slices of every sort, and rows at the ends of the numbers.
#[test]
fn empty_and_far() {
    let rows = [0, 1, 1 << 29, 1 << 32, 1 << 61, usize::MAX / 8, usize::MAX];
    for table in [&[][..], &[0; 7], &[0; 8], &[u32::MAX; 9], &[0; 16]] {
        for bytes in [&b""[..], b"\0"] {
            for name in [&b""[..], b"n"] {
                for row in rows {
                    agree(&Case {
                        bytes: bytes.to_vec(),
                        table: table.to_vec(),
                        row,
                        name: name.to_vec(),
                        answer: None,
                    });
                }
            }
        }
    }
}
