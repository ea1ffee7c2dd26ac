//! Names: their bytes, their equality and their numbers.

use crate::frame::{Case, Cases};
use crate::function::{NAME_OK, NUMBERED, SAME};
use crate::keep::ALL;
use corpus::valid::names;
use corpus::Rng;
use reference::{name_ok, numbered};

/// Bytes at the ends of what a name may hold.
const EDGES: [u8; 9] = [0x00, 0x01, 0x40, 0x41, 0x5A, 0x5B, 0x60, 0x7B, 0xFF];

pub fn add(cases: &mut Cases) {
    let mut rng = cases.rng(11);
    add_bytes(cases, &mut rng);
    add_pairs(cases, &mut rng);
    add_numbered(cases, &mut rng);
}

/// A name of this length that may stand.
fn good(rng: &mut Rng, len: usize) -> Vec<u8> {
    (0..len).map(|_| names::byte(rng)).collect()
}

fn add_name(cases: &mut Cases, name: &[u8]) {
    let case = Case {
        function: NAME_OK,
        first: name,
        ..Case::default()
    };
    cases.add(&case, &[name_ok(name).into()]);
}

fn add_bytes(cases: &mut Cases, rng: &mut Rng) {
    cases.sweep("names: bytes", 20);
    for len in 0..=40 {
        add_name(cases, &good(rng, len));
    }
    cases.sweep("names: one byte", 12);
    for byte in 0..=255 {
        add_name(cases, &[byte]);
    }
    cases.sweep("names: edges", 24);
    for at in 0..33 {
        for byte in EDGES {
            let len = *rng.pick(&[at + 1, 31, 32, 33]);
            let mut name = good(rng, len.max(at + 1));
            name[at] = byte;
            add_name(cases, &name);
        }
    }
    cases.sweep("names: drawn", 6);
    for _ in 0..cases.draws(100) {
        let len = rng.below(40);
        let mut name = good(rng, len);
        for _ in 0..rng.below(3) {
            if let Some(byte) = name.get_mut(rng.below(len)) {
                *byte = rng.byte();
            }
        }
        add_name(cases, &name);
    }
    cases.sweep("names: long", ALL);
    for len in [255, 256, 257, 288] {
        add_name(cases, &vec![b'a'; len]);
    }
}

fn add_pair(cases: &mut Cases, first: &[u8], second: &[u8]) {
    let case = Case {
        function: SAME,
        first,
        second,
        ..Case::default()
    };
    cases.add(&case, &[(first == second).into()]);
}

fn add_pairs(cases: &mut Cases, rng: &mut Rng) {
    cases.sweep("names: pairs", 30);
    for len in 0..=40 {
        let name = rng.bytes(len);
        add_pair(cases, &name, &name);
        let mut longer = name.clone();
        longer.push(*rng.pick(&[0, b'a']));
        add_pair(cases, &name, &longer);
        add_pair(cases, &longer, &name);
        add_pair(cases, &name, &[]);
        add_pair(cases, &[], &name);
    }
    for len in [1, 2, 7, 8, 9, 32] {
        for at in 0..len {
            let name = rng.bytes(len);
            let mut other = name.clone();
            other[at] ^= 1 << rng.below(8);
            add_pair(cases, &name, &other);
            add_pair(cases, &name[..at], &name);
            add_pair(cases, &name[at..], &name);
        }
    }
}

fn add_number(cases: &mut Cases, prefix: &[u8], name: &[u8]) {
    let case = Case {
        function: NUMBERED,
        first: name,
        second: prefix,
        ..Case::default()
    };
    let answer = match numbered(prefix, name) {
        Some(number) => [1, number.into()],
        None => [0, 0],
    };
    cases.add(&case, &answer);
}

fn add_numbered(cases: &mut Cases, rng: &mut Rng) {
    cases.sweep("names: numbered", 40);
    const ENDS: [&str; 41] = [
        "",
        "0",
        "1",
        "9",
        "00",
        "01",
        "09",
        "10",
        "19",
        "90",
        "99",
        "000",
        "001",
        "010",
        "099",
        "100",
        "101",
        "109",
        "190",
        "199",
        "900",
        "909",
        "998",
        "999",
        "1000",
        "0999",
        "9999",
        "99999999999",
        "/",
        ":",
        "1/",
        "1:",
        "/1",
        ":1",
        "12/",
        "12:",
        "1/2",
        "1:2",
        "1a",
        " 1",
        "1 ",
    ];
    const PREFIXES: [&str; 6] = ["c", "u", "extra", "", "v", "extr"];
    for prefix in PREFIXES {
        for end in ENDS {
            add_number(
                cases,
                prefix.as_bytes(),
                format!("{prefix}{end}").as_bytes(),
            );
        }
    }
    for prefix in PREFIXES {
        for name in [
            "", "c", "e", "ext", "d1", "C1", "cc1", "extrb1", "1", "c\0", "c1\0",
        ] {
            add_number(cases, prefix.as_bytes(), name.as_bytes());
        }
    }
    cases.sweep("names: drawn numbers", 8);
    for _ in 0..cases.draws(100) {
        let prefix = rng.pick(&PREFIXES).as_bytes();
        let mut name = prefix.to_vec();
        for _ in 0..rng.below(5) {
            name.push(rng.range(b'/'.into(), b':'.into()) as u8);
        }
        if let (true, Some(byte)) = (rng.chance(20), name.get_mut(rng.below(3))) {
            *byte = rng.byte();
        }
        add_number(cases, prefix, &name);
    }
}
