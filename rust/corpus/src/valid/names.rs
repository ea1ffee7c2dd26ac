//! Property names.

use crate::format::{rule_of, MAX_NAME, RULES};
use crate::rng::Rng;
use crate::tree::Property;

/// Names that resemble listed ones.
const NEAR_MISSES: [&str; 30] = [
    "c",
    "c00",
    "c01",
    "c000",
    "c1000",
    "c1a",
    "c-1",
    "c 1",
    "c0 ",
    "u",
    "u00",
    "u010",
    "u1000",
    "u1x",
    "cu0",
    "extra",
    "extra00",
    "extra01",
    "extra1000",
    "extra0a",
    "vc",
    "v",
    "vpp",
    "w",
    "wbv",
    "ff",
    "name",
    "p0",
    "ks",
    "m ",
];

/// Bytes next to the barred ones, and others at the ends.
const EDGE_BYTES: [u8; 10] = [1, b' ', b'0', b'@', b'[', b'`', b'a', b'z', 0x7F, 0xFF];

/// A byte that a name may hold.
pub fn byte(rng: &mut Rng) -> u8 {
    loop {
        let byte = match rng.chance(30) {
            true => *rng.pick(&EDGE_BYTES),
            false => rng.byte(),
        };
        if byte != 0 && !byte.is_ascii_uppercase() {
            return byte;
        }
    }
}

/// Any name that a property can have, listed or not.
pub fn any(rng: &mut Rng) -> Vec<u8> {
    match rng.below(8) {
        0 | 1 => rng.pick(&NEAR_MISSES).as_bytes().to_vec(),
        2 | 3 => {
            let rule = rng.pick(RULES);
            match rule.numbered {
                true => numbered(rng, rule.name),
                false => rule.name.as_bytes().to_vec(),
            }
        }
        4 => (0..MAX_NAME).map(|_| byte(rng)).collect(),
        5 => vec![byte(rng)],
        _ => {
            let size = rng.range(1, MAX_NAME);
            (0..size).map(|_| byte(rng)).collect()
        }
    }
}

/// The prefix with a number of one to three digits.
pub fn numbered(rng: &mut Rng, prefix: &str) -> Vec<u8> {
    let number = match rng.chance(50) {
        true => *rng.pick(&[0, 1, 7, 9, 10, 99, 100, 999]),
        false => rng.below(1_000),
    };
    format!("{prefix}{number}").into_bytes()
}

pub fn is_taken(properties: &[Property], name: &[u8]) -> bool {
    properties.iter().any(|property| property.name == name)
}

/// A name that the kind does not list and the node does not have.
pub fn free(rng: &mut Rng, kind: u32, taken: &[Property]) -> Vec<u8> {
    loop {
        let name = any(rng);
        if rule_of(kind, &name).is_none() && !is_taken(taken, &name) {
            return name;
        }
    }
}
