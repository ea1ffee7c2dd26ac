//! Names with a number after them, listed and nearly.

use super::placed::{elements, hash_of, minimal, placed, shuffled};
use super::Reads;
use corpus::format::{B, D, FILE, I, KINDS, L, MATERIAL, MESH, S, V2};
use corpus::tree::Property;

const LISTED: [&str; 12] = [
    "0", "1", "7", "9", "10", "19", "90", "99", "100", "305", "990", "999",
];

const FREE: [&str; 29] = [
    "",
    "00",
    "01",
    "09",
    "000",
    "001",
    "010",
    "099",
    "0000",
    "1000",
    "1234",
    "9999",
    "0999",
    "1a",
    "a1",
    "a",
    "1 ",
    " 1",
    "-1",
    "+1",
    "1.",
    "/",
    ":",
    "1/",
    "12:",
    "1/2",
    "l0",
    "\u{b2}",
    "999999999999",
];

/// Prefixes of numbered names on their kinds, with their types.
const LINES: [(u32, &str, u16); 3] = [(MESH, "c", I), (MESH, "u", V2), (MATERIAL, "extra", L)];

pub fn add(reads: &mut Reads) {
    for (kind, prefix, code) in LINES {
        for end in LISTED {
            add_listed(reads, kind, &format!("{prefix}{end}"), code);
        }
        for end in FREE {
            add_free(reads, kind, &format!("{prefix}{end}"));
        }
        for name in [
            "0", "10", "cc1", "uc1", "1c", "1u", "0extra", "extr0", "extrb0",
        ] {
            add_free(reads, kind, name);
        }
        for (other, _) in KINDS {
            if other != kind {
                add_free(reads, other, &format!("{prefix}0"));
            }
        }
    }
    // Lines of their own, not numbers.
    for name in ["cl", "ul"] {
        let mut node = minimal(MESH);
        node.properties.push(elements(B, name, 1));
        reads.right(&placed(node.clone()));
        node.properties[2] = elements(B, name, 2);
        reads.wrong(&placed(node), 13, 2);
    }
    add_many(reads);
}

fn add_listed(reads: &mut Reads, kind: u32, name: &str, code: u16) {
    reads.cases.sweep("reads names: listed", 6);
    let length = if code == L { 1 } else { 2 };
    let mut property = elements(code, name, length);
    if code == L {
        property.data = hash_of(FILE).to_le_bytes().to_vec();
    }
    let mut node = minimal(kind);
    node.properties.insert(1, property.clone());
    reads.right(&placed(node.clone()));
    node.properties[1] = elements(D, name, length);
    reads.wrong(&placed(node.clone()), 13, 1);
    node.properties[1] = elements(code, name, length + 1);
    let number = if code == L { 13 } else { 15 };
    reads.wrong(&placed(node.clone()), number, 1);
    // A link to no node.
    if code == L {
        property.data[7] ^= 1;
        node.properties[1] = property;
        let mut dangling = placed(node);
        dangling.file.roots.truncate(1);
        reads.wrong(&dangling, 16, 1);
    }
}

fn add_free(reads: &mut Reads, kind: u32, name: &str) {
    reads.cases.sweep("reads names: free", 16);
    for code in [L, *reads.rng.pick(&[B, D, I, S, V2])] {
        let mut node = minimal(kind);
        node.properties.push(elements(code, name, 1));
        let node = shuffled(&mut reads.rng, node);
        reads.right(&placed(node));
    }
}

/// As many numbered names as a node may have, and one of them a second time.
fn add_many(reads: &mut Reads) {
    reads.cases.sweep("reads names: many", 1);
    let mut node = minimal(MATERIAL);
    for number in 0..62 {
        let data = hash_of(FILE).to_le_bytes().to_vec();
        node.properties
            .push(Property::array(L, &format!("extra{number}"), data));
    }
    assert_eq!(reads.right(&placed(node.clone())).links, 62);
    for twice in [0, 1, 10, 60] {
        let mut node = node.clone();
        node.properties[63].name = format!("extra{twice}").into_bytes();
        reads.wrong(&placed(node), 13, 63);
    }
    node.properties[63].name = b"extra00".to_vec();
    assert_eq!(reads.right(&placed(node)).links, 61);
}
