//! Strings that are taken only from a list, and flags.

use super::placed::{elements, floats, index_of, placed, put, right, shuffled, with_line, LENGTH};
use super::Reads;
use corpus::format::{Holds, Rule, B, CURVE, RULES};
use corpus::tree::Property;

/// Strings of all lists, and some of none.
const STRINGS: [&str; 27] = [
    "",
    " ",
    "0",
    "x",
    "y",
    "z",
    "w",
    "xyz",
    "pt",
    "or",
    "sc",
    "os",
    "ot",
    "rq",
    "tx",
    "tz",
    "sx",
    "bs",
    "vb",
    "linear",
    "quaternion",
    "additive",
    "absolute",
    "relative",
    "\u{1}",
    "\u{ff}",
    "%d",
];

pub fn add(reads: &mut Reads) {
    for rule in RULES {
        match rule.holds {
            Holds::OneOf(strings) => add_strings(reads, rule, strings),
            Holds::Flag => add_flags(reads, rule),
            Holds::Any | Holds::Link(_) => {}
        }
    }
}

fn add_strings(reads: &mut Reads, rule: &Rule, strings: &[&str]) {
    reads.sweep_line("strings", rule, 4);
    let mut texts: Vec<Vec<u8>> = STRINGS.map(|text| text.as_bytes().to_vec()).to_vec();
    for text in strings {
        let bytes = text.as_bytes();
        texts.push(bytes.to_vec());
        texts.push(bytes[..bytes.len() - 1].to_vec());
        texts.push(bytes[1..].to_vec());
        texts.push([bytes, b" "].concat());
        texts.push([bytes, bytes].concat());
        texts.push([bytes, &bytes[bytes.len() - 1..]].concat());
        texts.push(bytes.to_ascii_uppercase());
        texts.push([&bytes[..1].to_ascii_uppercase(), &bytes[1..]].concat());
        for bit in [0, 5, 7] {
            let mut flipped = bytes.to_vec();
            flipped[bytes.len() - 1] ^= 1 << bit;
            texts.push(flipped);
        }
    }
    texts.sort_unstable();
    texts.dedup();
    for text in texts {
        let mut property = right(rule);
        property.set_text(&text);
        let mut node = with_line(rule);
        put(&mut node, property);
        if (rule.kind, rule.name) == (CURVE, "kp") {
            let kv = match &text[..] {
                b"rq" => continue,
                b"vb" => elements(B, "kv", LENGTH),
                _ => floats("kv", LENGTH),
            };
            put(&mut node, kv);
        }
        let node = shuffled(&mut reads.rng, node);
        let index = index_of(&node, rule);
        match strings.iter().any(|string| string.as_bytes() == text) {
            true => drop(reads.right(&placed(node))),
            false => reads.wrong(&placed(node), 15, index),
        }
    }
    // On a line without a list any string is right.
    let mut node = with_line(rule);
    node.properties.push(Property::string("any", b"\xFF\x01"));
    reads.right(&placed(node));
}

fn add_flags(reads: &mut Reads, rule: &Rule) {
    reads.sweep_line("flags", rule, 1);
    for value in [0, 1, 2, 3, 127, 128, 129, 254, 255] {
        let mut property = right(rule);
        property.data = vec![value];
        let mut node = with_line(rule);
        put(&mut node, property);
        let node = shuffled(&mut reads.rng, node);
        let index = index_of(&node, rule);
        match value {
            0 | 1 => drop(reads.right(&placed(node))),
            _ => reads.wrong(&placed(node), 15, index),
        }
    }
}
