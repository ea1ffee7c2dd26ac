//! Arrays that are as long as another, and the types of a Curve's kv.

use super::placed::{elements, minimal, placed, put, shuffled, LENGTH};
use super::Reads;
use corpus::format::{
    rule_of, Holds, B, BLEND_SHAPE, CURVE, D, F, H, I, L, NOTIFICATION_TRACK, S, V2, V3, V4,
};
use corpus::tree::{Node, Property};

/// Values of kp that are in no list.
const UNLISTED: [&str; 9] = ["", "r", "q", "rqq", "RQ", "vB", "v", "t", "kv"];

pub fn add(reads: &mut Reads) {
    add_lengths(reads);
    add_keys(reads);
    add_types(reads);
}

/// Lengths of two arrays, in either order; unequal ones lie at the second of the names.
fn add_lengths(reads: &mut Reads) {
    reads.cases.sweep("reads curves: lengths", 6);
    for (kind, left, right, code) in [(BLEND_SHAPE, "vi", "vp", V3), (CURVE, "kb", "kv", V4)] {
        for lengths in 0..16 {
            let (first, second) = (lengths / 4, lengths % 4);
            for other in [B, H, I] {
                let mut node = minimal(kind);
                put(&mut node, elements(other, left, first));
                put(&mut node, elements(code, right, second));
                let node = shuffled(&mut reads.rng, node);
                let index = node.position(right).expect("it was put");
                match first == second {
                    true => drop(reads.right(&placed(node))),
                    false => reads.wrong(&placed(node), 15, index),
                }
            }
        }
        // Equal in the lowest byte alone, and in bytes instead of elements.
        for (first, second) in [(257, 1), (0, 256), (24, 2), (12, 1), (16, 1)] {
            let mut node = minimal(kind);
            put(&mut node, elements(B, left, first));
            put(&mut node, elements(code, right, second));
            let index = node.position(right).expect("it was put");
            reads.wrong(&placed(node), 15, index);
        }
    }
    for length in 0..4 {
        let mut node = minimal(NOTIFICATION_TRACK);
        put(&mut node, elements(H, "kb", length));
        node.properties.push(elements(D, "kv", length + 1));
        reads.right(&placed(node));
        let mut node = minimal(BLEND_SHAPE);
        node.properties.push(elements(F, "ts", length));
        reads.right(&placed(node));
    }
}

/// The keys that kp may name.
fn listed() -> &'static [&'static str] {
    match rule_of(CURVE, b"kp").map(|rule| rule.holds) {
        Some(Holds::OneOf(keys)) => keys,
        _ => panic!("kp is taken from a list"),
    }
}

/// A Curve with this kp and a kv of this type, one before the other.
fn curve(kp: &str, code: u16, length: usize, key_first: bool) -> Node {
    let mut node = minimal(CURVE);
    put(&mut node, Property::string("kp", kp.as_bytes()));
    put(&mut node, elements(code, "kv", length));
    let (key, values) = (node.position("kp"), node.position("kv"));
    let (key, values) = (key.expect("it was put"), values.expect("it was put"));
    if (key < values) != key_first {
        node.properties.swap(key, values);
    }
    node
}

/// Every kp with every type of kv, in either order; then with a length that is wrong besides.
fn add_keys(reads: &mut Reads) {
    reads.cases.sweep("reads curves: keys", 12);
    for kp in listed().iter().chain(&UNLISTED) {
        for code in [B, H, I, F, V4] {
            for key_first in [false, true] {
                let length = if reads.rng.chance(75) { LENGTH } else { 1 };
                let node = curve(kp, code, length, key_first);
                let wanted: &[u16] = match *kp {
                    "rq" => &[V4],
                    "vb" => &[B, H, I],
                    _ => &[F],
                };
                let key_wrong = !listed().contains(kp);
                let values_wrong = !wanted.contains(&code) || length != LENGTH;
                let at = match (key_wrong, values_wrong) {
                    (false, false) => None,
                    (true, false) => Some("kp"),
                    (false, true) => Some("kv"),
                    (true, true) if key_first => Some("kp"),
                    (true, true) => Some("kv"),
                };
                match at.and_then(|name| node.position(name)) {
                    None => drop(reads.right(&placed(node))),
                    Some(index) => reads.wrong(&placed(node), 15, index),
                }
            }
        }
    }
}

/// Types that no kp wants are 13, whatever kp is; so is a kp that is no string.
fn add_types(reads: &mut Reads) {
    reads.cases.sweep("reads curves: types", 6);
    for code in [L, D, V2, V3, S] {
        for kp in ["rq", "vb", "tx", "xx"] {
            for key_first in [false, true] {
                let node = curve(kp, code, LENGTH, key_first);
                let index = node.position("kv").expect("it was put");
                reads.wrong(&placed(node), 13, index);
            }
        }
    }
    for code in [B, F, V4] {
        let mut node = curve("rq", code, LENGTH, true);
        put(&mut node, elements(B, "kp", 1));
        let index = node.position("kp").expect("it was put");
        reads.wrong(&placed(node.clone()), 13, index);
        node.properties.remove(index);
        reads.lacking(&placed(node));
    }
    // An empty kv has a type as well.
    for (code, right) in [(V4, true), (F, false), (B, false)] {
        let mut node = curve("rq", code, 0, true);
        put(&mut node, elements(I, "kb", 0));
        let index = node.position("kv").expect("it was put");
        match right {
            true => drop(reads.right(&placed(node))),
            false => reads.wrong(&placed(node), 15, index),
        }
    }
}
