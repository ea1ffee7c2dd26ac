//! Every line of the rules: right, of other types and lengths, and missing.

use super::placed::{
    elements, full, index_of, minimal, name_of, numbers, placed, put, right, shuffled, with_line,
    LENGTH,
};
use super::Reads;
use crate::keep::ALL;
use corpus::format::{
    element_size, rule_of, rules, Holds, Rule, B, CURVE, D, F, KINDS, MESH, RULES, S, TYPES, V4,
};
use corpus::tree::{Node, Property};

pub fn add(reads: &mut Reads) {
    assert_eq!(RULES.len(), 81);
    for rule in RULES {
        reads.cases.leave_out();
        let node = shuffled(&mut reads.rng, with_line(rule));
        reads.right(&placed(node));
        add_types(reads, rule);
        add_lengths(reads, rule);
        add_missing(reads, rule);
        add_elsewhere(reads, rule);
    }
    for (kind, _) in KINDS {
        reads.cases.sweep(&format!("reads lines: {kind:08X}"), 1);
        add_full(reads, full(kind));
        add_full(reads, minimal(kind));
    }
}

/// In the order of the rules, in the reverse, and in some other.
fn add_full(reads: &mut Reads, mut node: Node) {
    reads.right(&placed(node.clone()));
    node.properties.reverse();
    reads.right(&placed(node.clone()));
    for _ in 0..2 {
        node = shuffled(&mut reads.rng, node);
        reads.right(&placed(node.clone()));
    }
}

/// A property of another type, with the value that the line wants where it takes the type.
fn of_type(rule: &Rule, code: u16) -> Property {
    let like = right(rule);
    let length = like.length as usize;
    let mut property = match like.code == code {
        true => like,
        false => elements(code, &name_of(rule), length),
    };
    if rule.name == "mi" && rule.types.contains(&code) {
        property.set_numbers(&[1]);
    }
    property
}

/// What kp must be for a kv of this type.
fn key_of(code: u16) -> &'static [u8] {
    match code {
        V4 => b"rq",
        F => b"tx",
        _ => b"vb",
    }
}

/// Every type. Where it is wrong, the links' targets may be missing.
fn add_types(reads: &mut Reads, rule: &Rule) {
    for code in TYPES {
        match rule.types.contains(&code) {
            true => reads.sweep_line("right types", rule, ALL),
            false => reads.sweep_line("other types", rule, 1),
        }
        let mut node = with_line(rule);
        put(&mut node, of_type(rule, code));
        if (rule.kind, rule.name) == (CURVE, "kv") {
            put(&mut node, Property::string("kp", key_of(code)));
        }
        let node = shuffled(&mut reads.rng, node);
        let index = index_of(&node, rule);
        let mut placed = placed(node);
        if rule.types.contains(&code) {
            reads.right(&placed);
        } else {
            placed.file.roots.truncate(1);
            reads.wrong(&placed, 13, index);
        }
    }
}

/// A single with other lengths, and an array that no other length binds.
fn add_lengths(reads: &mut Reads, rule: &Rule) {
    reads.cases.sweep("reads lines: lengths", 8);
    let free = matches!(rule.name, "ts" | "kb") && rule.kind != CURVE;
    for &code in rule.types.iter().filter(|code| **code != S) {
        let most = if element_size(code) == Some(1) {
            257
        } else {
            3
        };
        for length in [0, 1, 2, 3, most] {
            let mut node = with_line(rule);
            put(&mut node, elements(code, &name_of(rule), length));
            let node = shuffled(&mut reads.rng, node);
            let index = index_of(&node, rule);
            match rule.array {
                true if free => drop(reads.right(&placed(node))),
                false if length != 1 => reads.wrong(&placed(node), 13, index),
                _ => {}
            }
        }
    }
    if rule.types == [S] {
        let mut node = with_line(rule);
        let index = index_of(&node, rule);
        node.properties[index].length = *reads.rng.pick(&[0, 2, 0x101]);
        reads.wrong(&placed(node), 11, index);
    }
}

/// Without the line; with a name in its place that only begins like it, or that it only begins.
fn add_missing(reads: &mut Reads, rule: &Rule) {
    reads.sweep_line("missing", rule, 1);
    let node = with_line(rule);
    let index = index_of(&node, rule);
    let shorter = &rule.name[..rule.name.len() - 1];
    let mut names = vec![None];
    names.extend(["x", "0"].map(|more| Some([rule.name, more].concat())));
    names.extend((!shorter.is_empty()).then(|| Some(shorter.to_string())));
    let is_listed = |name: &str| rule_of(rule.kind, name.as_bytes()).is_some();
    names.retain(|name| !name.as_deref().is_some_and(is_listed));
    let is_partner = rule.kind == MESH && matches!(rule.name, "wb" | "wv");
    for name in names {
        let mut node = node.clone();
        match name {
            Some(name) => node.properties[index].name = name.into_bytes(),
            None => drop(node.properties.remove(index)),
        }
        let node = shuffled(&mut reads.rng, node);
        match rule.required || is_partner {
            true => reads.lacking(&placed(node)),
            false => drop(reads.right(&placed(node))),
        }
    }
}

/// The name with a type that no line takes, on kinds that do not list it.
fn add_elsewhere(reads: &mut Reads, rule: &Rule) {
    reads.cases.sweep("reads lines: elsewhere", 8);
    let name = name_of(rule);
    let mut kinds: Vec<u32> = KINDS.map(|kind| kind.0).to_vec();
    kinds.retain(|&kind| rule_of(kind, name.as_bytes()).is_none());
    for _ in 0..2 {
        let mut node = minimal(*reads.rng.pick(&kinds));
        let code = *reads.rng.pick(&[D, B, S]);
        node.properties.push(elements(code, &name, LENGTH));
        let node = shuffled(&mut reads.rng, node);
        reads.right(&placed(node));
    }
    // The right type of a link, and no node that has the hash.
    if let Holds::Link(_) = rule.holds {
        let mut node = minimal(*reads.rng.pick(&kinds));
        let before = rules(node.kind).filter(|rule| rule.required);
        let links = before.filter(|rule| matches!(rule.holds, Holds::Link(_)));
        let links = links.count() as u32;
        let mut property = right(rule);
        property.data = vec![0xEE; 8];
        node.properties.push(property);
        assert_eq!(reads.right(&placed(node)).links, links);
    }
    // The largest number that a type without sign has, where the line asks nothing of it.
    if matches!(rule.name, "cl" | "ul") {
        for &code in rule.types {
            let mut node = with_line(rule);
            put(&mut node, numbers(code, &name, &[u32::MAX]));
            reads.right(&placed(node));
        }
    }
}
