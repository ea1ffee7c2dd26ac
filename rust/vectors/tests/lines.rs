//! Every line of the rules is among the kept cases: accepted with each of its types, and refused.

mod common;

use common::{cases, Case};
use corpus::format::{rule_of, Holds, Rule, KINDS, MESH, RULES};
use corpus::rows::Row;
use reference::step;
use std::collections::BTreeSet;
use vectors::function::READ;

/// A line by kind and name, and a type or a refusal.
type Shown = BTreeSet<(u32, &'static str, u64)>;

/// The listed properties of a row that start at this place or at any: their lines and types.
fn listed(case: &Case, row: &Row, place: Option<usize>) -> Vec<(&'static Rule, u16)> {
    let body = &case.first[row.start as usize..row.end as usize];
    let mut found = Vec::new();
    let mut at = 0;
    for _ in 0..row.properties {
        let property = step(body, at);
        let name = &body[property.name.0..property.name.1];
        let code = u16::from_le_bytes([body[at], body[at + 1]]);
        let wanted = place.is_none_or(|place| place == row.start as usize + at);
        found.extend(
            rule_of(row.kind, name)
                .filter(|_| wanted)
                .map(|rule| (rule, code)),
        );
        at = property.next;
    }
    found
}

/// What the kept readings show: lines with types where they are accepted, and with numbers where they are refused.
fn shown() -> (Shown, Shown) {
    let (mut right, mut wrong) = (Shown::new(), Shown::new());
    let readings = cases(&vectors::make());
    for case in readings.iter().filter(|case| case.function == READ) {
        let (number, place) = case.refusal();
        for row in case.rows().iter().filter(|row| row.is_known()) {
            let place = (number != 0).then_some(place as usize);
            for (rule, code) in listed(case, row, place) {
                match number {
                    0 => right.insert((rule.kind, rule.name, code.into())),
                    _ => wrong.insert((rule.kind, rule.name, number)),
                };
            }
        }
    }
    (right, wrong)
}

#[test]
fn every_line_is_among_the_kept_cases() {
    let (right, wrong) = shown();
    println!(
        "{} lines and types, {} lines and refusals",
        right.len(),
        wrong.len()
    );
    for rule in RULES {
        for &code in rule.types {
            let line = (rule.kind, rule.name, code.into());
            assert!(right.contains(&line), "{line:X?} is not accepted");
        }
        let numbers: &[u64] = match rule.holds {
            Holds::Link(_) => &[13, 16, 17],
            Holds::OneOf(_) | Holds::Flag => &[13, 15],
            Holds::Any => &[13],
        };
        for &number in numbers {
            let line = (rule.kind, rule.name, number);
            assert!(wrong.contains(&line), "{line:X?} is not refused");
        }
    }
    for name in ["f", "vn", "vt", "c", "u", "wb", "wv"] {
        assert!(wrong.contains(&(MESH, name, 15)), "{name} is not refused");
    }
}

#[test]
fn every_kind_that_requires_something_lacks_it() {
    let readings = cases(&vectors::make());
    let mut lacking = BTreeSet::new();
    for case in readings.iter().filter(|case| case.function == READ) {
        if let (14, place) = case.refusal() {
            let rows = case.rows();
            let row = rows.iter().find(|row| u64::from(row.start) == place + 24);
            lacking.insert(row.expect("14 is at a node's header").kind);
        }
    }
    for (kind, _) in KINDS {
        let requires = RULES.iter().any(|rule| rule.kind == kind && rule.required);
        assert_eq!(lacking.contains(&kind), requires, "{kind:08X}");
    }
}
