//! docs/ARCHITECTURE.md says where each refusal is decided: every number is there, and so is what it cites.

use docs::Repository;
use std::{collections::BTreeSet, fs, path::Path};

/// The section with the table of refusals.
fn section(root: &Path) -> String {
    let document =
        fs::read_to_string(root.join("docs/ARCHITECTURE.md")).expect("the document is there");
    let from = document
        .find("## Where each refusal is decided")
        .expect("the section is there");
    let (title, rest) = document[from..].split_at(2);
    let to = rest.find("\n## ").map_or(rest.len(), |to| to + 1);
    format!("{title}{}", &rest[..to])
}

/// The numbers of a table's first cell: single ones, and from one to another.
fn numbers(cell: &str) -> Vec<u32> {
    let number = |text: &str| text.trim().parse::<u32>().ok();
    let part = |part: &str| match part.split_once(" to ") {
        Some((from, to)) => (number(from).unwrap_or(1)..=number(to).unwrap_or(0)).collect(),
        None => number(part).into_iter().collect::<Vec<_>>(),
    };
    cell.split(',').flat_map(part).collect()
}

#[test]
fn every_refusal_is_in_the_table_once() {
    let root = Path::new(env!("CARGO_MANIFEST_DIR")).join("../..");
    let section = section(&root);
    let rows = section
        .lines()
        .filter_map(|line| line.strip_prefix('|')?.split('|').next());
    let told: Vec<u32> = rows.flat_map(numbers).collect();
    let all: BTreeSet<u32> = (1..=17)
        .chain(20..=26)
        .chain(30..=32)
        .chain(40..=43)
        .collect();
    assert_eq!(told.len(), all.len());
    assert_eq!(told.into_iter().collect::<BTreeSet<_>>(), all);
}

#[test]
fn what_the_table_cites_exists() {
    let root = Path::new(env!("CARGO_MANIFEST_DIR")).join("../..");
    let missing = Repository::at(&root).missing(&section(&root));
    assert!(missing.is_empty(), "{}", missing.join("\n"));
}
