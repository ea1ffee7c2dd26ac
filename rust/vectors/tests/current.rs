//! The committed cases and answers are those that the command makes.

use std::{fs, path::Path};

/// The most bytes of both files, 1 MiB.
const MOST: usize = 1 << 20;

#[test]
fn the_committed_cases_are_current() {
    let program = Path::new(env!("CARGO_MANIFEST_DIR")).join("../../crates/vectors");
    let made = vectors::make();
    println!(
        "{} cases, {} bytes in, {} bytes out",
        made.cases,
        made.stdin.len(),
        made.stdout.len()
    );
    assert!(
        made.stdin.len() + made.stdout.len() <= MOST,
        "the cases are written anew with every change: thin them"
    );
    for (name, bytes) in [("stdin", &made.stdin), ("stdout", &made.stdout)] {
        let committed = fs::read(program.join(name)).expect("the file is there");
        assert!(
            committed == *bytes,
            "{name} is not what `cargo run --release -p vectors` makes"
        );
    }
}
