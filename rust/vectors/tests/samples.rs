//! The committed samples, and what the program castlist reads and prints, are those that the command makes.

use std::collections::BTreeSet;
use std::{fs, path::Path};

#[test]
fn the_committed_samples_are_current() {
    let project = Path::new(env!("CARGO_MANIFEST_DIR")).join("../..");
    let mut made = BTreeSet::new();
    for (path, bytes) in vectors::samples::make() {
        let committed = fs::read(project.join(&path));
        let committed = committed.unwrap_or_else(|error| panic!("{path}: {error}"));
        assert!(
            committed == bytes,
            "{path} is not what `cargo run --release -p vectors --bin samples` makes"
        );
        assert!(made.insert(path), "two samples of one name");
    }
    println!("{} files", made.len());
    for entry in fs::read_dir(project.join("samples")).expect("the folder is there") {
        let name = entry.expect("an entry").file_name();
        let path = format!("samples/{}", name.to_string_lossy());
        if path.ends_with(".cast") || path.ends_with(".listing") {
            assert!(made.contains(&path), "{path} is made by no command");
        }
    }
}
