//! Each file of samples/ has its listing beside it, and a worked file's listing is what the rules tell.

use std::fs;
use std::path::{Path, PathBuf};

/// The worked files by name, with their listings.
const WORKED: [(&str, &str); 13] = [
    (
        "e1",
        "cast 1 flags 0 nodes 0 bytes 16\n\
         header 16\n\
         faces 0 degenerate 0\n\
         total 16\n",
    ),
    ("e2", "refused 3 at 0\n"),
    (
        "e3",
        "cast 1 flags 0 nodes 1 bytes 40\n\
         row 0 kind 746F6F72 parent - own 24\n\
         header 16\n\
         faces 0 degenerate 0\n\
         total 40\n",
    ),
    ("e4", "refused 5 at 16\n"),
    ("e5", "refused 12 at 40\n"),
    ("e6", "refused 12 at 40\n"),
    ("e7", "refused 5 at 16\n"),
    ("e8", "refused 6 at 16\n"),
    ("e9", "refused 4 at 4\n"),
    (
        "e10",
        "cast 1 flags 0 nodes 2 bytes 67\n\
         row 0 kind 746F6F72 parent - own 24\n\
         row 1 kind 6E676177 parent 0 own 27\n\
         header 16\n\
         faces 0 degenerate 0\n\
         total 67\n",
    ),
    (
        "e11",
        "cast 1 flags 0 nodes 3 bytes 146\n\
         row 0 kind 746F6F72 parent - own 24\n\
         row 1 kind 6C646F6D parent 0 own 24\n\
         row 2 kind 6873656D parent 1 own 82\n\
         header 16\n\
         faces 1 degenerate 0\n\
         total 146\n",
    ),
    (
        "e11_degenerate",
        "cast 1 flags 0 nodes 3 bytes 146\n\
         row 0 kind 746F6F72 parent - own 24\n\
         row 1 kind 6C646F6D parent 0 own 24\n\
         row 2 kind 6873656D parent 1 own 82\n\
         header 16\n\
         faces 1 degenerate 1\n\
         total 146\n",
    ),
    ("e12", "refused 15 at 134\n"),
];

fn samples() -> PathBuf {
    Path::new(env!("CARGO_MANIFEST_DIR")).join("../../samples")
}

#[test]
fn each_sample_lists_as_the_file_beside_it() {
    let mut seen = 0;
    for entry in fs::read_dir(samples()).expect("the folder is there") {
        let path = entry.expect("an entry").path();
        if path.extension().is_some_and(|end| end == "cast") {
            let file = fs::read(&path).expect("the sample is there");
            let listing = fs::read(path.with_extension("listing")).expect("its listing is there");
            assert_eq!(reference::listing(&file), listing, "{}", path.display());
            seen += 1;
        }
    }
    println!("{seen} samples");
    assert!(seen > WORKED.len());
}

#[test]
fn worked_samples_list_as_the_rules_tell() {
    for (name, told) in WORKED {
        let path = samples().join(name).with_extension("listing");
        let listing = fs::read_to_string(path).expect("the listing is there");
        assert_eq!(listing, told, "{name}");
    }
}
