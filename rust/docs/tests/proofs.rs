//! What docs/PROOFS.md cites exists, and what does not exist is found.

use docs::Repository;
use std::{
    fs,
    path::{Path, PathBuf},
};

fn root() -> PathBuf {
    Path::new(env!("CARGO_MANIFEST_DIR")).join("../..")
}

fn document() -> String {
    fs::read_to_string(root().join("docs/PROOFS.md")).expect("the document is there")
}

#[test]
fn what_the_document_cites_exists() {
    let missing = Repository::at(&root()).missing(&document());
    assert!(missing.is_empty(), "{}", missing.join("\n"));
}

#[test]
fn each_citation_of_the_document_is_looked_at() {
    let document = document();
    let pieces = document.split('`').enumerate();
    let (mut cited, mut wrong) = (0, String::new());
    for (i, piece) in pieces {
        if i % 2 == 1 {
            cited += 1;
            wrong += &format!("`nowhere_{piece}`");
        } else {
            wrong += piece;
        }
    }
    println!("{cited} citations");
    assert!(cited > 500, "it cites much");
    assert_eq!(Repository::at(&root()).missing(&wrong).len(), cited);
}

/// The places and reasons of what a document with one section, of the crate `le`, cites and is not there.
fn missing(cites: &str) -> Vec<String> {
    Repository::at(&root()).missing(&format!("### le, made up\n\n{cites}\n"))
}

#[test]
fn what_exists_is_found() {
    let cites = [
        "`number_at`, `AreBytes` (`specs/Le.antt`), `proofs/Laws.antt`, `crates/walk/specs`, `Le.antt`",
        "`r ≡ number_at 2 bytes at`, `u16_at`, `val_le`, `trimmer::trim` (**gate**, `high_byte_first`)",
    ];
    assert_eq!(missing(&cites.join("\n")), Vec::<String>::new());
}

#[test]
fn what_does_not_exist_is_told() {
    for (cites, told) in [
        (
            "`number_at`, `number_att`",
            "line 3: `number_att`: nothing declares `number_att`",
        ),
        (
            "`r ≡ number_off 2 bytes at`",
            "line 3: `r ≡ number_off 2 bytes at`: nothing declares `number_off`",
        ),
        (
            "\n`trimmer::trimm`",
            "line 4: `trimmer::trimm`: nothing declares `trimm`",
        ),
        (
            "`specs/Le.antt`, `specs/Lee.antt`",
            "line 3: `specs/Lee.antt`: no such file or folder",
        ),
        (
            "`crates/lee/specs`",
            "line 3: `crates/lee/specs`: no such file or folder",
        ),
        (
            "`val_le`, `le` (`specs/Le.antt`)",
            "line 3: `specs/Le.antt`: `val_le` is not there",
        ),
        (
            "(**gate**, `header_free`)",
            "line 3: `header_free`: no such must-fail edit of this crate",
        ),
    ] {
        assert_eq!(missing(cites), [told]);
    }
}
