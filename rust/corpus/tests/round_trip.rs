//! Writing what was read, and reading what was written.

mod common;

use common::{accepted, accepted_as, body, hex, placeless, BLANK};
use corpus::plans::{self, Case};
use corpus::rng::Rng;
use corpus::rows::rows;
use corpus::valid::{file, mixed, Profile};

/// Writes into an output with `more` bytes than the case's room.
fn write(case: &Case, more: usize) -> Vec<u8> {
    let mut out = vec![BLANK; case.room + more];
    let written = reference::write(&case.plan, &case.source, case.flags, &mut out);
    assert_eq!((written.number, written.place), (0, 0));
    let length = written.length as usize;
    assert!(out[length..].iter().all(|byte| *byte == BLANK));
    out.truncate(length);
    out
}

#[test]
fn a_read_file_is_written_again() {
    let mut rng = Rng::new(11);
    for _ in 0..5_000 {
        let (bytes, table) = accepted_as(&mixed(&mut rng));
        let case = plans::same(&table, &bytes);
        assert!(write(&case, 0) == bytes, "{}", hex(&bytes));
        assert!(write(&case, 9) == bytes, "{}", hex(&bytes));
    }
}

#[test]
fn a_reordered_plan_is_read_again() {
    let mut rng = Rng::new(12);
    let mut differ = 0;
    for _ in 0..5_000 {
        let (bytes, table) = accepted_as(&file(&mut rng, &Profile::SMALL));
        let case = plans::reordered(&mut rng, &table, &bytes);
        let out = write(&case, 3);
        let (_, new) = accepted(&out);
        let plan = rows(&case.plan, 1_024);
        assert_eq!(placeless(&new), placeless(&plan));
        let bodies = plan.iter().zip(&new);
        for (planned, read) in bodies {
            assert_eq!(body(&bytes, planned), body(&out, read));
        }
        differ += usize::from(out != bytes);
    }
    println!("{differ} of 5000 reordered files differ from the first");
    assert!(differ > 3_000);
}

#[test]
fn listings_add_up() {
    let mut rng = Rng::new(13);
    for _ in 0..3_000 {
        let file = mixed(&mut rng);
        let encoded = file.encode();
        let length = encoded.bytes.len();
        let text = reference::listing(&encoded.bytes);
        if length > 32_768 {
            assert_eq!(text, b"too long\n");
            continue;
        }
        let told = corpus::expect::expected(&file, &encoded);
        let count = told.rows.len();
        let mut lines = format!("cast 1 flags {} nodes {count} bytes {length}\n", told.flags);
        for (number, row) in told.rows.iter().enumerate() {
            let parent = match row.parent {
                u32::MAX => "-".to_string(),
                parent => parent.to_string(),
            };
            let own = 24 + row.end - row.start;
            let kind = row.kind;
            lines += &format!("row {number} kind {kind:08X} parent {parent} own {own}\n");
        }
        let (faces, degenerate) = (told.faces, told.degenerate);
        lines += &format!("header 16\nfaces {faces} degenerate {degenerate}\ntotal {length}\n");
        assert_eq!(String::from_utf8_lossy(&text), lines);
    }
}
