//! The program's listing.

use crate::read::{own_bytes, read};
use crate::table::{KIND, NO_PARENT, PARENT, ROW, TABLE_NUMBERS};
use crate::walk::FILE_HEADER;
use std::fmt::Write;

const MAX_INPUT: usize = 32_768;

/// What the program prints for these bytes of standard input.
pub fn listing(input: &[u8]) -> Vec<u8> {
    let mut text = String::new();
    // Writing to a string does not fail.
    let _ = list(input, &mut text);
    text.into_bytes()
}

fn list(input: &[u8], text: &mut String) -> std::fmt::Result {
    if input.len() > MAX_INPUT {
        return writeln!(text, "too long");
    }
    let mut table = [0; TABLE_NUMBERS];
    let reading = read(input, &mut table);
    if reading.number != 0 {
        return writeln!(text, "refused {} at {}", reading.number, reading.place);
    }
    writeln!(
        text,
        "cast 1 flags {} nodes {} bytes {}",
        reading.flags,
        reading.nodes,
        input.len()
    )?;
    let rows = table.chunks_exact(ROW).take(reading.nodes as usize);
    for (index, row) in rows.enumerate() {
        write!(text, "row {} kind {:08X} parent ", index, row[KIND])?;
        match row[PARENT] {
            NO_PARENT => text.push('-'),
            parent => write!(text, "{parent}")?,
        }
        writeln!(text, " own {}", own_bytes(row))?;
    }
    writeln!(text, "header {FILE_HEADER}")?;
    writeln!(
        text,
        "faces {} degenerate {}",
        reading.faces, reading.degenerate
    )?;
    let total = FILE_HEADER as u32 + reading.own_known + reading.own_unknown;
    writeln!(text, "total {total}")
}
