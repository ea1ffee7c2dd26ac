//! The trimmer: the reader's refusals and 30 to 32.

use crate::bytes::u32_at;
use crate::kinds::known;
use crate::read::{own_bytes, read};
use crate::table::*;
use crate::walk::{node_start, CHILDREN_OFFSET, SIZE_OFFSET};
use crate::writer::Written;

/// Writes the file without one unknown node. On success the table holds the rows of the new file;
/// on refusal it is as the reader leaves it then, and `out` as it was.
pub fn trim(file: &[u8], row: usize, table: &mut [u32], out: &mut [u8]) -> Written {
    let reading = read(file, table);
    if reading.number != 0 {
        return Written::refused(reading.number, reading.place);
    }
    let rows = &mut table[..reading.nodes as usize * ROW];
    match trim_rows(file, row, rows, out) {
        Ok(length) => Written {
            number: 0,
            place: 0,
            length: length as u32,
        },
        Err(number) => {
            clear(table);
            Written::refused(number, 0)
        }
    }
}

/// The same, given the file's rows.
fn trim_rows(file: &[u8], index: usize, rows: &mut [u32], out: &mut [u8]) -> Result<usize, u32> {
    let Some(row) = rows.chunks_exact(ROW).nth(index) else {
        return Err(30);
    };
    if known(row[KIND]) {
        return Err(31);
    }
    let start = node_start(row);
    let end = row[BODY_END] as usize;
    let length = file.len() - (end - start);
    let Some(out) = out.get_mut(..length) else {
        return Err(32);
    };
    out[..start].copy_from_slice(&file[..start]);
    out[start..].copy_from_slice(&file[end..]);
    mend_headers(rows, index, out);
    remove_row(rows, index);
    Ok(length)
}

/// Lowers the sizes around the removed node and its parent's child count, in the output. All these
/// headers lie before it, where they were in the file.
fn mend_headers(rows: &[u32], index: usize, out: &mut [u8]) {
    let removed = own_bytes(&rows[index * ROW..][..ROW]);
    let mut lower = |at: usize, by: u32| {
        let value = u32_at(out, at) - by;
        out[at..at + 4].copy_from_slice(&value.to_le_bytes());
    };
    let parent = rows[index * ROW + PARENT] as usize;
    lower(node_start(&rows[parent * ROW..]) + CHILDREN_OFFSET, 1);
    let mut around = parent;
    loop {
        lower(node_start(&rows[around * ROW..]) + SIZE_OFFSET, removed);
        match rows[around * ROW + PARENT] {
            NO_PARENT => return,
            above => around = above as usize,
        }
    }
}

/// Takes a row out, moves the later ones up and leaves zeros for the last.
fn remove_row(rows: &mut [u32], index: usize) {
    let removed = own_bytes(&rows[index * ROW..][..ROW]);
    let parent = rows[index * ROW + PARENT] as usize;
    rows[parent * ROW + CHILDREN] -= 1;
    rows.copy_within((index + 1) * ROW.., index * ROW);
    let kept = rows.len() - ROW;
    rows[kept..].fill(0);
    for row in rows[index * ROW..kept].chunks_exact_mut(ROW) {
        row[BODY_START] -= removed;
        row[BODY_END] -= removed;
        if row[PARENT] != NO_PARENT && row[PARENT] as usize > index {
            row[PARENT] -= 1;
        }
    }
}
