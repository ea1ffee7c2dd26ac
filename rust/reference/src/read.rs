//! The reader: refusals 1 to 17.

use crate::bytes::u32_at;
use crate::check::check;
use crate::table::{clear, is_whole, BODY_END, BODY_START, ROW, TABLE_NUMBERS};
use crate::walk::{nodes, NODE_HEADER};
use crate::Refusal;

pub(crate) const MAX_FILE: usize = 16_777_216;

#[derive(Clone, Copy, Debug, Default, PartialEq, Eq)]
pub struct Reading {
    /// 0 where the file is accepted; on refusal all but number and place is 0.
    pub number: u32,
    pub place: u32,
    pub nodes: u32,
    pub flags: u32,
    /// Own bytes of known nodes.
    pub own_known: u32,
    /// Own bytes of unknown nodes.
    pub own_unknown: u32,
    /// Degenerate ones included.
    pub faces: u32,
    pub degenerate: u32,
    pub links: u32,
}

/// Reads a file into the table's first 8,192 numbers: its rows, then zeros; on refusal zeros alone.
/// A shorter table stays as it is.
pub fn read(file: &[u8], table: &mut [u32]) -> Reading {
    if !is_whole(table) {
        return refused(1, 0);
    }
    if file.len() > MAX_FILE {
        clear(table);
        return refused(2, 0);
    }
    let judged = nodes(file, table).and_then(|nodes| {
        let counts = check(file, &table[..nodes * ROW])?;
        Ok((nodes, counts))
    });
    let (nodes, counts) = match judged {
        Ok(judged) => judged,
        Err(Refusal { number, place }) => {
            clear(table);
            return refused(number, place);
        }
    };
    table[nodes * ROW..TABLE_NUMBERS].fill(0);
    Reading {
        number: 0,
        place: 0,
        nodes: nodes as u32,
        flags: u32_at(file, 12),
        own_known: counts.own_known,
        own_unknown: counts.own_unknown,
        faces: counts.faces,
        degenerate: counts.degenerate,
        links: counts.links,
    }
}

/// A known node's body is its properties.
pub(crate) fn own_bytes(row: &[u32]) -> u32 {
    NODE_HEADER as u32 + (row[BODY_END] - row[BODY_START])
}

fn refused(number: u32, place: u32) -> Reading {
    Reading {
        number,
        place,
        ..Reading::default()
    }
}
