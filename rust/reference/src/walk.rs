//! The node walk: refusals 3 to 12 and the rows.

use crate::bytes::u32_at;
use crate::kinds::{known, may_stand};
use crate::property::{Property, MAX_PROPERTIES};
use crate::table::{clear, is_whole, BODY_START, NO_PARENT, ROW, TABLE_NUMBERS, TABLE_ROWS};
use crate::Refusal;

pub(crate) const FILE_HEADER: usize = 16;
pub(crate) const NODE_HEADER: usize = 24;
/// Where a node's header has its size and its child count.
pub(crate) const SIZE_OFFSET: usize = 4;
pub(crate) const CHILDREN_OFFSET: usize = 20;
const MAX_DEPTH: usize = 8;

/// A known node whose children are still being read.
#[derive(Clone, Copy, Default)]
struct Open {
    row: u32,
    kind: u32,
    end: usize,
    children_left: u32,
}

/// Answers number, place and node count, and puts the rows. Neither the file's length nor anything
/// of 13 to 17 is judged; places and rows are those of files below 4 GiB.
pub fn walk(file: &[u8], table: &mut [u32]) -> (u32, u32, u32) {
    if !is_whole(table) {
        return (1, 0, 0);
    }
    match nodes(file, table) {
        Ok(count) => {
            table[count * ROW..TABLE_NUMBERS].fill(0);
            (0, 0, count as u32)
        }
        Err(refusal) => {
            clear(table);
            (refusal.number, refusal.place, 0)
        }
    }
}

fn refuse<T>(number: u32, place: usize) -> Result<T, Refusal> {
    Err(Refusal {
        number,
        place: place as u32,
    })
}

/// Puts the rows of a file and answers how many there are. What lies past them is left, and on refusal
/// all that was put.
pub(crate) fn nodes(file: &[u8], table: &mut [u32]) -> Result<usize, Refusal> {
    let Some(header) = file.first_chunk::<FILE_HEADER>() else {
        return refuse(3, 0);
    };
    if !header.starts_with(b"cast") {
        return refuse(3, 0);
    }
    if u32_at(header, 4) != 1 {
        return refuse(4, 4);
    }
    let mut roots_left = u32_at(header, 8);
    let mut stack = [Open::default(); MAX_DEPTH];
    let mut depth = 0;
    let mut cursor = FILE_HEADER;
    let mut count = 0;

    loop {
        // The innermost open node, or the file, has another child or ends here.
        let (end, parent, parent_row, left) = match stack[..depth].last_mut() {
            Some(open) => (open.end, Some(open.kind), open.row, &mut open.children_left),
            None => (file.len(), None, NO_PARENT, &mut roots_left),
        };
        if *left == 0 {
            if cursor != end {
                return refuse(12, cursor);
            }
            if depth == 0 {
                return Ok(count);
            }
            depth -= 1;
            continue;
        }
        *left -= 1;

        let Some(header) = file[cursor..end].first_chunk::<NODE_HEADER>() else {
            return refuse(5, cursor);
        };
        let kind = u32_at(header, 0);
        let size = u32_at(header, SIZE_OFFSET) as usize;
        if size < NODE_HEADER || size > end - cursor {
            return refuse(5, cursor);
        }
        if !may_stand(parent, kind) {
            return refuse(6, cursor);
        }
        if count == TABLE_ROWS {
            return refuse(7, cursor);
        }
        if depth == MAX_DEPTH {
            return refuse(8, cursor);
        }
        let properties = u32_at(header, 16);
        let children = u32_at(header, CHILDREN_OFFSET);
        let body_start = cursor + NODE_HEADER;
        let node_end = cursor + size;
        let body_end = if known(kind) {
            if properties > MAX_PROPERTIES {
                return refuse(9, cursor);
            }
            let body_end = properties_end(file, body_start, node_end, properties)?;
            stack[depth] = Open {
                row: count as u32,
                kind,
                end: node_end,
                children_left: children,
            };
            depth += 1;
            body_end
        } else {
            node_end
        };
        table[count * ROW..][..ROW].copy_from_slice(&[
            kind,
            u32_at(header, 8),
            u32_at(header, 12),
            parent_row,
            body_start as u32,
            body_end as u32,
            properties,
            children,
        ]);
        count += 1;
        cursor = body_end;
    }
}

/// Steps past a known node's properties.
fn properties_end(file: &[u8], start: usize, end: usize, count: u32) -> Result<usize, Refusal> {
    let rest = &file[start..end];
    let mut at = 0;
    for _ in 0..count {
        match Property::parse(rest, at) {
            Ok(property) => at = property.next(),
            Err(number) => return refuse(number, start + at),
        }
    }
    Ok(start + at)
}

/// Where the header of a row's node starts.
pub(crate) fn node_start(row: &[u32]) -> usize {
    row[BODY_START] as usize - NODE_HEADER
}
