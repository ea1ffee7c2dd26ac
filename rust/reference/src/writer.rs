//! The writer: refusals 20 to 26.

use crate::kinds::{known, ROOT};
use crate::property::body_exact;
use crate::read::{own_bytes, MAX_FILE};
use crate::table::*;
use crate::walk::{FILE_HEADER, NODE_HEADER};
use crate::Refusal;

#[derive(Clone, Copy, Debug, Default, PartialEq, Eq)]
pub struct Written {
    /// 0 where a file is written.
    pub number: u32,
    pub place: u32,
    /// Of the new file; 0 on refusal.
    pub length: u32,
}

impl Written {
    pub(crate) fn refused(number: u32, place: u32) -> Written {
        Written {
            number,
            place,
            length: 0,
        }
    }
}

/// Writes the plan's rows, with their bodies out of the source, as a file. A refusal leaves `out`.
pub fn write(plan: &[u32], source: &[u8], flags: u32, out: &mut [u8]) -> Written {
    let length = match judge(plan, source) {
        Ok(length) => length,
        Err(Refusal { number, place }) => return Written::refused(number, place),
    };
    if length > MAX_FILE as u64 {
        return Written::refused(25, 0);
    }
    let Some(out) = out.get_mut(..length as usize) else {
        return Written::refused(26, 0);
    };
    let sizes = sizes(plan);
    let roots = plan.chunks_exact(ROW).filter(|row| row[KIND] == ROOT);
    let mut out = Output { rest: out };
    out.put(b"cast");
    out.numbers([1, roots.count() as u32, flags]);
    for (row, size) in plan.chunks_exact(ROW).zip(&sizes) {
        out.numbers([
            row[KIND],
            *size,
            row[HASH_LOW],
            row[HASH_HIGH],
            row[PROPERTIES],
            row[CHILDREN],
        ]);
        out.put(&source[row[BODY_START] as usize..row[BODY_END] as usize]);
    }
    Written {
        number: 0,
        place: 0,
        length: length as u32,
    }
}

/// The file's length, or a refusal of 20 to 24. Bodies may overlap, so that the length has no bound
/// by the source.
fn judge(plan: &[u32], source: &[u8]) -> Result<u64, Refusal> {
    if !plan.len().is_multiple_of(ROW) || plan.len() > TABLE_NUMBERS {
        return Err(Refusal {
            number: 20,
            place: 0,
        });
    }
    let children = children(plan);
    let mut length = FILE_HEADER as u64;
    for (index, row) in plan.chunks_exact(ROW).enumerate() {
        let refuse = |number: u32| Refusal {
            number,
            place: index as u32,
        };
        if !parent_right(plan, index) {
            return Err(refuse(21));
        }
        let range = row[BODY_START] as usize..row[BODY_END] as usize;
        let body = source.get(range).ok_or(refuse(22))?;
        if known(row[KIND]) {
            if !body_exact(body, row[PROPERTIES]) {
                return Err(refuse(23));
            }
            if row[CHILDREN] != children[index] {
                return Err(refuse(24));
            }
        }
        length += (NODE_HEADER + body.len()) as u64;
    }
    Ok(length)
}

/// How many rows name each row as their parent.
fn children(plan: &[u32]) -> [u32; TABLE_ROWS] {
    let mut children = [0; TABLE_ROWS];
    for row in plan.chunks_exact(ROW) {
        if let Some(count) = children.get_mut(row[PARENT] as usize) {
            *count += 1;
        }
    }
    children
}

/// None exactly for Root; else an earlier known row that is the previous row or an ancestor of it.
/// All earlier rows have passed. The rows climbed past are closed for good, so that all calls
/// together climb each row once.
fn parent_right(plan: &[u32], index: usize) -> bool {
    let number = |row: usize, column: usize| plan[row * ROW + column];
    let parent = number(index, PARENT);
    if number(index, KIND) == ROOT || parent == NO_PARENT || index == 0 {
        return number(index, KIND) == ROOT && parent == NO_PARENT;
    }
    let mut ancestor = index - 1;
    while ancestor != parent as usize {
        match number(ancestor, PARENT) {
            NO_PARENT => return false,
            above => ancestor = above as usize,
        }
    }
    known(number(ancestor, KIND))
}

/// The size of each node; the whole file is known to be short.
fn sizes(plan: &[u32]) -> [u32; TABLE_ROWS] {
    let mut sizes = [0; TABLE_ROWS];
    for (index, row) in plan.chunks_exact(ROW).enumerate().rev() {
        sizes[index] += own_bytes(row);
        if row[PARENT] != NO_PARENT {
            sizes[row[PARENT] as usize] += sizes[index];
        }
    }
    sizes
}

/// The part of the output not yet written.
struct Output<'a> {
    rest: &'a mut [u8],
}

impl Output<'_> {
    /// The next bytes of the output, which are to be written.
    fn next(&mut self, length: usize) -> &mut [u8] {
        let rest = std::mem::take(&mut self.rest);
        let (here, rest) = rest.split_at_mut(length);
        self.rest = rest;
        here
    }

    fn put(&mut self, bytes: &[u8]) {
        self.next(bytes.len()).copy_from_slice(bytes);
    }

    fn numbers<const COUNT: usize>(&mut self, numbers: [u32; COUNT]) {
        let places = self.next(4 * COUNT).chunks_exact_mut(4);
        for (place, number) in places.zip(numbers) {
            place.copy_from_slice(&number.to_le_bytes());
        }
    }
}
