//! Refusals 23 and 24: every row with another count.

use super::planned::base;
use super::{Planned, Writes};
use corpus::format::{FILE, METADATA, NONE, ROOT};
use corpus::rows::{mend_children, Row};
use corpus::worked::WAGON;

pub fn add(writes: &mut Writes) {
    let base = base();
    writes.cases.sweep("writes counts", 3);
    for row in 0..base.rows.len() {
        let Row {
            properties,
            children,
            ..
        } = base.rows[row];
        for count in others(properties) {
            let mut rows = base.rows.clone();
            rows[row].properties = count;
            judge(writes, &base, &rows, 23, row);
        }
        for count in others(children) {
            let mut rows = base.rows.clone();
            rows[row].children = count;
            judge(writes, &base, &rows, 24, row);
        }
    }
    add_dropped(writes, &base);
    add_later(writes);
}

fn others(count: u32) -> impl Iterator<Item = u32> {
    let about = [count.wrapping_add(1), count.wrapping_sub(1)];
    let far = [count ^ 0x8000_0000, 64];
    about
        .into_iter()
        .chain(far)
        .filter(move |&other| other != count)
}

/// A known row has the true counts, an unknown one any.
fn judge(writes: &mut Writes, base: &Planned, rows: &[Row], number: u32, row: usize) {
    match rows[row].is_known() {
        true => writes.refused(rows, &base.source, number, row),
        false => writes.right(rows, &base.source),
    }
}

/// Without one of the rows that have none below them, its parent has a child too many.
fn add_dropped(writes: &mut Writes, base: &Planned) {
    writes.cases.sweep("writes counts: dropped", 1);
    for row in [2, 3, 6, 8] {
        let parent = base.rows[row].parent as usize;
        let mut rows = base.rows.clone();
        rows.remove(row);
        for later in &mut rows {
            if later.parent != NONE && later.parent > row as u32 {
                later.parent -= 1;
            }
        }
        writes.refused(&rows, &base.source, 24, parent);
        rows[parent].children -= 1;
        writes.right(&rows, &base.source);
    }
}

/// Rows that are wrong themselves count, too: where the row that they name is told to have them, they speak, else that
/// row does.
fn add_later(writes: &mut Writes) {
    writes.cases.sweep("writes counts: later", 3);
    let wrong = [
        // A root with a parent, a row that is no child any more, and a body that is not there.
        (ROOT, 0, 0, 21),
        (METADATA, 0, 0, 21),
        (WAGON, 0, 0, 21),
        (METADATA, 1, 9, 22),
        (METADATA, 1, 0, 23),
        (METADATA, 1, 0, 24),
    ];
    for (kind, parent, end, number) in wrong {
        let mut rows = vec![
            Row::new(ROOT, NONE),
            Row::new(ROOT, NONE),
            Row::new(FILE, 1),
            Row::new(kind, parent),
        ];
        rows[3].end = end;
        rows[3].properties = u32::from(number == 23);
        mend_children(&mut rows);
        rows[3].children += u32::from(number == 24);
        // Twice, as each draws its way.
        writes.refused(&rows, b"", number, 3);
        writes.refused(&rows, b"", number, 3);
        rows[parent as usize].children -= 1;
        writes.refused(&rows, b"", 24, parent as usize);
        writes.refused(&rows, b"", 24, parent as usize);
    }
}
