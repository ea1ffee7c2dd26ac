//! Plans made as a whole.

use super::{same, Case};
use crate::format::{
    is_known, BONE, CURVE, FILE, KINDS, MATERIAL, MAX_FILE, MAX_NODES, MODEL, NONE, ROOT, SKELETON,
};
use crate::rng::Rng;
use crate::rows::{mend_children, numbers, rows, written_length, Row};
use crate::valid::unknown;

/// A valid plan: siblings in another order, some below another parent of the
/// same kind. The written file is accepted.
pub fn reordered(rng: &mut Rng, table: &[u32], file: &[u8]) -> Case {
    rearranged(rng, table, file, false)
}

/// As [`reordered`], but Bones move too and the file need not be accepted.
pub fn moved(rng: &mut Rng, table: &[u32], file: &[u8]) -> Case {
    rearranged(rng, table, file, true)
}

fn rearranged(rng: &mut Rng, table: &[u32], file: &[u8], with_bones: bool) -> Case {
    let mut old = rows(table, MAX_NODES);
    for row in 0..old.len() {
        let parent = old[row].parent as usize;
        let stays = old[row].kind == BONE && !with_bones;
        if old[row].parent != NONE && !stays && rng.chance(20) {
            let same_kind = |other: &usize| old[*other].kind == old[parent].kind;
            let homes: Vec<usize> = (0..old.len()).filter(same_kind).collect();
            old[row].parent = *rng.pick(&homes) as u32;
        }
    }
    let mut below = vec![Vec::new(); old.len()];
    let mut roots = Vec::new();
    for (row, numbers) in old.iter().enumerate() {
        match numbers.parent {
            NONE => roots.push(row),
            parent => below[parent as usize].push(row),
        }
    }
    rng.shuffle(&mut roots);
    below.iter_mut().for_each(|rows| rng.shuffle(rows));
    fn place(row: usize, parent: u32, old: &[Row], below: &[Vec<usize>], out: &mut Vec<Row>) {
        let number = out.len() as u32;
        out.push(Row { parent, ..old[row] });
        for child in &below[row] {
            place(*child, number, old, below, out);
        }
    }
    let mut new = Vec::with_capacity(old.len());
    for root in roots {
        place(root, NONE, &old, &below, &mut new);
    }
    mend_children(&mut new);
    Case {
        plan: numbers(&new),
        ..same(table, file)
    }
}

/// The rows twice, over a source that holds the file twice.
pub(super) fn doubled(table: &[u32], file: &[u8]) -> Option<Case> {
    let mut case = same(table, file);
    let once = rows(table, MAX_NODES);
    let count = once.len() as u32;
    let shift = file.len() as u32;
    case.source.extend_from_slice(file);
    let again = once.iter().map(|row| Row {
        parent: if row.parent == NONE {
            NONE
        } else {
            row.parent + count
        },
        start: row.start + shift,
        end: row.end + shift,
        ..*row
    });
    case.plan.extend(again.flat_map(|row| row.numbers()));
    case.room = 2 * file.len() - 16;
    (once.len() * 2 <= MAX_NODES).then_some(case)
}

/// The rows without some of them and all that stands below those.
pub(super) fn pruned(rng: &mut Rng, table: &[u32], file: &[u8]) -> Case {
    let share = rng.range(1, 30);
    let mut new: Vec<Row> = Vec::new();
    // The new number of each old row that stays.
    let mut numbers_of = Vec::new();
    for row in rows(table, MAX_NODES) {
        let parent = match row.parent {
            NONE => Some(NONE),
            parent => numbers_of[parent as usize],
        };
        let stays = parent.filter(|_| !rng.chance(share));
        numbers_of.push(stays.map(|_| new.len() as u32));
        new.extend(stays.map(|parent| Row { parent, ..row }));
    }
    mend_children(&mut new);
    Case {
        plan: numbers(&new),
        room: written_length(&new) as usize,
        ..same(table, file)
    }
}

/// A chain of rows, each below the one before; the writer takes it.
pub fn chain(rng: &mut Rng, length: usize) -> Case {
    let mut rows = vec![Row::new(ROOT, NONE)];
    for parent in 0..length - 1 {
        let kind = *rng.pick(&[MODEL, SKELETON, MATERIAL, FILE, CURVE]);
        rows.push(Row::new(kind, parent as u32));
    }
    mend_children(&mut rows);
    Case {
        plan: numbers(&rows),
        source: Vec::new(),
        flags: rng.next_u32(),
        room: written_length(&rows) as usize,
        answer: Some((0, 0)),
    }
}

/// 1,024 rows whose overlapping bodies make a file of `length` bytes. There is
/// never room for it in the output.
pub fn overlapping(rng: &mut Rng, length: u64) -> Case {
    let mut rows = vec![Row::new(ROOT, NONE)];
    let bare = 16 + 24 * MAX_NODES as u64;
    let bodies = MAX_NODES as u64 - 1;
    let each = (length - bare) / bodies;
    let longer = (length - bare) % bodies;
    let source = each + 1 + rng.below(10) as u64;
    for number in 0..bodies {
        let size = each + u64::from(number < longer);
        let start = rng.below((source - size) as usize + 1) as u64;
        let mut row = Row::new(unknown::kind(rng), 0);
        row.start = start as u32;
        row.end = (start + size) as u32;
        rows.push(row);
    }
    mend_children(&mut rows);
    let over = length > MAX_FILE as u64;
    Case {
        plan: numbers(&rows),
        source: vec![0; source as usize],
        flags: 0,
        room: rng.below(1_000),
        answer: Some((if over { 25 } else { 26 }, 0)),
    }
}

/// Rows of numbers that are right now and then.
pub(super) fn random(rng: &mut Rng, file: &[u8]) -> Case {
    let count = rng.below(6);
    let mut rows = Vec::new();
    for at in 0..count {
        let kind = match at == 0 || rng.chance(30) {
            true => ROOT,
            false if rng.chance(50) => rng.pick(&KINDS).0,
            false => rng.next_u32(),
        };
        let mut row = Row::new(kind, NONE);
        if kind != ROOT || rng.chance(5) {
            row.parent = match rng.chance(90) {
                true => rng.below(at + 1) as u32,
                false => rng.edge_u32(),
            };
        }
        if !is_known(kind) || rng.chance(20) {
            row.start = rng.below(file.len() + 2) as u32;
            row.end = row.start + rng.below(20) as u32;
            row.properties = rng.below(3) as u32;
        }
        row.hash = rng.next_u64();
        rows.push(row);
    }
    if rng.chance(80) {
        mend_children(&mut rows);
    }
    Case {
        plan: numbers(&rows),
        source: file.to_vec(),
        flags: rng.next_u32(),
        room: written_length(&rows) as usize,
        answer: None,
    }
}
