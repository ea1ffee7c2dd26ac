//! Refusal 21: every row with another parent.

use super::planned::base;
use super::{line, Planned, Writes};
use corpus::format::{FILE, METADATA, MODEL, NONE, ROOT};
use corpus::rows::{mend_children, Row};
use corpus::worked::WAGON;

pub fn add(writes: &mut Writes) {
    let base = base();
    for row in 0..base.rows.len() {
        add_mended(writes, &base, row);
        add_kept(writes, &base, row);
    }
    add_roots(writes, &base);
    add_few(writes);
}

/// Whether a row's parent is right, where those of all earlier rows are.
fn right(rows: &[Row], row: usize) -> bool {
    let Row { kind, parent, .. } = rows[row];
    if kind == ROOT || parent == NONE {
        return kind == ROOT && parent == NONE;
    }
    line(rows, row).contains(&parent) && rows[parent as usize].is_known()
}

/// Parents of every sort, the child counts mended.
fn add_mended(writes: &mut Writes, base: &Planned, row: usize) {
    writes.cases.sweep("writes parents: mended", 4);
    let count = base.rows.len() as u32;
    let far = [1_024, NONE - 1, NONE];
    for parent in (0..=count).chain(far) {
        let mut rows = base.rows.clone();
        rows[row].parent = parent;
        mend_children(&mut rows);
        let wrong = (row..rows.len()).find(|&row| !right(&rows, row));
        match wrong {
            Some(wrong) => writes.refused(&rows, &base.source, 21, wrong),
            None => writes.right(&rows, &base.source),
        }
    }
}

/// The child counts as they were: the first row that is told to have another count speaks, where it comes before.
fn add_kept(writes: &mut Writes, base: &Planned, row: usize) {
    writes.cases.sweep("writes parents: kept", 3);
    let old = base.rows[row].parent;
    for parent in (0..base.rows.len() as u32).filter(|&parent| parent != old) {
        let mut rows = base.rows.clone();
        rows[row].parent = parent;
        let mut faults = Vec::new();
        if !right(&rows, row) {
            faults.push((row, 21));
        }
        if old != NONE {
            faults.push((old as usize, 24));
        }
        if rows[parent as usize].is_known() {
            faults.push((parent as usize, 24));
        }
        let &(place, number) = faults.iter().min().expect("one of both");
        writes.refused(&rows, &base.source, number, place);
    }
}

/// A root put before each row: what follows in it has lost its parent.
fn add_roots(writes: &mut Writes, base: &Planned) {
    writes.cases.sweep("writes parents: roots", 2);
    for at in 0..=base.rows.len() {
        let mut rows = base.rows.clone();
        for row in &mut rows {
            if row.parent != NONE && row.parent >= at as u32 {
                row.parent += 1;
            }
        }
        rows.insert(at, Row::new(ROOT, NONE));
        match rows.get(at + 1) {
            Some(row) if row.parent != NONE => writes.refused(&rows, &base.source, 21, at + 1),
            _ => writes.right(&rows, &base.source),
        }
    }
}

/// Plans of a few bare rows: kinds and parents, and the row that is wrong.
fn add_few(writes: &mut Writes) {
    writes.cases.sweep("writes parents: few", 8);
    type Rows<'a> = &'a [(u32, u32)];
    let plans: [(Rows, usize); 20] = [
        (&[(MODEL, NONE)], 0),
        (&[(MODEL, 0)], 0),
        (&[(MODEL, 1)], 0),
        (&[(WAGON, NONE)], 0),
        (&[(WAGON, 0)], 0),
        (&[(ROOT, 0)], 0),
        (&[(ROOT, 1)], 0),
        (&[(ROOT, NONE - 1)], 0),
        (&[(METADATA, NONE), (ROOT, NONE)], 0),
        (&[(MODEL, 1), (ROOT, NONE)], 0),
        (&[(ROOT, NONE), (ROOT, 0)], 1),
        (&[(ROOT, NONE), (MODEL, NONE)], 1),
        (&[(ROOT, NONE), (WAGON, NONE)], 1),
        // Each the other's parent.
        (&[(ROOT, NONE), (MODEL, 2), (MODEL, 1)], 1),
        (&[(ROOT, NONE), (MODEL, 2), (MODEL, 0)], 1),
        // Below an unknown row, which is the one before or not.
        (&[(ROOT, NONE), (WAGON, 0), (WAGON, 1)], 2),
        (&[(ROOT, NONE), (WAGON, 0), (MODEL, 1)], 2),
        (&[(ROOT, NONE), (WAGON, 0), (FILE, 0), (FILE, 1)], 3),
        // Below a row that is closed.
        (&[(ROOT, NONE), (MODEL, 0), (MODEL, 0), (FILE, 1)], 3),
        (&[(ROOT, NONE), (ROOT, NONE), (FILE, 0)], 2),
    ];
    for (plan, wrong) in plans {
        for source in [&b""[..], b"cast"] {
            let mut rows: Vec<Row> = plan
                .iter()
                .map(|&(kind, parent)| Row::new(kind, parent))
                .collect();
            mend_children(&mut rows);
            writes.refused(&rows, source, 21, wrong);
        }
    }
}
