//! Several faults in one plan: the first row with any speaks, and of its faults the first in the order of the rules.

use super::planned::base;
use super::{refusal, Writes};
use corpus::format::NONE;
use corpus::rows::{mend_children, numbers, Row};

const FAULTS: [u32; 4] = [21, 22, 23, 24];
/// Known rows: the first, one in the middle and the last.
const ROWS: [usize; 3] = [0, 4, 8];

pub fn add(writes: &mut Writes) {
    add_one_row(writes);
    add_two_rows(writes);
    add_drawn(writes);
    add_length(writes);
}

/// The rows with these faults.
fn faulty(rows: &[Row], faults: &[(usize, u32)]) -> Vec<Row> {
    let mut faulty = rows.to_vec();
    let has = |row: usize, number: u32| faults.contains(&(row, number));
    for (index, row) in faulty.iter_mut().enumerate() {
        if has(index, 21) {
            row.parent = match row.parent {
                NONE => index as u32,
                _ => NONE,
            };
        }
        if has(index, 22) {
            row.end = 1_000;
        }
        if has(index, 23) {
            row.properties += 1;
        }
    }
    mend_children(&mut faulty);
    for (index, row) in faulty.iter_mut().enumerate() {
        row.children += u32::from(has(index, 24));
    }
    faulty
}

fn judge(writes: &mut Writes, faults: &[(usize, u32)]) {
    let base = base();
    let rows = faulty(&base.rows, faults);
    match faults.iter().min() {
        Some(&(row, number)) => writes.refused(&rows, &base.source, number, row),
        None => writes.right(&rows, &base.source),
    }
}

/// All sets of faults of one row.
fn add_one_row(writes: &mut Writes) {
    writes.cases.sweep("writes order: one row", 2);
    for row in ROWS {
        for set in 1..16 {
            let faults = (0..FAULTS.len()).filter(|fault| set & 1 << fault != 0);
            let faults: Vec<(usize, u32)> = faults.map(|fault| (row, FAULTS[fault])).collect();
            judge(writes, &faults);
        }
    }
}

/// Two rows with a fault each.
fn add_two_rows(writes: &mut Writes) {
    writes.cases.sweep("writes order: two rows", 2);
    for (earlier, later) in [(0, 4), (0, 8), (4, 8)] {
        for first in FAULTS {
            for second in FAULTS {
                judge(writes, &[(earlier, first), (later, second)]);
            }
        }
    }
}

/// Any faults of any known rows.
fn add_drawn(writes: &mut Writes) {
    writes.cases.sweep("writes order: drawn", 1);
    for _ in 0..writes.cases.draws(30) {
        let mut faults = Vec::new();
        for row in [0, 1, 2, 4, 6, 7, 8] {
            for fault in FAULTS {
                if writes.rng.chance(8) {
                    faults.push((row, fault));
                }
            }
        }
        judge(writes, &faults);
    }
}

/// 20 comes before all of them.
fn add_length(writes: &mut Writes) {
    writes.cases.sweep("writes order: length", 2);
    let base = base();
    for row in ROWS {
        for fault in FAULTS {
            let mut plan = numbers(&faulty(&base.rows, &[(row, fault)]));
            plan.push(0);
            let written = writes.add_whole(&plan, &base.source, 0);
            assert_eq!(written, refusal(20, 0));
        }
    }
}
