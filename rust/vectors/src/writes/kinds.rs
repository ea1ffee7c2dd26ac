//! Every row with another kind.

use super::planned::base;
use super::{Planned, Writes};
use corpus::format::{is_known, FILE, KINDS, NONE, ROOT};
use corpus::rows::mend_children;
use corpus::valid::unknown;
use corpus::worked::WAGON;

pub fn add(writes: &mut Writes) {
    let base = base();
    writes.cases.sweep("writes kinds", 2);
    for row in 0..base.rows.len() {
        let drawn = unknown::kind(&mut writes.rng);
        let known = writes.rng.pick(&KINDS).0;
        for kind in [ROOT, FILE, WAGON, drawn, known] {
            let mut rows = base.rows.clone();
            let was_known = rows[row].is_known();
            rows[row].kind = kind;
            let below = rows.iter().position(|below| below.parent == row as u32);
            let is_root = rows[row].parent == NONE;
            match (is_root, is_known(kind), below) {
                _ if is_root != (kind == ROOT) => writes.refused(&rows, &base.source, 21, row),
                // It has kept counts that nothing bears out.
                (_, true, _) if !was_known => {
                    writes.refused(&rows, &base.source, 23, row);
                    rows[row].end = rows[row].start;
                    rows[row].properties = 0;
                    writes.refused(&rows, &base.source, 24, row);
                    rows[row].children = 0;
                    writes.right(&rows, &base.source);
                }
                (_, false, Some(below)) => writes.refused(&rows, &base.source, 21, below),
                _ => writes.right(&rows, &base.source),
            }
        }
    }
    add_each(writes);
}

/// Each known kind below a root, and below itself.
fn add_each(writes: &mut Writes) {
    writes.cases.sweep("writes kinds: each", 3);
    let plan = |kind| {
        let mut plan = Planned::empty();
        plan.push_known(ROOT, NONE, Vec::new());
        plan.push_known(kind, 0, Vec::new());
        plan.push_known(kind, 1, Vec::new());
        mend_children(&mut plan.rows);
        plan.rows
    };
    for (kind, _) in KINDS {
        match kind {
            ROOT => writes.refused(&plan(kind), b"", 21, 1),
            _ => writes.right(&plan(kind), b""),
        }
    }
}
