//! Right plans with outputs of many lengths, and plans whose length is not that of rows.

use super::planned::base;
use super::{refusal, Planned, Writes, LONGEST_OUTPUT};
use corpus::format::{FILE, NONE, ROOT};
use corpus::rows::{mend_children, numbers, written_length, Row};
use corpus::worked::WAGON;

pub fn add(writes: &mut Writes) {
    add_rooms(writes, &base(), &[0, 1, 15, 16, 17, 39, 40, LONGEST_OUTPUT]);
    add_rooms(writes, &Planned::empty(), &[0, 1, LONGEST_OUTPUT]);
    for plan in few() {
        add_rooms(writes, &plan, &[]);
    }
    add_sources(writes);
    add_lengths(writes);
}

/// Outputs about the file's length, and of these lengths, each by one call and in parts.
fn add_rooms(writes: &mut Writes, plan: &Planned, rooms: &[usize]) {
    writes.cases.sweep("writes rooms: rooms", 6);
    let length = written_length(&plan.rows) as usize;
    let about = [length - 1, length, length + 1, length + 100];
    for &room in about.iter().chain(rooms) {
        let numbers = numbers(&plan.rows);
        let whole = writes.add_whole(&numbers, &plan.source, room);
        let parts = writes.add_parts(&numbers, plan.rows.len(), &plan.source, room);
        let told = if room < length { 26 } else { 0 };
        assert_eq!((whole.number, parts.number), (told, told));
        assert_eq!(whole, parts);
    }
}

/// Bare roots, rows below one, a chain, and a chain that is left one row at a time.
fn few() -> [Planned; 4] {
    let plans: [&[u32]; 4] = [
        &[NONE; 5],
        &[NONE, 0, 0, 0, 0],
        &[NONE, 0, 1, 2, 3],
        &[NONE, 0, 1, 2, 2, 1, 0, NONE, 7],
    ];
    plans.map(|parents| {
        let mut plan = Planned::empty();
        for &parent in parents {
            let kind = if parent == NONE { ROOT } else { FILE };
            plan.push_known(kind, parent, Vec::new());
        }
        mend_children(&mut plan.rows);
        plan
    })
}

/// A plan without rows takes any source; so does one whose rows have no bodies.
fn add_sources(writes: &mut Writes) {
    writes.cases.sweep("writes rooms: sources", 3);
    for source in [&b""[..], b"\0", b"cast", &[0xFF; 40]] {
        for rows in [Vec::new(), vec![Row::new(ROOT, NONE); 2]] {
            // Twice, as each draws its way.
            writes.right(&rows, source);
            writes.right(&rows, source);
        }
    }
    // A body that is all of the source, named twice, and a part of it.
    let mut plan = Planned::empty();
    plan.push_known(ROOT, NONE, Vec::new());
    plan.push(WAGON, 0, 1, b"abcdef");
    plan.push(WAGON, 0, 2, b"");
    plan.push(WAGON, 0, 3, b"");
    (plan.rows[2].start, plan.rows[3].start) = (0, 2);
    plan.rows[3].end = 3;
    mend_children(&mut plan.rows);
    add_rooms(writes, &plan, &[]);
}

/// Numbers that are no rows, whatever they are and whatever room there is.
fn add_lengths(writes: &mut Writes) {
    writes.cases.sweep("writes rooms: lengths", 6);
    let base = base();
    let numbers = numbers(&base.rows);
    let length = written_length(&base.rows) as usize;
    let cuts = (1..numbers.len()).filter(|cut| cut % 8 != 0);
    for cut in cuts.clone().take(14).chain(cuts.rev().take(7)) {
        let written = writes.add_whole(&numbers[..cut], &base.source, length);
        assert_eq!(written, refusal(20, 0));
    }
    for more in 1..8 {
        let mut longer = numbers.clone();
        writes.follow(&mut longer, base.rows.len(), more);
        let written = writes.add_whole(&longer, &base.source, length);
        assert_eq!(written, refusal(20, 0));
        // 20 is reported before a wrong row.
        longer[3] = 0;
        let written = writes.add_whole(&longer, b"", 0);
        assert_eq!(written, refusal(20, 0));
    }
}
