//! Writings.

use std::hint::black_box;

use corpus::format::{FILE, MAX_NODES, NONE, ROOT};
use corpus::loads::scenes;
use corpus::plans::{chain, same, Case};
use corpus::rows::{mend_children, numbers, written_length, Row as PlanRow};
use corpus::tree::File;
use corpus::{large, worked, Rng};

use crate::table::grouped;
use crate::work::{Group, Row, Side, Work};

/// Rows of the shorter one of two plans of one shape.
const FEW: usize = 128;

/// A plan, the file that it gives, and the output.
struct Writing {
    case: Case,
    file: Vec<u8>,
    out: Vec<u8>,
}

impl Writing {
    fn new(case: Case) -> Writing {
        let mut out = vec![0; case.room];
        let written = reference::write(&case.plan, &case.source, case.flags, &mut out);
        assert_eq!((written.number, written.length as usize), (0, case.room));
        let file = out.clone();
        Writing { case, file, out }
    }

    /// The rows that a reading leaves, over the file.
    fn of_file(file: &File) -> Writing {
        let bytes = file.bytes();
        let mut table = vec![0; reference::TABLE_NUMBERS];
        let reading = reference::read(&bytes, &mut table);
        assert_eq!((reading.number, reading.place), (0, 0));
        Writing::new(same(&table[..8 * reading.nodes as usize], &bytes))
    }
}

impl Work for Writing {
    fn run(&mut self, side: Side, times: usize) -> u64 {
        let Writing { case, file, out } = self;
        let mut last = (0, 0);
        for _ in 0..times {
            let (case, file, out) = (black_box(&*case), black_box(&*file), black_box(&mut *out));
            last = match side {
                Side::Proved => {
                    let written = cast::write(&case.plan, &case.source, case.flags, out);
                    (written.number, written.length)
                }
                Side::Independent => {
                    let written = reference::write(&case.plan, &case.source, case.flags, out);
                    (written.number, written.length)
                }
                Side::Beside => {
                    out.copy_from_slice(file);
                    (0, file.len() as u32)
                }
            };
            black_box(last);
        }
        u64::from(last.0) << 32 | u64::from(last.1)
    }

    fn bytes(&self) -> usize {
        self.file.len()
    }

    fn nodes(&self) -> usize {
        self.case.plan.len() / 8
    }
}

/// Bare rows below one root.
fn wide(count: usize) -> Case {
    let mut rows = vec![PlanRow::new(FILE, 0); count];
    rows[0] = PlanRow::new(ROOT, NONE);
    of_rows(rows)
}

/// Bare rows of which every other one hangs below the one before, and all others below the root.
fn pairs(count: usize) -> Case {
    let rows = (0..count as u32).map(|row| match row {
        0 => PlanRow::new(ROOT, NONE),
        row if row % 2 == 0 => PlanRow::new(FILE, row - 1),
        _ => PlanRow::new(FILE, 0),
    });
    of_rows(rows.collect())
}

/// A chain down, then rows that hang below the root alone.
fn hook(count: usize) -> Case {
    let rows = (0..count).map(|row| match row {
        0 => PlanRow::new(ROOT, NONE),
        row if row <= count / 2 => PlanRow::new(FILE, row as u32 - 1),
        _ => PlanRow::new(FILE, 0),
    });
    of_rows(rows.collect())
}

fn of_rows(mut rows: Vec<PlanRow>) -> Case {
    mend_children(&mut rows);
    Case {
        plan: numbers(&rows),
        source: Vec::new(),
        flags: 0,
        room: written_length(&rows) as usize,
        answer: None,
    }
}

pub fn group() -> Group {
    let row = |title, make: fn(&mut Rng) -> File| {
        Row::new(title, move || Writing::of_file(&make(&mut Rng::new(60)))).aim(1.1)
    };
    let mut rows = vec![
        row("one unknown body of 16 MiB", large::largest_file).beside(1.2),
        row("1,022 unknown bodies of 16 KiB", large::most_unknown_nodes).beside(1.2),
        row("16 MiB of f in i", large::many_wide_faces).beside(1.2),
        row("mesh of 200,000 vertices, weighted", large::many_vertices).beside(1.2),
        row("64 properties, one a string of 16 MiB", large::huge_string),
        row("64 strings of 256 KiB", large::many_strings),
        row("1,024 x 64 short properties", large::most_short_properties),
        row("1,024 x 64 properties in 16 MiB", large::most_long_names),
        row("wagon: a skinned mesh of 3,200 faces", |_| large::wagon()),
        row("scene of 700 mixed nodes", |rng| scenes::mixed(rng, 700)),
        row("1,024 roots without properties", large::most_bare_nodes),
        row("tiny: one face (E11)", |_| worked::e11()),
    ];
    type Shape = (&'static str, fn(usize) -> Case);
    let shapes: [Shape; 4] = [
        ("a chain", |count| chain(&mut Rng::new(61), count)),
        ("all below one", wide),
        ("in pairs below one", pairs),
        ("half of them a chain", hook),
    ];
    for (title, make) in shapes {
        for count in [FEW, MAX_NODES] {
            let title = format!("{} bare rows, {title}", grouped(count));
            rows.push(Row::new(title, move || Writing::new(make(count))).aim(1.1));
        }
    }
    Group {
        title: "Writing",
        about: "The output is just as long as the file, and holds it already. Beside: a copy (memcpy) of the file's bytes.",
        beside: Some("memcpy"),
        growth: false,
        rows,
    }
}
