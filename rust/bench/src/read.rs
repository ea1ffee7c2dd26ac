//! Readings.

use std::hint::black_box;

use corpus::format::{H, I};
use corpus::loads::{grown, scenes, slow};
use corpus::tree::File;
use corpus::{large, worked, Rng};

use crate::table::grouped;
use crate::work::{Group, Row, Side, Work};

/// A file and the table that it is read into.
pub struct Reading {
    file: Vec<u8>,
    table: Vec<u32>,
}

impl Reading {
    pub fn new(file: Vec<u8>) -> Reading {
        let table = vec![0; cast::TABLE_NUMBERS];
        Reading { file, table }
    }
}

/// Numbers of an answer as one.
fn mix(numbers: [u32; 9]) -> u64 {
    let mix = |sum: u64, number: u32| sum.wrapping_mul(0x100_0000_01B3) ^ u64::from(number);
    numbers.into_iter().fold(7, mix)
}

/// The nine numbers of an answer, whoever gave it.
macro_rules! numbers {
    ($reading:expr) => {{
        let r = $reading;
        mix([
            r.number,
            r.place,
            r.nodes,
            r.flags,
            r.own_known,
            r.own_unknown,
            r.faces,
            r.degenerate,
            r.links,
        ])
    }};
}

impl Work for Reading {
    fn run(&mut self, side: Side, times: usize) -> u64 {
        let Reading { file, table } = self;
        let mut last = 0;
        for _ in 0..times {
            let (file, table) = (black_box(&file[..]), black_box(&mut table[..]));
            last = match side {
                Side::Proved => numbers!(cast::read(file, table)),
                _ => numbers!(reference::read(file, table)),
            };
            black_box(last);
        }
        last
    }

    fn bytes(&self) -> usize {
        self.file.len()
    }

    fn nodes(&self) -> usize {
        let mut table = self.table.clone();
        reference::read(&self.file, &mut table).nodes as usize
    }
}

fn row(title: impl Into<String>, make: impl Fn(&mut Rng) -> File + 'static) -> Row {
    bytes(title, 1.0, move |rng| make(rng).bytes())
}

fn bytes(title: impl Into<String>, aim: f64, make: impl Fn(&mut Rng) -> Vec<u8> + 'static) -> Row {
    Row::new(title, move || Reading::new(make(&mut Rng::new(60)))).aim(aim)
}

pub fn group() -> Group {
    Group {
        title: "Reading",
        about: "The table is not cleared before a reading: it holds what the one before left.",
        beside: None,
        growth: false,
        rows: vec![
            row("1,024 nodes without properties", large::most_bare_nodes),
            row("1,021 bones", large::most_bones),
            row("765 bones of descending hashes, 256 handles", |rng| {
                scenes::descending_bones(rng, 1_024)
            }),
            row("scene of 700 mixed nodes", |rng| scenes::mixed(rng, 700)),
            row("wagon: a skinned mesh of 3,200 faces", |_| large::wagon()),
            row("63,302 links to one target", large::most_links),
            row("31,682 links to 511 targets", |rng| {
                scenes::many_targets(rng, 1_024)
            }),
            row("1,022 curves of 20 keys", |_| scenes::curves(1_024, 20)),
            row(
                "1,022 x 64 short properties, listed",
                large::most_listed_properties,
            ),
            row(
                "1,024 x 64 short properties, free",
                large::most_short_properties,
            ),
            row(
                "1,024 x 64 names that differ at their end",
                large::most_long_names,
            ),
            row("mesh of 200,000 vertices, weighted", large::many_vertices),
            row("16 MiB of f in b", large::many_small_faces),
            row("15 MiB of f in h", large::many_short_faces),
            row("16 MiB of f in i", large::many_wide_faces),
            row("64 properties, one a string of 16 MiB", large::huge_string),
            row("64 strings of 256 KiB", large::many_strings),
            row("1,023 unknown nodes of 16 bytes", |_| {
                scenes::unknown(1_024, 16)
            }),
            row("1,022 unknown nodes of 16 KiB", large::most_unknown_nodes),
            row("tiny: one face (E11)", |_| worked::e11()),
            row("tiny: a face out of range (E12)", |_| {
                worked::triangle([0, 1, 3])
            }),
            row("tiny: a wrong version (E9)", |_| worked::e9()),
            bytes("tiny: a byte missing (E4)", 1.0, |_| worked::e4()),
        ],
    }
}

pub fn slowest() -> Group {
    let row = |(title, make): large::Maker| bytes(title, 2.0, move |rng| make(rng).bytes());
    Group {
        title: "Reading, slowest found",
        about: "Buffers as above. What a search (`-- --search`) found to have the worst ratios, each at the size of a limit.",
        beside: None,
        growth: false,
        rows: slow::ALL.into_iter().map(row).collect(),
    }
}

pub fn growth() -> Group {
    let mut rows = Vec::new();
    for (code, letter) in [(H, 'h'), (I, 'i')] {
        for mebibytes in [1, 2, 4, 8, 16] {
            let title = format!("f in {letter}, {mebibytes} MiB");
            rows.push(row(title, move |rng| {
                grown::faces(rng, code, mebibytes << 20)
            }));
        }
    }
    for mebibytes in [1, 2, 4, 8, 16] {
        rows.push(row(format!("a string, {mebibytes} MiB"), move |_| {
            grown::string(mebibytes << 20)
        }));
    }
    type Maker = fn(&mut Rng, usize) -> File;
    let makers: [(&str, Maker); 5] = [
        ("bare nodes", |_, nodes| scenes::bare(nodes)),
        ("descending bones, handles", scenes::descending_bones),
        ("links to many targets", scenes::many_targets),
        ("mixed nodes", scenes::mixed),
        ("unknown nodes of 16 bytes", |_, nodes| {
            scenes::unknown(nodes, 16)
        }),
    ];
    for (title, make) in makers {
        for nodes in [128, 256, 512, 1_024] {
            let title = format!("{title}, {} nodes", grouped(nodes));
            rows.push(row(title, move |rng| make(rng, nodes)));
        }
    }
    Group {
        title: "Reading, growth",
        about:
            "Buffers as above. Within each sort, the time of a KiB or of a node is to stay alike.",
        beside: None,
        growth: true,
        rows,
    }
}
