//! Trimmings.

use std::hint::black_box;

use corpus::format::{MAX_FILE, MAX_NODES};
use corpus::loads::grown::{self, noted};
use corpus::loads::scenes;
use corpus::tree::File;
use corpus::{large, worked, Rng};

use crate::table::grouped;
use crate::work::{Group, Row, Side, Work};

/// A file, the row that is taken out of it, the table and the output.
struct Trimming {
    file: Vec<u8>,
    row: usize,
    nodes: usize,
    table: Vec<u32>,
    out: Vec<u8>,
}

impl Trimming {
    fn new(file: &File, row: usize) -> Trimming {
        let nodes = file.nodes().len();
        let file = file.bytes();
        let mut table = vec![0; cast::TABLE_NUMBERS];
        let mut out = vec![0; file.len()];
        let written = reference::trim(&file, row, &mut table, &mut out);
        assert_eq!(written.number, 0);
        out.truncate(written.length as usize);
        Trimming {
            file,
            row,
            nodes,
            table,
            out,
        }
    }
}

impl Work for Trimming {
    fn run(&mut self, side: Side, times: usize) -> u64 {
        let Trimming {
            file,
            row,
            table,
            out,
            ..
        } = self;
        let mut last = (0, 0);
        for _ in 0..times {
            let (file, row) = (black_box(&file[..]), black_box(*row));
            let (table, out) = (black_box(&mut table[..]), black_box(&mut out[..]));
            last = match side {
                Side::Proved => {
                    let written = cast::trim(file, row, table, out);
                    (written.number, written.length)
                }
                Side::Independent => {
                    let written = reference::trim(file, row, table, out);
                    (written.number, written.length)
                }
                Side::Beside => {
                    let reading = cast::read(file, table);
                    out.copy_from_slice(&file[..out.len()]);
                    (reading.number, out.len() as u32)
                }
            };
            black_box(last);
        }
        u64::from(last.0) << 32 | u64::from(last.1)
    }

    fn bytes(&self) -> usize {
        self.file.len()
    }

    fn nodes(&self) -> usize {
        self.nodes
    }
}

fn row(title: impl Into<String>, make: impl Fn(&mut Rng) -> (File, usize) + 'static) -> Row {
    Row::new(title, move || {
        let (file, row) = make(&mut Rng::new(60));
        Trimming::new(&file, row)
    })
}

pub fn group() -> Group {
    let notes = MAX_NODES - 1;
    let makers: [large::Maker; 6] = [
        ("one beside 16 MiB of f in i", large::many_wide_faces),
        ("one of a mesh of 200,000 vertices", large::many_vertices),
        ("one beside a string of 16 MiB", large::huge_string),
        ("one beside 64 strings of 256 KiB", large::many_strings),
        ("one of a wagon of 3,200 faces", |_| large::wagon()),
        ("one beside one face (E11)", |_| worked::e11()),
    ];
    let mut rows = vec![row("one of a mesh of 16 MiB of vertices", |_| {
        (noted(grown::vertices(16 << 20)), 1)
    })
    .aim(1.1)
    .beside(1.2)];
    for (title, make) in makers {
        rows.push(row(title, move |rng| (noted(make(rng)), 1)));
    }
    rows.push(row("tiny: one of two nodes (E10)", |_| (worked::e10(), 1)));
    for (which, at) in [("first", 1), ("middle", notes / 2), ("last", notes)] {
        let full = move |_: &mut Rng| (scenes::unknown(MAX_NODES, MAX_FILE / notes - 30), at);
        let bare = move |_: &mut Rng| (scenes::unknown(MAX_NODES, 0), at);
        rows.push(row(format!("{which} of 1,023 in 16 MiB"), full));
        rows.push(row(format!("{which} of 1,023 bare ones"), bare));
    }
    Group {
        title: "Trimming",
        about: ABOUT,
        beside: Some("read and memcpy"),
        growth: false,
        rows,
    }
}

pub fn growth() -> Group {
    let mut rows = Vec::new();
    for mebibytes in [1, 2, 4, 8, 16] {
        let title = format!("one of a mesh of vertices, {mebibytes} MiB");
        rows.push(row(title, move |_| {
            (noted(grown::vertices(mebibytes << 20)), 1)
        }));
    }
    for nodes in [128, 256, 512, 1_024] {
        let title = format!("one of unknown nodes of 16 bytes, {} nodes", grouped(nodes));
        rows.push(row(title, move |_| (scenes::unknown(nodes, 16), nodes / 2)));
    }
    Group {
        title: "Trimming, growth",
        about: "Buffers as above.",
        beside: Some("read and memcpy"),
        growth: true,
        rows,
    }
}

const ABOUT: &str = "The output is just as long as the new file, and holds it, or as many bytes of the old one, already; the table holds what the trimming before left. Beside: a proved reading and a copy (memcpy) of as many bytes as the new file has.";
