//! Lookups.

use std::hint::black_box;

use corpus::loads::grown;
use corpus::tree::File;
use corpus::{large, Rng};
use reference::TABLE_NUMBERS;

use crate::work::{Group, Row, Side, Work};

/// A file with its rows, and what is asked of it.
struct Questions {
    bytes: Vec<u8>,
    table: Vec<u32>,
    nodes: usize,
    asked: Vec<(usize, Vec<u8>)>,
}

impl Questions {
    /// Every name of the first rows that have any, and one that is on none.
    fn new(file: &File, most_rows: usize) -> Questions {
        let bytes = file.bytes();
        let mut table = vec![0; TABLE_NUMBERS];
        let reading = reference::read(&bytes, &mut table);
        assert_eq!((reading.number, reading.place), (0, 0));
        let mut asked = Vec::new();
        let rows = file.nodes().into_iter().enumerate();
        let named = rows.filter(|(_, node)| !node.properties.is_empty());
        for (row, node) in named.take(most_rows) {
            let names = node.properties.iter().map(|property| property.name.clone());
            asked.extend(names.map(|name| (row, name)));
            asked.push((row, b"none".to_vec()));
        }
        Questions {
            bytes,
            table,
            nodes: reading.nodes as usize,
            asked,
        }
    }
}

impl Work for Questions {
    fn run(&mut self, side: Side, times: usize) -> u64 {
        let mut sum = 0;
        for _ in 0..times {
            sum = 0;
            let Questions {
                bytes,
                table,
                asked,
                ..
            } = black_box(&*self);
            for (row, name) in asked {
                let (number, end) = match side {
                    Side::Proved => {
                        let found = cast::lookup(bytes, table, *row, name);
                        (found.number, found.end)
                    }
                    _ => {
                        let found = reference::lookup(bytes, table, *row, name);
                        (found.number, found.end)
                    }
                };
                sum += u64::from(number) + end as u64;
            }
            black_box(sum);
        }
        sum
    }

    fn bytes(&self) -> usize {
        self.bytes.len()
    }

    fn nodes(&self) -> usize {
        self.nodes
    }

    fn calls(&self) -> usize {
        self.asked.len()
    }
}

pub fn group() -> Group {
    let row = |title, rows, make: fn(&mut Rng) -> File| {
        Row::new(title, move || {
            Questions::new(&make(&mut Rng::new(60)), rows)
        })
        .aim(1.0)
    };
    Group {
        title: "Lookup",
        about: "Asked are all names of all rows (of the first ten rows where they are alike), and of each one that it has not. The time is of one question.",
        beside: None,
        growth: false,
        rows: vec![
            row("wagon", usize::MAX, |_| large::wagon()),
            row("64 listed properties a node", 10, large::most_listed_properties),
            row("64 short properties a node, free", 10, large::most_short_properties),
            row("64 names that differ at their end", 10, large::most_long_names),
            row("62 links a node", 10, large::most_links),
            row("a string of 15 MiB", 10, |_| grown::string(15 << 20)),
        ],
    }
}
