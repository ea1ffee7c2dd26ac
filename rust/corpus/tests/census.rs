//! Counts of the answers that generated inputs lead to. Every refusal but 8
//! must be among them, and 8 never.

mod common;

use std::collections::BTreeMap;

use common::{accepted, accepted_as, body, check_table, hex, placeless, read, BLANK, STALE};
use corpus::format::TABLE;
use corpus::lookups::{self, Lookup};
use corpus::mutate::{self, Damage};
use corpus::plans::{self, Plan};
use corpus::rng::Rng;
use corpus::rows::rows;
use corpus::valid::{file, mixed, Profile};
use corpus::{tree::File, trims};

/// Counts of numbers by the name of what led to them.
#[derive(Default)]
struct Census {
    counts: BTreeMap<(usize, &'static str), BTreeMap<u32, usize>>,
}

impl Census {
    fn add(&mut self, order: usize, name: &'static str, number: u32) {
        let counts = self.counts.entry((order, name)).or_default();
        *counts.entry(number).or_default() += 1;
    }

    fn totals(&self) -> BTreeMap<u32, usize> {
        let mut totals = BTreeMap::new();
        for (number, count) in self.counts.values().flatten() {
            *totals.entry(*number).or_default() += count;
        }
        totals
    }

    fn show(&self, title: &str) {
        let line = |counts: &BTreeMap<u32, usize>| -> String {
            let cells = counts
                .iter()
                .map(|(number, count)| format!(" {number}:{count}"));
            cells.collect()
        };
        let mut text = format!("\n{title}\n");
        for ((_, name), counts) in &self.counts {
            text += &format!("  {name:26}{}\n", line(counts));
        }
        text += &format!("  {:26}{}\n", "all", line(&self.totals()));
        println!("{text}");
    }

    fn reached(&self, numbers: impl IntoIterator<Item = u32>) {
        let totals = self.totals();
        for number in numbers {
            assert!(totals.contains_key(&number), "{number} was not reached");
        }
    }
}

fn some_file(rng: &mut Rng) -> File {
    match rng.chance(50) {
        true => file(rng, &Profile::SMALL),
        false => mixed(rng),
    }
}

/// The walk alone gives the refusals up to 12 and no others.
fn check_walk(bytes: &[u8], answer: (u32, u32)) {
    let walked = reference::walk(bytes, &mut common::table());
    let told = match answer.0 {
        13.. => (0, 0),
        _ => answer,
    };
    assert_eq!((walked.0, walked.1), told, "{}", hex(bytes));
}

#[test]
fn reader() {
    let mut rng = Rng::new(31);
    let mut census = Census::default();
    for round in 0..3_000 {
        let file = some_file(&mut rng);
        for (order, kind) in mutate::ALL.iter().enumerate() {
            if *kind == Damage::ManyNodes && round % 10 != 0 {
                continue;
            }
            let Some(damaged) = mutate::damage(&mut rng, &file, *kind) else {
                continue;
            };
            let (reading, _) = read(&damaged.bytes);
            census.add(order, kind.name(), reading.number);
            if let Some(answer) = damaged.answer {
                let told = (reading.number, reading.place);
                assert_eq!(told, answer, "{}: {}", kind.name(), hex(&damaged.bytes));
                check_walk(&damaged.bytes, answer);
            }
            if reading.number != 0 {
                let others = [
                    reading.nodes,
                    reading.flags,
                    reading.own_known,
                    reading.own_unknown,
                    reading.faces,
                    reading.degenerate,
                    reading.links,
                ];
                assert_eq!(others, [0; 7], "{}", hex(&damaged.bytes));
            }
        }
    }
    let last = mutate::ALL.len();
    for _ in 0..200 {
        let bytes = some_file(&mut rng).bytes();
        let mut table = vec![STALE; mutate::table_length(&mut rng)];
        let reading = reference::read(&bytes, &mut table);
        if table.len() < TABLE {
            assert!(table.iter().all(|number| *number == STALE));
        }
        assert_eq!(reading.number, u32::from(table.len() < TABLE));
        census.add(last, "table length", reading.number);
    }
    let (reading, _) = read(&mutate::too_long(&mut rng));
    census.add(last + 1, "too long", reading.number);
    census.show("reader");
    census.reached((1..=17).filter(|number| *number != 8));
    assert!(!census.totals().contains_key(&8));
    let missing = mutate::ALL.iter().enumerate();
    for (order, kind) in missing {
        assert!(census.counts.contains_key(&(order, kind.name())));
    }
}

#[test]
fn any_damage() {
    let mut rng = Rng::new(32);
    let mut census = Census::default();
    for _ in 0..60_000 {
        let file = mixed(&mut rng);
        let (kind, damaged) = mutate::any(&mut rng, &file);
        let (reading, _) = read(&damaged.bytes);
        census.add(0, "any damage", reading.number);
        if let Some(answer) = damaged.answer {
            let told = (reading.number, reading.place);
            assert_eq!(told, answer, "{}: {}", kind.name(), hex(&damaged.bytes));
        }
    }
    census.show("any damage");
}

/// Writes a case, checks the output, and reads what was written.
fn write(case: &plans::Case) -> (u32, u32) {
    let mut out = vec![BLANK; case.room];
    let written = reference::write(&case.plan, &case.source, case.flags, &mut out);
    let length = written.length as usize;
    assert!(out[length..].iter().all(|byte| *byte == BLANK));
    if written.number != 0 {
        assert_eq!(length, 0);
        return (written.number, written.place);
    }
    out.truncate(length);
    let (reading, table) = read(&out);
    if reading.number == 0 {
        let plan = rows(&case.plan, 1_024);
        let new = rows(&table, reading.nodes as usize);
        assert_eq!(placeless(&plan), placeless(&new));
        for (planned, read) in plan.iter().zip(&new) {
            assert_eq!(body(&case.source, planned), body(&out, read));
        }
        assert_eq!(reading.flags, case.flags);
    }
    (0, written.place)
}

#[test]
fn writer() {
    let mut rng = Rng::new(33);
    let mut census = Census::default();
    for round in 0..1_500 {
        let (bytes, table) = accepted_as(&some_file(&mut rng));
        for (order, kind) in plans::ALL.iter().enumerate() {
            let long = matches!(
                kind,
                Plan::Chain | Plan::LongestFile | Plan::OverLongest | Plan::OverWord
            );
            if long && round % 20 != 0 {
                continue;
            }
            let Some(case) = plans::plan(&mut rng, &table, &bytes, *kind) else {
                continue;
            };
            let told = write(&case);
            census.add(order, kind.name(), told.0);
            if let Some(answer) = case.answer {
                let plan = rows(&case.plan, 1_025);
                assert_eq!(told, answer, "{}: {plan:?} {}", kind.name(), hex(&bytes));
            }
        }
    }
    census.show("writer");
    census.reached(20..=26);
    for (order, kind) in plans::ALL.iter().enumerate() {
        assert!(census.counts.contains_key(&(order, kind.name())));
    }
}

#[test]
fn trimmer() {
    let mut rng = Rng::new(34);
    let mut census = Census::default();
    for _ in 0..6_000 {
        let mut file = some_file(&mut rng).bytes();
        let (_, rows) = accepted(&file);
        let table = corpus::rows::numbers(&rows);
        for trimming in trims::list(&mut rng, &table, file.len(), 6) {
            let mut table = vec![STALE; trimming.table];
            let mut out = vec![BLANK; trimming.room];
            let written = reference::trim(&file, trimming.row, &mut table, &mut out);
            census.add(0, "trimming", written.number);
            if written.number == 0 {
                out.truncate(written.length as usize);
                file = out;
            }
        }
        // Damaged files get the reader's refusals.
        let other = mixed(&mut rng);
        let (_, damaged) = mutate::any(&mut rng, &other);
        let mut table = common::table();
        let mut out = vec![BLANK; damaged.bytes.len()];
        let written = reference::trim(&damaged.bytes, rng.below(4), &mut table, &mut out);
        census.add(1, "damaged file", written.number);
        if let Some(answer) = damaged.answer {
            assert_eq!((written.number, written.place), answer);
        }
        if written.number != 0 {
            assert_eq!(written.length, 0);
            assert!(out.iter().all(|byte| *byte == BLANK));
            check_table(&damaged.bytes, &table, written.number, 0);
        }
    }
    census.show("trimmer");
    census.reached(30..=32);
}

#[test]
fn lookup() {
    let mut rng = Rng::new(35);
    let mut census = Census::default();
    for _ in 0..6_000 {
        let file = some_file(&mut rng);
        for (order, kind) in lookups::ALL.iter().enumerate() {
            let Some(case) = lookups::lookup(&mut rng, &file, *kind) else {
                continue;
            };
            let found = reference::lookup(&case.bytes, &case.table, case.row, &case.name);
            census.add(order, kind.name(), found.number);
            assert_eq!(found.place, 0);
            if found.number != 0 {
                assert_eq!(found.start, found.end);
            }
            match case.answer {
                Some(Ok(part)) => {
                    let told = (found.number, found.start, found.end);
                    assert_eq!(told, (0, part.0, part.1), "{}: {case:?}", kind.name());
                }
                Some(Err(number)) => {
                    assert_eq!(found.number, number, "{}: {case:?}", kind.name());
                }
                None => {}
            }
        }
    }
    census.show("lookup");
    census.reached(40..=43);
    for (order, kind) in lookups::ALL.iter().enumerate() {
        let reached = census.counts.contains_key(&(order, kind.name()));
        assert!(reached, "{}", Lookup::name(*kind));
    }
}
