//! The benchmark: every row timed, as tables and as a picture.

use std::fs;

use crate::document;
use crate::picture;
use crate::table::{grouped, three, Table};
use crate::timing::{measure, Timed, CAREFUL};
use crate::work::Group;

/// Times all rows and prints their tables.
pub fn run(groups: Vec<Group>, write: bool) {
    let mut text = about();
    println!("{text}");
    let mut timed = Vec::new();
    for group in &groups {
        let rows = group.rows.iter().map(|row| {
            eprintln!("{}: {}", group.title, row.title);
            measure(row, group.beside.is_some())
        });
        let rows: Vec<Timed> = rows.collect();
        let part = format!(
            "\n### {}\n\n{}\n\n{}",
            group.title,
            group.about,
            table(group, &rows).text()
        );
        println!("{part}");
        text.push_str(&part);
        timed.push((group, rows));
    }
    if write {
        let picture = picture::draw(&timed);
        fs::write(document::docs().join("benchmarks.svg"), picture)
            .expect("the folder docs is there");
        document::write("Times", &text);
    }
}

fn about() -> String {
    format!(
        "{}

![The ratios as bars](benchmarks.svg)

Microseconds of one call: the median of {} rounds (of {} at least where a call is long), in one process, in which the
sides take turns; in a round of about {} ms a side does its work again and again on the same buffers. The aim is
the greatest ratio that is wanted.
",
        document::written_by(""),
        CAREFUL.most_rounds,
        CAREFUL.least_rounds,
        CAREFUL.round.as_millis()
    )
}

fn table(group: &Group, rows: &[Timed]) -> Table {
    let mut heads = vec![
        "file",
        "bytes",
        "nodes",
        "proved",
        "independent",
        "ratio",
        "aim",
    ];
    let to = group.beside.map(|beside| format!("to {beside}"));
    if let (Some(beside), Some(to)) = (group.beside, &to) {
        heads.extend([beside, to, "aim"]);
    }
    if group.growth {
        heads.extend(["ns a KiB", "ns a node"]);
    }
    let mut table = Table::new(&heads);
    for row in rows {
        let mut line = vec![row.title.clone(), grouped(row.bytes), grouped(row.nodes)];
        line.extend([three(row.times[0]), three(row.times[1])]);
        line.extend([format!("{:.2}", row.ratio()), aim(row.aim)]);
        if let Some(ratio) = row.beside_ratio() {
            let ratio = format!("{ratio:.2}");
            line.extend([three(row.times[2]), ratio, aim(row.beside_aim)]);
        }
        if group.growth {
            let nanoseconds = row.times[0] * 1e3;
            line.push(three(nanoseconds * 1024.0 / row.bytes as f64));
            line.push(three(nanoseconds / row.nodes.max(1) as f64));
        }
        table.add(line);
    }
    table
}

fn aim(aim: Option<f64>) -> String {
    aim.map_or("-".to_string(), |aim| format!("{aim:.1}"))
}
