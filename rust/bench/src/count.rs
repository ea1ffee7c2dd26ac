//! Instructions of one call, counted by callgrind, which no other load on the machine changes.

use std::hint::black_box;
use std::path::Path;
use std::process::{Command, Stdio};
use std::{env, fs, process};

use crate::document;
use crate::table::{grouped, Table};
use crate::work::{Group, Side, Work};

const SIDES: [Side; 2] = [Side::Proved, Side::Independent];

/// While this function runs, and then only, callgrind counts. Its end must be its own, and no jump into
/// what it calls.
#[inline(never)]
fn counted_work(work: &mut dyn Work, side: Side) -> u64 {
    black_box(work.run(black_box(side), 1))
}

/// Where this function is called, callgrind writes down what it has counted, and starts anew.
#[inline(never)]
fn written_down(answer: u64) -> u64 {
    black_box(answer)
}

const OPTIONS: [&str; 4] = [
    "-q",
    "--tool=callgrind",
    "--toggle-collect=*counted_work*",
    "--dump-before=*written_down*",
];

/// Where the C library clears or copies by one repeated instruction, callgrind counts every byte; with
/// this it does not use them.
const NO_REPEATS: &str =
    "glibc.cpu.x86_rep_stosb_threshold=1000000000:glibc.cpu.x86_rep_movsb_threshold=1000000000";

/// What runs below valgrind: each row once for each side.
pub fn child(groups: Vec<Group>) {
    for group in groups {
        for row in group.rows {
            let mut work = (row.make)();
            let answers = SIDES.map(|side| written_down(counted_work(&mut *work, side)));
            assert_eq!(answers[0], answers[1], "{}", row.title);
            println!("{}", work.calls());
        }
    }
}

/// Counts all rows and prints their tables. `only` goes on to the child.
pub fn run(groups: Vec<Group>, only: &[String], write: bool) {
    let version = Command::new("valgrind").arg("--version").output();
    let Ok(version) = version else {
        println!("valgrind is not here: nothing was counted.");
        return;
    };
    let version = String::from_utf8_lossy(&version.stdout).trim().to_string();
    let folder = env::temp_dir().join(format!("bench-{}", process::id()));
    fs::create_dir_all(&folder).expect("a folder for what callgrind writes");
    let out = folder.join("out");
    let program = env::current_exe().expect("this program's path");
    let output = Command::new("valgrind")
        .args(OPTIONS)
        .arg(format!("--callgrind-out-file={}", out.display()))
        .env("GLIBC_TUNABLES", NO_REPEATS)
        .arg(program)
        .arg("--counted")
        .args(only)
        .stderr(Stdio::inherit())
        .output()
        .expect("valgrind runs");
    assert!(output.status.success(), "the counted run failed");
    let calls = String::from_utf8_lossy(&output.stdout);
    let mut calls = calls.lines().filter_map(|line| line.parse::<usize>().ok());
    let mut dumps = 1..;
    let mut text = about(&version);
    for group in &groups {
        let mut table = Table::new(&["file", "proved", "independent", "ratio"]);
        for row in &group.rows {
            let calls = calls.next().expect("a line for each row");
            let counts = SIDES.map(|_| {
                let dump = dumps.next().expect("numbers do not end");
                counted(&folder.join(format!("out.{dump}"))) as f64 / calls as f64
            });
            table.add(vec![
                row.title.clone(),
                grouped(counts[0].round() as usize),
                grouped(counts[1].round() as usize),
                format!("{:.2}", counts[0] / counts[1]),
            ]);
        }
        text.push_str(&format!("\n### {}\n\n{}", group.title, table.text()));
    }
    fs::remove_dir_all(&folder).expect("the folder was made above");
    println!("{text}");
    if write {
        // Headings of the times have the same words.
        document::write(
            "Instructions",
            &text.replace("\n### ", "\n### Instructions: "),
        );
    }
}

/// The sum that a dump of callgrind's ends with.
fn counted(path: &Path) -> u64 {
    let dump = fs::read_to_string(path).expect("a dump for each call");
    let mut sums = dump.lines().filter_map(|line| {
        let sum = line.strip_prefix("summary: ")?;
        sum.trim().parse().ok()
    });
    sums.next().expect("a sum in each dump")
}

fn about(version: &str) -> String {
    format!(
        "{}

Instructions of one call, counted by callgrind ({version}) between the call's start and its end. They hardly change
from run to run, however noisy the machine; but they are no times: a copy by memcpy moves 32 bytes or more in one
instruction, and nothing is said of memory.
",
        document::written_by("--count")
    )
}
