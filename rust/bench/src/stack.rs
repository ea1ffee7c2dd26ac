//! Stack that the exported functions need.
//!
//! A child goes down so many frames of a known size in a thread, and then calls. The deepest that it
//! survives, compared with the deepest without a call, tells the need.

use std::hint::black_box;
use std::process::{Command, Stdio};
use std::{env, thread};

use corpus::loads::{grown, scenes};
use corpus::tree::File;
use corpus::{large, worked, Rng};

use crate::document;
use crate::table::{grouped, Table};

const STACK: usize = 1 << 20;
/// Room for the thread's own start.
const MOST: usize = 16;
const FUNCTIONS: [&str; 4] = ["cast_read", "cast_lookup", "cast_write", "cast_trim"];
/// In place of a function, where none is called.
const NONE: &str = "none";

/// Inputs of many sorts, as a branch that is not taken is not measured.
fn files() -> Vec<Vec<u8>> {
    let mut rng = Rng::new(62);
    let files: [File; 6] = [
        grown::noted(large::wagon()),
        grown::noted(scenes::mixed(&mut rng, 700)),
        grown::noted(scenes::descending_bones(&mut rng, 1_000)),
        grown::noted(scenes::many_targets(&mut rng, 1_000)),
        worked::e11(),
        worked::e10(),
    ];
    let mut files: Vec<Vec<u8>> = files.iter().map(File::bytes).collect();
    files.extend(worked::all().into_iter().map(|(_, file)| file));
    files
}

/// What the functions are given; made before the thread, so that nothing lies below its stack.
struct Given {
    file: Vec<u8>,
    rows: Vec<u32>,
    table: Vec<u32>,
    out: Vec<u8>,
}

fn given() -> Vec<Given> {
    let files = files().into_iter().map(|file| {
        let mut table = vec![0; reference::TABLE_NUMBERS];
        let nodes = reference::read(&file, &mut table).nodes as usize;
        Given {
            rows: table[..8 * nodes].to_vec(),
            out: vec![0; file.len()],
            file,
            table,
        }
    });
    files.collect()
}

/// The calls of one function on all that is given.
fn call(function: &str, given: &mut [Given]) {
    for given in given {
        let Given {
            file,
            rows,
            table,
            out,
        } = given;
        match function {
            "cast_read" => drop(black_box(cast::read(file, table))),
            "cast_lookup" => {
                for row in 0..rows.len() / 8 + 1 {
                    black_box(cast::lookup(file, rows, row, b"n"));
                    black_box(cast::lookup(file, rows, row, b"none"));
                }
            }
            "cast_write" => drop(black_box(cast::write(rows, file, 0, out))),
            "cast_trim" => {
                for row in [0, 1, 2_000] {
                    black_box(cast::trim(file, row, table, out));
                }
            }
            _ => {}
        }
    }
}

/// Goes down so many frames, calls there, and answers how far down that was.
#[inline(never)]
fn down(frames: usize, top: usize, function: &str, given: &mut [Given]) -> usize {
    let mark = black_box([frames; 4]);
    let here = mark.as_ptr() as usize;
    let top = if top == 0 { here } else { top };
    if frames == 0 {
        call(function, given);
        return top - here;
    }
    let deep = down(frames - 1, top, function, given);
    black_box(&mark);
    deep
}

/// The child: survives, or not.
pub fn child(function: &str, frames: usize) {
    let mut given = given();
    let function = function.to_string();
    let thread = thread::Builder::new().stack_size(STACK);
    let deep = thread.spawn(move || down(frames, 0, &function, &mut given));
    let deep = deep.expect("a thread").join().expect("no panic");
    println!("{deep}");
}

/// How many bytes down a child came, if it survived.
fn survives(function: &str, frames: usize) -> Option<usize> {
    let program = env::current_exe().expect("this program's path");
    let output = Command::new(program)
        .args(["--survive", function, &frames.to_string()])
        .stderr(Stdio::null())
        .output()
        .expect("the child starts");
    let told = String::from_utf8_lossy(&output.stdout);
    output.status.success().then(|| told.trim().parse().ok())?
}

/// The most bytes down at which a call of the function survives.
fn deepest(function: &str) -> usize {
    let (mut good, mut bad) = (0, STACK / MOST);
    let mut deep = survives(function, good).expect("a shallow call survives");
    assert!(survives(function, bad).is_none(), "frames are too small");
    while bad - good > 1 {
        let middle = (good + bad) / 2;
        match survives(function, middle) {
            Some(bytes) => (good, deep) = (middle, bytes),
            None => bad = middle,
        }
    }
    deep
}

pub fn run(write: bool) {
    let whole = deepest(NONE);
    let mut table = Table::new(&["function", "bytes of stack", "aim, below"]);
    for function in FUNCTIONS {
        let need = whole - deepest(function);
        table.add(vec![
            format!("`{function}`"),
            grouped(need),
            grouped(20 << 10),
        ]);
    }
    let text = format!(
        "{}

What a call of each exported function takes of the stack, with all that it calls: how much sooner a thread's stack ends
when the function is called at the bottom of it than when none is. To some 100 bytes; the greatest need of {} inputs
(valid, refused, with links, bones and faces).

{}",
        document::written_by("--stack"),
        files().len(),
        table.text()
    );
    println!("{text}");
    if write {
        document::write("Stack", &text);
    }
}
