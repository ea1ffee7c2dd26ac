//! The benchmark.
//!
//! * without a mode: times of all rows
//! * `--count`: instructions of all rows, where valgrind is there
//! * `--stack`: stack that the exported functions need
//! * `--search --seed N --seconds N`: files that the proved reader is slow on
//! * `--drawn N`: what such a file is, and its times
//!
//! `--write` puts what the first three print into `docs/BENCHMARKS.md`. `--only TEXT` leaves out all rows
//! but those with this text in their title or their group's.

#![forbid(unsafe_code)]

mod count;
mod document;
mod lookup;
mod picture;
mod read;
mod search;
mod stack;
mod table;
mod times;
mod timing;
mod trim;
mod work;
mod write;

use std::env;

use work::Group;

fn groups(only: Option<&str>) -> Vec<Group> {
    let mut groups = vec![
        read::group(),
        read::slowest(),
        read::growth(),
        lookup::group(),
        write::group(),
        trim::group(),
        trim::growth(),
    ];
    if let Some(text) = only {
        for group in &mut groups {
            let whole = group.title.contains(text);
            group.rows.retain(|row| whole || row.title.contains(text));
        }
        groups.retain(|group| !group.rows.is_empty());
    }
    groups
}

/// What the program was started with.
struct Arguments(Vec<String>);

impl Arguments {
    fn has(&self, name: &str) -> bool {
        self.0.iter().any(|argument| argument == name)
    }

    /// What stands after a name.
    fn after(&self, name: &str) -> Option<&str> {
        let at = self.0.iter().position(|argument| argument == name)?;
        self.0.get(at + 1).map(String::as_str)
    }

    fn number(&self, name: &str, default: u64) -> u64 {
        let number = self.after(name).map(|number| number.parse());
        number.map_or(default, |number| number.expect("a number"))
    }
}

fn main() {
    let arguments = Arguments(env::args().skip(1).collect());
    let only = arguments.after("--only");
    let write = arguments.has("--write");
    assert!(!write || only.is_none(), "a part is not written");
    if arguments.has("--search") {
        let (seed, seconds) = (
            arguments.number("--seed", 1),
            arguments.number("--seconds", 60),
        );
        search::run(seed, seconds);
    } else if arguments.has("--drawn") {
        search::show(arguments.number("--drawn", 0));
    } else if arguments.has("--stack") {
        stack::run(write);
    } else if let Some(function) = arguments.after("--survive") {
        let frames = arguments.number(function, 0);
        stack::child(function, frames as usize);
    } else if arguments.has("--counted") {
        count::child(groups(only));
    } else if arguments.has("--count") {
        let only_again = only.map_or(Vec::new(), |text| vec!["--only".into(), text.into()]);
        count::run(groups(only), &only_again, write);
    } else {
        times::run(groups(only), write);
    }
}
