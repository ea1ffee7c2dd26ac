//! `docs/BENCHMARKS.md`, of which each mode writes its own section, and when and where that was.

use std::path::{Path, PathBuf};
use std::time::{SystemTime, UNIX_EPOCH};
use std::{fs, thread};

/// The sections, in their order.
const SECTIONS: [&str; 3] = ["Times", "Instructions", "Stack"];

const HEAD: &str = "\
# Benchmarks

The proved library beside the independent one (`rust/reference`), which is plain safe Rust. Each section is written by
the command that stands in it, run in `rust/`; why it is measured so, [DECISIONS](DECISIONS.md) says. A ratio is the
proved figure divided by the other.
";

pub fn docs() -> PathBuf {
    Path::new(env!("CARGO_MANIFEST_DIR")).join("../../docs")
}

/// Puts a section into the document in place of the one of the same name.
pub fn write(section: &str, text: &str) {
    let path = docs().join("BENCHMARKS.md");
    let old = fs::read_to_string(&path).unwrap_or_default();
    fs::write(path, with_section(&old, section, text)).expect("the folder docs is there");
}

fn with_section(old: &str, section: &str, text: &str) -> String {
    let mut document = HEAD.to_string();
    for name in SECTIONS {
        let body = match name == section {
            true => Some(text),
            false => body(old, name),
        };
        if let Some(body) = body {
            document.push_str(&format!("\n## {name}\n\n{}\n", body.trim()));
        }
    }
    document
}

/// What stands below a heading, up to the next of its level.
fn body<'a>(document: &'a str, section: &str) -> Option<&'a str> {
    let heading = format!("\n## {section}\n");
    let start = document.find(&heading)? + heading.len();
    let rest = &document[start..];
    // The line's end belongs to the next heading as well.
    let end = rest.find("\n## ").unwrap_or(rest.len());
    Some(&rest[..end])
}

/// The command, the day and the machine, as the first line of a section.
pub fn written_by(arguments: &str) -> String {
    let command = match arguments {
        "" => "-- --write".to_string(),
        arguments => format!("-- {arguments} --write"),
    };
    format!(
        "By `cargo run --release --offline -p bench {command}`, on {}, {}.",
        today(),
        machine()
    )
}

/// The processor's name, where the system tells it, and how many cores there are.
fn machine() -> String {
    let told = fs::read_to_string("/proc/cpuinfo").unwrap_or_default();
    let mut names = told.lines().filter_map(|line| {
        let (key, name) = line.split_once(':')?;
        (key.trim() == "model name").then(|| name.trim().to_string())
    });
    let name = names.next();
    let name = name.unwrap_or_else(|| "an unknown processor".into());
    let cores = thread::available_parallelism().map_or(1, usize::from);
    format!("{name}, {cores} cores")
}

/// Year, month and day.
fn today() -> String {
    let since = SystemTime::now().duration_since(UNIX_EPOCH);
    date(since.map_or(0, |since| since.as_secs() / 86_400))
}

/// The date of a day that is counted from 1 January 1970.
fn date(days: u64) -> String {
    let leap = |year: u64| {
        year.is_multiple_of(4) && (!year.is_multiple_of(100) || year.is_multiple_of(400))
    };
    let (mut year, mut left) = (1970, days);
    while left >= 365 + u64::from(leap(year)) {
        left -= 365 + u64::from(leap(year));
        year += 1;
    }
    let february = 28 + u64::from(leap(year));
    let months = [31, february, 31, 30, 31, 30, 31, 31, 30, 31, 30, 31];
    let mut month = 0;
    while left >= months[month] {
        left -= months[month];
        month += 1;
    }
    format!("{year}-{:02}-{:02}", month + 1, left + 1)
}

#[cfg(test)]
mod tests {
    use super::*;

    #[test]
    fn a_section_is_replaced_and_the_others_stay() {
        let first = with_section("", "Stack", "s");
        let both = with_section(&first, "Times", "t\n\n### Reading\n\nx");
        let again = with_section(&both, "Stack", "new");
        assert_eq!(
            body(&again, "Times").map(str::trim),
            Some("t\n\n### Reading\n\nx")
        );
        assert_eq!(body(&again, "Stack").map(str::trim), Some("new"));
        assert_eq!(with_section(&again, "Stack", "s"), both);
    }

    #[test]
    fn days_have_dates() {
        let dates = [0, 58, 59, 789, 19_782, 20_453].map(date);
        let told = [
            "1970-01-01",
            "1970-02-28",
            "1970-03-01",
            "1972-02-29",
            "2024-02-29",
            "2025-12-31",
        ];
        assert_eq!(dates, told);
    }
}
