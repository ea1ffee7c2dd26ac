//! A search for files that the proved reader is slow on.

use std::collections::BTreeMap;
use std::time::{Duration, Instant};

use corpus::loads::drawn::{self, Drawn};
use corpus::Rng;

use crate::read::Reading;
use crate::table::{grouped, three, Table};
use crate::timing::{medians, Care, CAREFUL};
use crate::work::Side;

const SIDES: [Side; 2] = [Side::Proved, Side::Independent];

const QUICK: Care = Care {
    most_rounds: 9,
    least_rounds: 3,
    row: Duration::from_millis(10),
    round: Duration::from_micros(200),
};

/// Of so many of a family the ratio is measured again with care, and of so many that is shown.
const KEPT: usize = 5;
const SHOWN: usize = 2;

/// A file that was drawn, and its times: proved and independent.
struct Found {
    number: u64,
    about: String,
    times: Vec<f64>,
}

impl Found {
    fn measure(number: u64, care: Care) -> Found {
        let (family, Drawn { about, bytes }) = drawn::of(number);
        let about = format!("{family}: {about}; {} bytes", grouped(bytes.len()));
        let times = medians(&mut Reading::new(bytes), &SIDES, care, &about);
        Found {
            number,
            about,
            times,
        }
    }

    fn ratio(&self) -> f64 {
        self.times[0] / self.times[1]
    }
}

/// The worst first, and of files that were made alike one only.
fn worst(mut found: Vec<Found>, most: usize) -> Vec<Found> {
    found.sort_by(|one, other| other.ratio().total_cmp(&one.ratio()));
    let mut kept: Vec<Found> = Vec::new();
    for one in found {
        if kept.len() < most && kept.iter().all(|other| other.about != one.about) {
            kept.push(one);
        }
    }
    kept
}

/// Draws files as long as said, and prints those of each family with the worst ratios.
pub fn run(seed: u64, seconds: u64) {
    let mut rng = Rng::new(seed);
    let end = Instant::now() + Duration::from_secs(seconds);
    let mut families = BTreeMap::<&str, Vec<Found>>::new();
    let mut count = 0;
    while Instant::now() < end {
        // Small, so that it can be typed.
        let number = u64::from(rng.next_u32());
        let found = families.entry(drawn::family(number)).or_default();
        found.push(Found::measure(number, QUICK));
        count += 1;
    }
    println!(
        "{} files drawn from seed {seed}; the worst of each family, measured again:\n",
        grouped(count)
    );
    let mut shown = Vec::new();
    for found in families.into_values() {
        let again = worst(found, KEPT).into_iter();
        let again = again.map(|one| Found::measure(one.number, CAREFUL));
        shown.extend(worst(again.collect(), SHOWN));
    }
    let most = shown.len();
    print(&worst(shown, most));
}

/// Measures a drawn file with care and prints what it is.
pub fn show(number: u64) {
    print(&[Found::measure(number, CAREFUL)]);
}

fn print(found: &[Found]) {
    let mut table = Table::new(&["file", "number", "proved", "independent", "ratio"]);
    for one in found {
        table.add(vec![
            one.about.clone(),
            one.number.to_string(),
            three(one.times[0]),
            three(one.times[1]),
            format!("{:.2}", one.ratio()),
        ]);
    }
    println!("{}", table.text());
}

#[cfg(test)]
mod tests {
    use super::*;
    use crate::work::Work;

    #[test]
    fn both_readers_answer_alike_on_drawn_files() {
        for number in 0..600 {
            let (family, Drawn { about, bytes }) = drawn::of(number);
            assert!(bytes.len() <= 16 << 20, "{family}: {about}");
            let mut work = Reading::new(bytes);
            let answers = SIDES.map(|side| work.run(side, 1));
            assert_eq!(answers[0], answers[1], "{number}, {family}: {about}");
        }
    }
}
