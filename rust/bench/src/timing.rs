//! Times: sides take turns, and medians count.

use std::time::{Duration, Instant};

use crate::work::{Row, Side, Work};

/// How long a measurement goes on.
#[derive(Clone, Copy)]
pub struct Care {
    /// Rounds of long works are fewer, as many as a row has time for.
    pub most_rounds: usize,
    pub least_rounds: usize,
    pub row: Duration,
    /// A side does its work as often in a round as takes about so long.
    pub round: Duration,
}

/// Short rounds, so that what else the machine does falls into few of them.
pub const CAREFUL: Care = Care {
    most_rounds: 201,
    least_rounds: 15,
    row: Duration::from_secs(2),
    round: Duration::from_millis(1),
};

/// What a row took.
pub struct Timed {
    pub title: String,
    pub bytes: usize,
    pub nodes: usize,
    /// Microseconds of one call: proved, independent, and beside where there is one.
    pub times: Vec<f64>,
    pub aim: Option<f64>,
    pub beside_aim: Option<f64>,
}

impl Timed {
    pub fn ratio(&self) -> f64 {
        self.times[0] / self.times[1]
    }

    pub fn beside_ratio(&self) -> Option<f64> {
        Some(self.times[0] / self.times.get(2)?)
    }
}

pub fn measure(row: &Row, beside: bool) -> Timed {
    let mut work = (row.make)();
    let sides = match beside {
        true => vec![Side::Proved, Side::Independent, Side::Beside],
        false => vec![Side::Proved, Side::Independent],
    };
    Timed {
        title: row.title.clone(),
        bytes: work.bytes(),
        nodes: work.nodes(),
        times: medians(&mut *work, &sides, CAREFUL, &row.title),
        aim: row.aim,
        beside_aim: row.beside_aim,
    }
}

/// Microseconds of one call for each side. All must answer alike.
pub fn medians(work: &mut dyn Work, sides: &[Side], care: Care, title: &str) -> Vec<f64> {
    let answers: Vec<u64> = sides.iter().map(|&side| work.run(side, 1)).collect();
    let alike = answers.iter().all(|&answer| answer == answers[0]);
    assert!(alike, "{title}: the sides differ: {answers:?}");
    let once: Vec<Duration> = sides.iter().map(|&side| time(work, side, 1)).collect();
    let repeats: Vec<usize> = once
        .iter()
        .map(|once| (care.round.as_nanos() / once.as_nanos().max(1)).clamp(1, 100_000) as usize)
        .collect();
    let all: Duration = once.iter().map(|once| care.round.max(*once)).sum();
    let rounds = (care.row.as_nanos() / all.as_nanos()) as usize;
    let mut times = vec![Vec::new(); sides.len()];
    for round in 0..rounds.clamp(care.least_rounds, care.most_rounds) {
        // Each goes first as often as the others.
        for turn in 0..sides.len() {
            let number = (round + turn) % sides.len();
            times[number].push(time(work, sides[number], repeats[number]));
        }
    }
    let calls = work.calls();
    times
        .into_iter()
        .zip(repeats)
        .map(|(times, repeats)| median(times) * 1e6 / (repeats * calls) as f64)
        .collect()
}

fn time(work: &mut dyn Work, side: Side, times: usize) -> Duration {
    let start = Instant::now();
    work.run(side, times);
    start.elapsed()
}

fn median(mut times: Vec<Duration>) -> f64 {
    times.sort_unstable();
    times[times.len() / 2].as_secs_f64()
}
