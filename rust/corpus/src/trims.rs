//! Lists of trimmings of one file.

use crate::format::{MAX_NODES, TABLE};
use crate::rng::Rng;
use crate::rows::rows;

/// Rows that no file has. Of some the lowest bits are a small number, or become one times eight.
pub const FAR: [usize; 11] = [
    MAX_NODES,
    TABLE,
    u32::MAX as usize,
    1 << 32,
    1 << 32 | 1,
    usize::MAX / 8,
    usize::MAX / 8 + 1,
    usize::MAX / 8 + 2,
    1 << 63,
    1 << 63 | 1,
    usize::MAX,
];

/// What one trimming is given beside the file.
#[derive(Clone, Copy, Debug, PartialEq, Eq)]
pub struct Trimming {
    pub row: usize,
    /// Length of the table.
    pub table: usize,
    /// Length of the output.
    pub room: usize,
}

/// The rows still there, as far as lengths and row numbers need them.
#[derive(Clone, Debug)]
struct Remaining {
    /// Row number in the first file and, of an unknown row, its own bytes.
    rows: Vec<(usize, Option<usize>)>,
    length: usize,
}

impl Remaining {
    /// `table` holds the rows of the file alone.
    fn of(table: &[u32], length: usize) -> Self {
        let rows = rows(table, MAX_NODES).into_iter().enumerate();
        let rows = rows.map(|(number, row)| {
            let own = 24 + row.body() as usize;
            (number, (!row.is_known()).then_some(own))
        });
        Remaining {
            rows: rows.collect(),
            length,
        }
    }

    /// The current numbers of the unknown rows.
    fn unknown(&self) -> Vec<usize> {
        let rows = 0..self.rows.len();
        rows.filter(|row| self.rows[*row].1.is_some()).collect()
    }

    /// The file's length after the row is taken out, or as it is.
    fn length_without(&self, row: usize) -> usize {
        let own = self.rows.get(row).and_then(|row| row.1);
        self.length - own.unwrap_or(0)
    }

    /// Takes the row out if the trimming can.
    fn apply(&mut self, trimming: &Trimming) {
        let new = self.length_without(trimming.row);
        if trimming.table >= TABLE && trimming.room >= new && new < self.length {
            self.rows.remove(trimming.row);
            self.length = new;
        }
    }
}

/// A list of up to `most` trimmings, some of them refused.
pub fn list(rng: &mut Rng, table: &[u32], file_length: usize, most: usize) -> Vec<Trimming> {
    let mut remaining = Remaining::of(table, file_length);
    let faulty = *rng.pick(&[0, 30, 60, 90]);
    let count = rng.range(0, most);
    let mut list = Vec::new();
    for _ in 0..count {
        let trimming = trimming(rng, &remaining, faulty);
        remaining.apply(&trimming);
        list.push(trimming);
    }
    list
}

/// One trimming; `faulty` is the chance in percent of an odd number in it.
fn trimming(rng: &mut Rng, remaining: &Remaining, faulty: usize) -> Trimming {
    let count = remaining.rows.len();
    let unknown = remaining.unknown();
    let row = match rng.pick_any(&unknown) {
        Some(row) if !rng.chance(faulty) => *row,
        _ => match rng.below(6) {
            0 => count,
            1 => *rng.pick(&[count + 1, 1_023, 1_024, 8_192]),
            2 => *rng.pick(&[usize::MAX, usize::MAX / 8 + 1, 1 << 32, u32::MAX as usize]),
            _ => rng.below(count),
        },
    };
    let new = remaining.length_without(row);
    let table = match rng.chance(faulty / 3) {
        true => *rng.pick(&[0, 8, count * 8, 8_191, 8_192, 8_193, 8_200]),
        false => TABLE,
    };
    let room = match rng.chance(faulty / 2) {
        true => *rng.pick(&[0, 1, new - 1, new - 1, new, new + 1, remaining.length]),
        false => *rng.pick(&[new, new, new + 1, remaining.length, new + 100]),
    };
    Trimming { row, table, room }
}

/// Two lists that take the same unknown nodes out, in two orders; refused
/// trimmings stand between them.
pub fn orders(rng: &mut Rng, table: &[u32], file_length: usize) -> (Vec<Trimming>, Vec<Trimming>) {
    let first = Remaining::of(table, file_length);
    let share = *rng.pick(&[30, 60, 100]);
    let unknown = first.unknown();
    let mut chosen: Vec<usize> = unknown.into_iter().filter(|_| rng.chance(share)).collect();
    let mut one_order = |rng: &mut Rng| {
        rng.shuffle(&mut chosen);
        in_order(rng, first.clone(), &chosen)
    };
    (one_order(rng), one_order(rng))
}

fn in_order(rng: &mut Rng, mut remaining: Remaining, chosen: &[usize]) -> Vec<Trimming> {
    let mut list = Vec::new();
    for number in chosen {
        if rng.chance(20) {
            let mut refused = trimming(rng, &remaining, 80);
            refused.table = *rng.pick(&[0, 8_191]);
            list.push(refused);
        }
        let same = |row: &(usize, Option<usize>)| row.0 == *number;
        let Some(row) = remaining.rows.iter().position(same) else {
            continue;
        };
        let trimming = Trimming {
            row,
            table: TABLE + rng.below(3),
            room: remaining.length_without(row) + rng.skewed(50),
        };
        remaining.apply(&trimming);
        list.push(trimming);
    }
    list
}
