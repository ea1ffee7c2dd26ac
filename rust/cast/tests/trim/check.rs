//! What a trimming is held to: the independent trimmer, a reading of the file, and of lists the tally and the tree.

use std::collections::BTreeMap;

use cast::{read, trim, Reading, Written, TABLE_NUMBERS};
use corpus::rows::rows;
use corpus::tree::{File, Node};
use corpus::trims::{Trimming, FAR};
use corpus::valid::{file, mixed, unknown, Profile};
use corpus::Rng;
use reference::Tally;

/// How often each answer came.
pub type Census = BTreeMap<u32, usize>;

/// The table and the output of a trimming.
#[derive(Default)]
pub struct Buffers {
    pub table: Vec<u32>,
    pub out: Vec<u8>,
}

impl Buffers {
    fn copy(&mut self, other: &Buffers) {
        self.table.clone_from(&other.table);
        self.out.clone_from(&other.out);
    }
}

/// Counts and buffers of a test, and its draws.
pub struct Check {
    pub rng: Rng,
    /// What the buffers held at first.
    first: Buffers,
    pub proved: Buffers,
    independent: Buffers,
    pub answers: Census,
}

impl Check {
    pub fn new(seed: u64) -> Check {
        Check {
            rng: Rng::new(seed),
            first: Buffers::default(),
            proved: Buffers::default(),
            independent: Buffers::default(),
            answers: Census::new(),
        }
    }

    /// Trims with buffers of drawn numbers and bytes. Compares both answers and all of both buffers, and
    /// both with what a reading of the file tells.
    pub fn agree(&mut self, file: &[u8], given: Trimming) -> Written {
        self.draw(given);
        let Trimming { row, .. } = given;
        let Buffers { table, out } = &mut self.independent;
        let told = same(reference::trim(file, row, table, out));
        let Buffers { table, out } = &mut self.proved;
        let answer = trim(file, row, table, out);
        assert_eq!(answer, told, "{}", shown(file, given));
        let (proved, independent) = (&self.proved, &self.independent);
        let at = difference(&proved.table, &independent.table);
        assert_eq!(at, None, "the tables differ: {}", shown(file, given));
        let at = difference(&proved.out, &independent.out);
        assert_eq!(at, None, "the outputs differ: {}", shown(file, given));
        assert_eq!(answer, by_reading(file, given), "{}", shown(file, given));
        assert!(self.buffers_right(answer), "{}", shown(file, given));
        *self.answers.entry(answer.number).or_default() += 1;
        answer
    }

    fn draw(&mut self, given: Trimming) {
        let Buffers { table, out } = &mut self.first;
        table.clear();
        table.resize_with(given.table, || self.rng.next_u32());
        out.resize(given.room, 0);
        self.rng.fill(out);
        self.proved.copy(&self.first);
        self.independent.copy(&self.first);
    }

    /// Whether the table has the rows of the new file or is cleared, and all else is as it was.
    fn buffers_right(&self, answer: Written) -> bool {
        let (table, out) = (&self.proved.table, &self.proved.out);
        let length = answer.length as usize;
        if answer.number == 1 {
            return *table == self.first.table && *out == self.first.out;
        }
        let (rows, past) = table.split_at(TABLE_NUMBERS);
        let right = match answer.number {
            0 => rows == read_whole(&out[..length]).1,
            _ => rows.iter().all(|&number| number == 0),
        };
        right
            && *past == self.first.table[TABLE_NUMBERS..]
            && out[length..] == self.first.out[length..]
    }

    /// Trims with buffers that are long enough for any trimming of the file.
    pub fn with_room(&mut self, file: &[u8], row: usize) -> Written {
        self.agree(file, given(row, TABLE_NUMBERS, file.len()))
    }

    /// Runs a list of trimmings, each on the file last written. The tally answers the same and ends with the
    /// same file, which is the tree without the removed nodes. Gives that file, and how many these are.
    pub fn list(&mut self, first: &File, list: &[Trimming]) -> (Vec<u8>, usize) {
        let bytes = first.bytes();
        let mut tally = Tally::new(&bytes).expect("an accepted file");
        let mut file = bytes.clone();
        for &given in list {
            let answer = self.agree(&file, given);
            let told = tally.answer(given.row, given.table, given.room);
            assert_eq!(answer, same(told), "{list:?}: {}", shown(&bytes, given));
            if answer.number == 0 {
                file.clone_from(&self.proved.out);
                file.truncate(answer.length as usize);
            }
        }
        assert!(file == tally.file(), "{list:?} of {bytes:02X?}");
        let marked = (0..).zip(tally.marked()).filter(|row| *row.1);
        let removed: Vec<usize> = marked.map(|row| row.0).collect();
        let left = first.without(&removed);
        assert!(file == left.bytes(), "{list:?} of {bytes:02X?}");
        let old = read_whole(&bytes).0;
        let told = Reading {
            nodes: old.nodes - removed.len() as u32,
            own_unknown: old.own_unknown - (bytes.len() - file.len()) as u32,
            ..old
        };
        assert_eq!(read_whole(&file).0, told, "{list:?} of {bytes:02X?}");
        (file, removed.len())
    }

    /// Trimmings that take all unknown nodes out, in a drawn order.
    pub fn all_out(&mut self, file: &File) -> Vec<Trimming> {
        let room = file.bytes().len();
        let mut left = notes(file);
        let mut list = Vec::new();
        while !left.is_empty() {
            let at = self.rng.below(left.len());
            let row = left.remove(at);
            left[at..].iter_mut().for_each(|later| *later -= 1);
            list.push(given(row, TABLE_NUMBERS + self.rng.below(3), room));
        }
        list
    }

    /// A file of some sort, mostly with unknown nodes.
    pub fn some_file(&mut self) -> File {
        match self.rng.below(3) {
            0 => file(&mut self.rng, &noted(Profile::TINY)),
            1 => file(&mut self.rng, &noted(Profile::SMALL)),
            _ => mixed(&mut self.rng),
        }
    }

    /// A row of this file or any other number.
    pub fn some_row(&mut self, nodes: usize) -> usize {
        match self.rng.below(10) {
            0 => *self.rng.pick(&FAR),
            1 => self.rng.next_u64() as usize,
            _ => self.rng.below(nodes + 2),
        }
    }

    pub fn show(&self, title: &str) {
        let count: usize = self.answers.values().sum();
        println!("{title}: {count} trimmings {:?}", self.answers);
    }

    pub fn at_least(&self, numbers: &[u32], least: usize) {
        for number in numbers {
            let count = self.answers.get(number).copied().unwrap_or(0);
            assert!(count >= least, "{number} only {count} times");
        }
    }
}

pub fn given(row: usize, table: usize, room: usize) -> Trimming {
    Trimming { row, table, room }
}

fn same(told: reference::Written) -> Written {
    Written {
        number: told.number,
        place: told.place,
        length: told.length,
    }
}

/// The first place where two slices of one length differ.
fn difference<T: PartialEq>(one: &[T], other: &[T]) -> Option<usize> {
    assert_eq!(one.len(), other.len());
    match one == other {
        true => None,
        false => (0..one.len()).find(|&at| one[at] != other[at]),
    }
}

fn shown(file: &[u8], given: Trimming) -> String {
    let start = &file[..file.len().min(2_000)];
    format!("{given:?} of {} bytes {start:02X?}", file.len())
}

/// A reading by the proved reader, and the first 8,192 numbers of its table.
fn read_whole(file: &[u8]) -> (Reading, Vec<u32>) {
    let mut table = vec![7; TABLE_NUMBERS];
    let reading = read(file, &mut table);
    (reading, table)
}

/// The rows of an accepted file.
pub fn read_rows(file: &[u8]) -> Vec<u32> {
    let (reading, mut table) = read_whole(file);
    assert_eq!((reading.number, reading.place), (0, 0));
    table.truncate(8 * reading.nodes as usize);
    table
}

/// What a trimming must answer, by a reading of the file.
fn by_reading(file: &[u8], given: Trimming) -> Written {
    let refused = |number, place| Written {
        number,
        place,
        length: 0,
    };
    if given.table < TABLE_NUMBERS {
        return refused(1, 0);
    }
    let (reading, table) = read_whole(file);
    if reading.number != 0 {
        return refused(reading.number, reading.place);
    }
    let rows = rows(&table, reading.nodes as usize);
    let Some(row) = rows.get(given.row) else {
        return refused(30, 0);
    };
    if row.is_known() {
        return refused(31, 0);
    }
    let length = file.len() - 24 - row.body() as usize;
    if given.room < length {
        return refused(32, 0);
    }
    Written {
        number: 0,
        place: 0,
        length: length as u32,
    }
}

/// More unknown nodes than the profile has.
pub fn noted(profile: Profile) -> Profile {
    Profile {
        unknown: 45,
        ..profile
    }
}

/// The rows of the unknown nodes.
pub fn notes(file: &File) -> Vec<usize> {
    file.rows(|node| !node.is_known())
}

/// An unknown node with a body of this length.
pub fn note(rng: &mut Rng, length: usize) -> Node {
    let mut note = Node::new(unknown::kind(rng));
    note.hash = rng.next_u64();
    note.rest = rng.bytes(length);
    note.claimed.properties = Some(rng.edge_u32());
    note.claimed.children = Some(rng.edge_u32());
    note
}
