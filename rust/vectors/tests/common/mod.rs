//! Cases as they lie in standard input, each with its line.

use corpus::rows::{rows, Row};
use reference::{walk, TABLE_NUMBERS};
use vectors::function::WRITE_PARTS;
use vectors::Vectors;

/// The bytes of a case before its blocks.
const HEADER: usize = 32;

#[derive(Clone, PartialEq, Eq)]
pub struct Case {
    pub input: Vec<u8>,
    pub function: u32,
    /// The first block: of a reading the file.
    pub first: Vec<u8>,
    /// The numbers of the line after the function's.
    pub answer: Vec<u64>,
}

fn number(bytes: &[u8], at: usize) -> usize {
    u32::from_le_bytes(bytes[at..at + 4].try_into().expect("four bytes")) as usize
}

pub fn cases(made: &Vectors) -> Vec<Case> {
    let text = std::str::from_utf8(&made.stdout).expect("digits, spaces and newlines");
    let mut rest = &made.stdin[..];
    let cases = text.lines().map(|line| {
        let first = HEADER + number(rest, 4);
        let (input, later) = rest.split_at(first + number(rest, 8));
        rest = later;
        let numbers = line.split(' ').map(|text| text.parse().expect("a number"));
        let (function, answer) = (number(input, 0) as u32, numbers.skip(1).collect());
        assert!(line.starts_with(&format!("{function} ")), "{line}");
        Case {
            input: input.to_vec(),
            function,
            first: input[HEADER..first].to_vec(),
            answer,
        }
    });
    let cases: Vec<Case> = cases.collect();
    assert!(rest.is_empty() && cases.len() == made.cases);
    cases
}

impl Case {
    /// Its refusal's number and place, or zeros. What a plan's judge finds right is then put.
    #[allow(dead_code)]
    pub fn refusal(&self) -> (u64, u64) {
        match self.function {
            WRITE_PARTS if self.answer[0] == 0 => (self.answer[2], self.answer[3]),
            _ => (self.answer[0], self.answer[1]),
        }
    }

    /// The rows of the first block as a file, if the walk accepts it.
    #[allow(dead_code)]
    pub fn rows(&self) -> Vec<Row> {
        let mut table = vec![0; TABLE_NUMBERS];
        let (_, _, nodes) = walk(&self.first, &mut table);
        rows(&table, nodes as usize)
    }
}
