//! The tally of a list of trimmings, kept on the first file alone.

use crate::bytes::u32_at;
use crate::kinds::known;
use crate::read::read;
use crate::table::*;
use crate::walk::{node_start, CHILDREN_OFFSET, FILE_HEADER, NODE_HEADER, SIZE_OFFSET};
use crate::writer::Written;

/// The first file, its rows, and a mark for each row that is removed.
pub struct Tally<'a> {
    file: &'a [u8],
    rows: Vec<u32>,
    marked: Vec<bool>,
    /// The file's length without the marked nodes.
    length: usize,
}

impl<'a> Tally<'a> {
    /// `None` where the file is not accepted.
    pub fn new(file: &'a [u8]) -> Option<Tally<'a>> {
        let mut rows = vec![0; TABLE_NUMBERS];
        let reading = read(file, &mut rows);
        if reading.number != 0 {
            return None;
        }
        rows.truncate(reading.nodes as usize * ROW);
        Some(Tally {
            file,
            rows,
            marked: vec![false; reading.nodes as usize],
            length: file.len(),
        })
    }

    /// The answer to one trimming. `row` counts the unmarked rows.
    pub fn answer(&mut self, row: usize, table_len: usize, out_len: usize) -> Written {
        if table_len < TABLE_NUMBERS {
            return Written::refused(1, 0);
        }
        let mut unmarked = (0..self.marked.len()).filter(|&i| !self.marked[i]);
        let Some(index) = unmarked.nth(row) else {
            return Written::refused(30, 0);
        };
        if known(self.row(index)[KIND]) {
            return Written::refused(31, 0);
        }
        let length = self.length - self.size(index) as usize;
        if out_len < length {
            return Written::refused(32, 0);
        }
        self.marked[index] = true;
        self.length = length;
        Written {
            number: 0,
            place: 0,
            length: length as u32,
        }
    }

    /// A mark for each row of the first file.
    pub fn marked(&self) -> &[bool] {
        &self.marked
    }

    /// The first file without the marked nodes.
    pub fn file(&self) -> Vec<u8> {
        let nodes = self.marked.len();
        let mut fewer_bytes = vec![0; nodes];
        let mut fewer_children = vec![0; nodes];
        for index in (0..nodes).filter(|&i| self.marked[i]) {
            // Marked nodes are unknown: none is around another, and none is at the top.
            let mut around = self.row(index)[PARENT];
            fewer_children[around as usize] += 1;
            while around != NO_PARENT {
                fewer_bytes[around as usize] += self.size(index);
                around = self.row(around as usize)[PARENT];
            }
        }
        let mut file = Vec::with_capacity(self.length);
        file.extend_from_slice(&self.file[..FILE_HEADER]);
        for index in (0..nodes).filter(|&i| !self.marked[i]) {
            let start = node_start(self.row(index));
            let header = &self.file[start..start + NODE_HEADER];
            let size = u32_at(header, SIZE_OFFSET) - fewer_bytes[index];
            let children = u32_at(header, CHILDREN_OFFSET) - fewer_children[index];
            file.extend_from_slice(&header[..SIZE_OFFSET]);
            file.extend_from_slice(&size.to_le_bytes());
            file.extend_from_slice(&header[SIZE_OFFSET + 4..CHILDREN_OFFSET]);
            file.extend_from_slice(&children.to_le_bytes());
            let body_end = self.row(index)[BODY_END] as usize;
            file.extend_from_slice(&self.file[start + NODE_HEADER..body_end]);
        }
        file
    }

    fn row(&self, index: usize) -> &[u32] {
        &self.rows[index * ROW..][..ROW]
    }

    /// As the node's header in the first file has it.
    fn size(&self, index: usize) -> u32 {
        u32_at(self.file, node_start(self.row(index)) + SIZE_OFFSET)
    }
}
