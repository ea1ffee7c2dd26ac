//! Rows of the table, as a struct.

use crate::format::{is_known, NONE};

#[derive(Clone, Copy, Debug, PartialEq, Eq)]
pub struct Row {
    pub kind: u32,
    pub hash: u64,
    pub parent: u32,
    pub start: u32,
    pub end: u32,
    pub properties: u32,
    pub children: u32,
}

impl Row {
    pub fn new(kind: u32, parent: u32) -> Self {
        Row {
            kind,
            hash: 0,
            parent,
            start: 0,
            end: 0,
            properties: 0,
            children: 0,
        }
    }

    pub fn is_known(&self) -> bool {
        is_known(self.kind)
    }

    /// Bytes of the body; 0 when it ends before its start.
    pub fn body(&self) -> u64 {
        u64::from(self.end.saturating_sub(self.start))
    }

    pub fn numbers(&self) -> [u32; 8] {
        [
            self.kind,
            self.hash as u32,
            (self.hash >> 32) as u32,
            self.parent,
            self.start,
            self.end,
            self.properties,
            self.children,
        ]
    }
}

/// The first `count` rows of a table, or as many as it holds.
pub fn rows(table: &[u32], count: usize) -> Vec<Row> {
    let rows = table.chunks_exact(8).take(count);
    rows.map(|row| Row {
        kind: row[0],
        hash: u64::from(row[2]) << 32 | u64::from(row[1]),
        parent: row[3],
        start: row[4],
        end: row[5],
        properties: row[6],
        children: row[7],
    })
    .collect()
}

pub fn numbers(rows: &[Row]) -> Vec<u32> {
    rows.iter().flat_map(Row::numbers).collect()
}

/// The length of the file that these rows make.
pub fn written_length(rows: &[Row]) -> u64 {
    16 + rows.iter().map(|row| 24 + row.body()).sum::<u64>()
}

/// Gives every known row the number of rows that name it as parent.
pub fn mend_children(rows: &mut [Row]) {
    let mut counts = vec![0; rows.len()];
    for row in rows.iter().filter(|row| row.parent != NONE) {
        if let Some(count) = counts.get_mut(row.parent as usize) {
            *count += 1;
        }
    }
    for (row, count) in rows.iter_mut().zip(counts) {
        if row.is_known() {
            row.children = count;
        }
    }
}
