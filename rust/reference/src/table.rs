//! The table: 1,024 rows of eight numbers.

pub const TABLE_NUMBERS: usize = TABLE_ROWS * ROW;
/// The parent of a row without one.
pub const NO_PARENT: u32 = 0xFFFF_FFFF;

pub(crate) const TABLE_ROWS: usize = 1024;
pub(crate) const ROW: usize = 8;

// The numbers of a row.
pub(crate) const KIND: usize = 0;
pub(crate) const HASH_LOW: usize = 1;
pub(crate) const HASH_HIGH: usize = 2;
pub(crate) const PARENT: usize = 3;
pub(crate) const BODY_START: usize = 4;
pub(crate) const BODY_END: usize = 5;
pub(crate) const PROPERTIES: usize = 6;
pub(crate) const CHILDREN: usize = 7;

/// Whether a reading may use the table.
pub fn is_whole(table: &[u32]) -> bool {
    table.len() >= TABLE_NUMBERS
}

/// The numbers of a row, where the table has all eight.
pub fn row(table: &[u32], row: usize) -> Option<&[u32; ROW]> {
    table.get(row.checked_mul(ROW)?..)?.first_chunk()
}

/// Puts a row; a table that has no place for all of it stays as it is.
pub fn put_row(table: &mut [u32], row: usize, numbers: &[u32; ROW]) {
    let start = row.checked_mul(ROW);
    let place = start.and_then(|start| table.get_mut(start..)?.first_chunk_mut());
    if let Some(place) = place {
        *place = *numbers;
    }
}

/// Numbers past the rows are the caller's, and so is a shorter table.
pub fn clear(table: &mut [u32]) {
    if let Some(rows) = table.get_mut(..TABLE_NUMBERS) {
        rows.fill(0);
    }
}

pub(crate) fn hash(row: &[u32]) -> u64 {
    u64::from(row[HASH_LOW]) | u64::from(row[HASH_HIGH]) << 32
}
