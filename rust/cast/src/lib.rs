//! Safe bindings of the proved library, as `include/cast.h` declares it.
//!
//! Every function answers for any bytes, tables and numbers.

/// What a reading answers. On refusal all but number and place is 0.
#[repr(C)]
#[derive(Clone, Copy, Debug, Default, PartialEq, Eq)]
pub struct Reading {
    /// 0 where the file is accepted, else 1 to 17.
    pub number: u32,
    pub place: u32,
    pub nodes: u32,
    pub flags: u32,
    /// Own bytes of known nodes.
    pub own_known: u32,
    /// Own bytes of unknown nodes.
    pub own_unknown: u32,
    /// Degenerate ones included.
    pub faces: u32,
    pub degenerate: u32,
    pub links: u32,
}

/// What a lookup answers.
#[repr(C)]
#[derive(Clone, Copy, Debug, PartialEq, Eq)]
pub struct Found {
    /// 0 where the name is found, else 40 to 43.
    pub number: u32,
    /// Always 0.
    pub place: u32,
    /// The data is `bytes[start..end]`; both are 0 on refusal.
    pub start: usize,
    pub end: usize,
}

/// What a writing or a trimming answers.
#[repr(C)]
#[derive(Clone, Copy, Debug, Default, PartialEq, Eq)]
pub struct Written {
    /// 0 where a file is written, else 20 to 26; of a trimming else 1 to 17 or 30 to 32.
    pub number: u32,
    /// The row on 21 to 24, the reading's place on 1 to 17, else 0.
    pub place: u32,
    /// Of the file that is written; 0 on refusal.
    pub length: u32,
}

mod raw {
    use super::{Found, Reading, Written};

    extern "C" {
        pub fn cast_read(
            file: *const u8,
            file_len: usize,
            table: *mut u32,
            table_len: usize,
        ) -> Reading;

        pub fn cast_lookup(
            bytes: *const u8,
            len: usize,
            table: *const u32,
            table_len: usize,
            row: usize,
            name: *const u8,
            name_len: usize,
        ) -> Found;

        pub fn cast_write(
            plan: *const u32,
            plan_len: usize,
            source: *const u8,
            source_len: usize,
            flags: u32,
            out: *mut u8,
            out_len: usize,
        ) -> Written;

        pub fn cast_trim(
            file: *const u8,
            file_len: usize,
            row: usize,
            table: *mut u32,
            table_len: usize,
            out: *mut u8,
            out_len: usize,
        ) -> Written;
    }
}

/// Numbers that a reading needs in its table: 1,024 rows of eight.
pub const TABLE_NUMBERS: usize = 8_192;

/// Reads a file into the table's first 8,192 numbers: its rows, then zeros; on refusal zeros alone.
/// A shorter table stays as it is.
pub fn read(file: &[u8], table: &mut [u32]) -> Reading {
    // SAFETY: each pointer and length are those of a live slice: aligned, not null even where it is
    // empty, and of at most isize::MAX bytes; being lent for writing, the table overlaps no other.
    // The function reads and writes inside them and keeps no pointer.
    unsafe { raw::cast_read(file.as_ptr(), file.len(), table.as_mut_ptr(), table.len()) }
}

/// Finds a property of a row by its name.
pub fn lookup(bytes: &[u8], table: &[u32], row: usize, name: &[u8]) -> Found {
    // SAFETY: each pointer and length are those of a live slice: aligned, not null even where it is
    // empty, and of at most isize::MAX bytes. The function reads inside them, writes nothing and
    // keeps no pointer.
    unsafe {
        raw::cast_lookup(
            bytes.as_ptr(),
            bytes.len(),
            table.as_ptr(),
            table.len(),
            row,
            name.as_ptr(),
            name.len(),
        )
    }
}

/// The data of a property of a row, or the refusal.
pub fn data<'a>(
    bytes: &'a [u8],
    table: &[u32],
    row: usize,
    name: &[u8],
) -> Result<&'a [u8], Found> {
    let found = lookup(bytes, table, row, name);
    match found.number {
        0 => Ok(&bytes[found.start..found.end]),
        _ => Err(found),
    }
}

/// Writes the plan's rows, with their bodies out of the source, as a file at the output's start. What
/// lies past the file stays as it is, and on refusal the whole output.
pub fn write(plan: &[u32], source: &[u8], flags: u32, out: &mut [u8]) -> Written {
    // SAFETY: each pointer and length are those of a live slice: aligned, not null even where it is
    // empty, and of at most isize::MAX bytes; being lent for writing, the output overlaps no other.
    // The function reads and writes inside them and keeps no pointer.
    unsafe {
        raw::cast_write(
            plan.as_ptr(),
            plan.len(),
            source.as_ptr(),
            source.len(),
            flags,
            out.as_mut_ptr(),
            out.len(),
        )
    }
}

/// Writes a file at the output's start without the node of one row, whose kind must be unknown. The
/// table's first 8,192 numbers become the new file's rows, then zeros; on refusal zeros alone. Later
/// numbers stay, and a shorter table stays whole. Past the new file the output stays, and on refusal
/// all of it.
pub fn trim(file: &[u8], row: usize, table: &mut [u32], out: &mut [u8]) -> Written {
    // SAFETY: each pointer and length are those of a live slice: aligned, not null even where it is
    // empty, and of at most isize::MAX bytes; being lent for writing, the table and the output overlap
    // no other. The function reads and writes inside them and keeps no pointer.
    unsafe {
        raw::cast_trim(
            file.as_ptr(),
            file.len(),
            row,
            table.as_mut_ptr(),
            table.len(),
            out.as_mut_ptr(),
            out.len(),
        )
    }
}
