//! Lookup of a property by name: refusals 40 to 43.

use crate::property::{Property, MAX_PROPERTIES};
use crate::table::{self, BODY_END, BODY_START, PROPERTIES};

#[derive(Clone, Copy, Debug, Default, PartialEq, Eq)]
pub struct Found {
    /// 0 where the name is found.
    pub number: u32,
    pub place: u32,
    /// The data is `bytes[start..end]`; both are 0 on refusal.
    pub start: usize,
    pub end: usize,
}

/// Finds a property of a row, in any bytes and any table. The whole body is judged first.
pub fn lookup(bytes: &[u8], table: &[u32], row: usize, name: &[u8]) -> Found {
    match find(bytes, table, row, name) {
        Ok((start, end)) => Found {
            number: 0,
            place: 0,
            start,
            end,
        },
        Err(number) => Found {
            number,
            ..Found::default()
        },
    }
}

fn find(bytes: &[u8], table: &[u32], row: usize, name: &[u8]) -> Result<(usize, usize), u32> {
    let row = table::row(table, row).ok_or(40u32)?;
    let start = row[BODY_START] as usize;
    let body = bytes.get(start..row[BODY_END] as usize).ok_or(41u32)?;
    if row[PROPERTIES] > MAX_PROPERTIES {
        return Err(42);
    }
    let mut at = 0;
    let mut found = None;
    for _ in 0..row[PROPERTIES] {
        let property = Property::parse(body, at).map_err(|_| 42u32)?;
        if found.is_none() && property.name(body) == name {
            found = Some((start + property.data.0, start + property.data.1));
        }
        at = property.next();
    }
    if at != body.len() {
        return Err(42);
    }
    found.ok_or(43)
}
