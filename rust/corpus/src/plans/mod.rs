//! Plans for the writer: valid ones, and ones with a fault.

mod faults;
mod whole;

pub use whole::{chain, moved, overlapping, reordered};

use crate::format::{MAX_FILE, MAX_NODES};
use crate::rng::Rng;
use crate::rows::{numbers, rows, written_length};

named! {
    /// A kind of plan.
    Plan:
    Same "same rows",
    Reordered "reordered",
    Moved "moved",
    Doubled "rows twice",
    Pruned "pruned",
    ParentNone "no parent",
    ParentOfRoot "parent of a root",
    ParentSelf "own parent",
    ParentLater "later parent",
    ParentOut "parent out of plan",
    ParentUnknown "unknown parent",
    ParentUnrelated "unrelated parent",
    ParentOther "other parent",
    BodyReversed "body reversed",
    BodyPast "body past source",
    BodyEmptyPast "empty body past source",
    BodyShifted "body shifted",
    BodyLonger "body longer",
    BodyShorter "body shorter",
    BodyOther "body of another row",
    PropertyCount "property count",
    ChildCount "child count",
    KindUnknown "known made unknown",
    KindKnown "unknown made known",
    RootInserted "root in mid-plan",
    RowInserted "row doubled",
    RowDropped "row dropped",
    RowsSwapped "rows swapped",
    LengthOdd "length not of rows",
    LengthOver "1,025 rows",
    LengthMost "1,024 rows",
    SourceShort "source cut",
    SourceByte "source byte",
    RoomShort "output short",
    RoomLong "output long",
    Chain "chain of 1,024",
    LongestFile "longest file",
    OverLongest "over longest file",
    OverWord "length over 32 bits",
    Random "random rows",
}

/// What the writer is given.
#[derive(Clone, Debug)]
pub struct Case {
    pub plan: Vec<u32>,
    pub source: Vec<u8>,
    pub flags: u32,
    /// Length of the output.
    pub room: usize,
    /// Number (0 for success) and place that must be answered, where certain.
    pub answer: Option<(u32, u32)>,
}

/// The plan of an accepted file: its rows over its own bytes, with its flags.
pub fn same(table: &[u32], file: &[u8]) -> Case {
    let flags = file[12..16].try_into().map_or(0, u32::from_le_bytes);
    Case {
        plan: table.to_vec(),
        source: file.to_vec(),
        flags,
        room: file.len(),
        answer: Some((0, 0)),
    }
}

/// A plan of a kind drawn among those that the rows have a place for.
pub fn any(rng: &mut Rng, table: &[u32], file: &[u8]) -> (Plan, Case) {
    loop {
        let kind = *rng.pick(ALL);
        let long = matches!(
            kind,
            Plan::Chain | Plan::LongestFile | Plan::OverLongest | Plan::OverWord
        );
        if long && !rng.chance(10) {
            continue;
        }
        if let Some(case) = plan(rng, table, file, kind) {
            return (kind, case);
        }
    }
}

/// A plan of this kind from the rows of an accepted file; `None` if they have
/// no place for it. `table` holds the rows alone.
pub fn plan(rng: &mut Rng, table: &[u32], file: &[u8], kind: Plan) -> Option<Case> {
    match kind {
        Plan::Same => return Some(same(table, file)),
        Plan::Reordered => return Some(reordered(rng, table, file)),
        Plan::Moved => return Some(moved(rng, table, file)),
        Plan::Doubled => return whole::doubled(table, file),
        Plan::Pruned => return Some(whole::pruned(rng, table, file)),
        Plan::LongestFile => return Some(overlapping(rng, MAX_FILE as u64)),
        Plan::OverLongest => return Some(overlapping(rng, MAX_FILE as u64 + 1)),
        Plan::OverWord => {
            let over = rng.below(100_000) as u64;
            return Some(overlapping(rng, (1 << 32) + over));
        }
        Plan::Chain => return Some(chain(rng, MAX_NODES)),
        Plan::Random => return Some(whole::random(rng, file)),
        _ => {}
    }
    let mut rows = rows(table, MAX_NODES);
    let answer = faults::edit(rng, &mut rows, file.len() as u32, kind)?;
    let mut case = Case {
        plan: numbers(&rows),
        answer,
        ..same(table, file)
    };
    let length = written_length(&rows);
    case.room = length.min(MAX_FILE as u64) as usize;
    match kind {
        Plan::LengthOdd => {
            let more = rng.range(1, 7);
            case.plan.extend(vec![0; more]);
        }
        Plan::SourceShort => {
            let length = rng.below(file.len());
            case.source.truncate(length);
            let cut = rows.iter().position(|row| row.end as usize > length);
            case.answer = Some(cut.map_or((0, 0), |row| (22, row as u32)));
        }
        Plan::SourceByte => {
            let at = rng.below(file.len());
            case.source[at] = rng.byte();
        }
        Plan::RoomShort => case.room -= rng.skewed(case.room - 1) + 1,
        Plan::RoomLong => case.room += rng.range(1, 50),
        _ => {}
    }
    Some(case)
}
