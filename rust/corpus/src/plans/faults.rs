//! Edits of the rows of an accepted file.

use super::Plan;
use crate::format::{KINDS, MAX_NODES, NONE, ROOT};
use crate::rng::Rng;
use crate::rows::{mend_children, Row};
use crate::valid::unknown;

/// Edits the rows; the inner value is the answer where it is certain.
pub(super) fn edit(
    rng: &mut Rng,
    rows: &mut Vec<Row>,
    source: u32,
    kind: Plan,
) -> Option<Option<(u32, u32)>> {
    let count = rows.len();
    match kind {
        Plan::ParentNone
        | Plan::ParentOfRoot
        | Plan::ParentSelf
        | Plan::ParentLater
        | Plan::ParentOut
        | Plan::ParentUnknown
        | Plan::ParentUnrelated
        | Plan::ParentOther => return parent(rng, rows, kind),
        Plan::LengthOdd => return Some(Some((20, 0))),
        Plan::SourceShort | Plan::SourceByte => return Some(None),
        Plan::RoomShort => return Some(Some((26, 0))),
        Plan::RoomLong => return Some(Some((0, 0))),
        Plan::LengthOver | Plan::LengthMost => {
            let most = MAX_NODES + usize::from(kind == Plan::LengthOver);
            rows.resize(most, Row::new(ROOT, NONE));
            let number = if kind == Plan::LengthOver { 20 } else { 0 };
            return Some(Some((number, 0)));
        }
        Plan::RootInserted => {
            let at = rng.below(count + 1);
            let followed = rows.get(at).is_some_and(|row| row.parent != NONE);
            for row in rows.iter_mut() {
                if row.parent != NONE && row.parent >= at as u32 {
                    row.parent += 1;
                }
            }
            rows.insert(at, Row::new(ROOT, NONE));
            return Some(Some(match followed {
                _ if rows.len() > MAX_NODES => (20, 0),
                true => (21, at as u32 + 1),
                false => (0, 0),
            }));
        }
        _ if count == 0 => return None,
        Plan::RowInserted => {
            let at = rng.below(count);
            let row = rows[at];
            rows.insert(rng.range(at, count), row);
            return Some(None);
        }
        Plan::RowDropped => {
            rows.remove(rng.below(count));
            return Some(None);
        }
        Plan::RowsSwapped => {
            rows.swap(rng.below(count), rng.below(count));
            return Some(None);
        }
        _ => {}
    }
    let at = rng.below(count);
    let has_child = rows.get(at + 1).is_some_and(|row| row.parent == at as u32);
    let other = rows[rng.below(count)];
    let known = rows[at].is_known();
    let row = &mut rows[at];
    let place = at as u32;
    Some(match kind {
        Plan::BodyReversed => {
            match row.start == row.end {
                true => row.end = row.start - 1,
                false => (row.start, row.end) = (row.end, row.start),
            }
            Some((22, place))
        }
        Plan::BodyPast => {
            row.end = *rng.pick(&[source + 1, u32::MAX, source + 1_000]);
            Some((22, place))
        }
        Plan::BodyEmptyPast => {
            row.start = *rng.pick(&[source + 1, u32::MAX]);
            row.end = row.start;
            Some((22, place))
        }
        Plan::BodyShifted => {
            let shift = *rng.pick(&[1, u32::MAX]);
            row.start = row.start.wrapping_add(shift);
            row.end = row.end.wrapping_add(shift);
            None
        }
        Plan::BodyLonger => {
            row.end += 1;
            match known {
                _ if row.end > source => Some((22, place)),
                true => Some((23, place)),
                false => Some((0, 0)),
            }
        }
        Plan::BodyShorter if row.start < row.end => {
            row.end -= 1;
            match known {
                true => Some((23, place)),
                false => Some((0, 0)),
            }
        }
        Plan::BodyOther => {
            (row.start, row.end) = (other.start, other.end);
            if rng.chance(50) {
                row.properties = other.properties;
            }
            None
        }
        Plan::PropertyCount => {
            let old = row.properties;
            row.properties = match rng.below(3) {
                0 => old.wrapping_add(1),
                1 => old.wrapping_sub(1),
                _ => rng.edge_u32(),
            };
            match known && row.properties != old {
                true => Some((23, place)),
                false => Some((0, 0)),
            }
        }
        Plan::ChildCount => {
            let old = row.children;
            row.children = match rng.below(3) {
                0 => old.wrapping_add(1),
                1 => old.wrapping_sub(1),
                _ => rng.edge_u32(),
            };
            match known && row.children != old {
                true => Some((24, place)),
                false => Some((0, 0)),
            }
        }
        Plan::KindUnknown if known => {
            row.kind = unknown::kind(rng);
            match row.parent {
                NONE => Some((21, place)),
                _ if has_child => Some((21, place + 1)),
                _ => Some((0, 0)),
            }
        }
        Plan::KindKnown if !known => {
            row.kind = rng.pick(&KINDS).0;
            match row.kind {
                ROOT => Some((21, place)),
                _ => None,
            }
        }
        _ => return None,
    })
}

/// The row itself and those above it.
fn lineage(rows: &[Row], row: usize) -> Vec<usize> {
    let mut out = vec![row];
    let mut at = rows[row].parent;
    while let Some(row) = rows.get(at as usize) {
        out.push(at as usize);
        at = row.parent;
    }
    out
}

/// Gives a row another parent, mostly with the child counts mended, so that
/// the parent alone is wrong.
fn parent(rng: &mut Rng, rows: &mut [Row], kind: Plan) -> Option<Option<(u32, u32)>> {
    let count = rows.len();
    let at = rng.pick_any(&(0..count).collect::<Vec<_>>()).copied()?;
    let is_root = rows[at].kind == ROOT;
    if is_root != (kind == Plan::ParentOfRoot) {
        return None;
    }
    let line = match at {
        0 => Vec::new(),
        _ => lineage(rows, at - 1),
    };
    let parent = match kind {
        Plan::ParentNone => NONE,
        Plan::ParentOfRoot => *rng.pick_any(&line).unwrap_or(&0) as u32,
        Plan::ParentSelf => at as u32,
        Plan::ParentLater => (at + rng.range(1, count - at)) as u32,
        Plan::ParentOut => *rng.pick(&[count as u32, 1_024, 0x8000_0000, NONE - 1]),
        Plan::ParentUnknown => line
            .first()
            .filter(|row| !rows[**row].is_known())
            .copied()? as u32,
        Plan::ParentUnrelated => {
            let unrelated = |row: &usize| rows[*row].is_known() && !line.contains(row);
            let earlier: Vec<usize> = (0..at).filter(unrelated).collect();
            *rng.pick_any(&earlier)? as u32
        }
        _ => *rng.pick_any(&line)? as u32,
    };
    let old = rows[at].parent;
    rows[at].parent = parent;
    if parent == old || !rng.chance(80) {
        return Some(None);
    }
    mend_children(rows);
    Some((kind != Plan::ParentOther).then_some((21, at as u32)))
}
