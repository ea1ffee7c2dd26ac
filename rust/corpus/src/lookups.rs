//! Lookups of a property by name, in accepted files and in anything else.

use crate::expect::expected;
use crate::format::{MAX_PROPERTIES, NONE, TYPES};
use crate::rng::Rng;
use crate::rows::{numbers, Row};
use crate::tree::{Encoded, File, Node, Property};
use crate::valid::properties::{data, free_property};
use crate::valid::{names, unknown, Profile};

named! {
    /// A kind of lookup.
    Lookup:
    Present "present name",
    Absent "absent name",
    BadName "name that none can have",
    RowOut "row out of table",
    TableShort "table ends in the row",
    BodyPast "body past the bytes",
    BodyReversed "body reversed",
    BodyLonger "body longer",
    PropertyCount "property count",
    UnknownRow "unknown row",
    Repeated "name twice",
    Full "64 properties",
    OverFull "65 properties",
    RandomBody "random body",
    ChangedByte "byte change",
    Random "random table",
}

/// What the lookup is given.
#[derive(Clone, Debug)]
pub struct Case {
    pub bytes: Vec<u8>,
    pub table: Vec<u32>,
    pub row: usize,
    pub name: Vec<u8>,
    /// The part that must be found, or the refusal, where certain.
    pub answer: Option<Result<(usize, usize), u32>>,
}

/// A lookup of a kind drawn among those that the file has a place for.
pub fn any(rng: &mut Rng, file: &File) -> (Lookup, Case) {
    loop {
        let kind = *rng.pick(ALL);
        if let Some(case) = lookup(rng, file, kind) {
            return (kind, case);
        }
    }
}

/// A lookup of this kind over a valid file; `None` if it has no place for it.
pub fn lookup(rng: &mut Rng, file: &File, kind: Lookup) -> Option<Case> {
    match kind {
        Lookup::Repeated => return Some(by_hand(rng, 1, true)),
        Lookup::Full => return Some(by_hand(rng, MAX_PROPERTIES, false)),
        Lookup::OverFull => return Some(by_hand(rng, MAX_PROPERTIES + 1, false)),
        Lookup::RandomBody => return Some(random_body(rng)),
        Lookup::Random => return Some(random(rng, file)),
        _ => {}
    }
    let encoded = file.encode();
    let nodes = file.nodes();
    let mut table = expected(file, &encoded).rows;
    let wants_known = kind != Lookup::UnknownRow;
    let rows = file.rows(|node| node.is_known() == wants_known);
    let row = *rng.pick_any(&rows)?;
    let mut case = Case {
        bytes: Vec::new(),
        table: Vec::new(),
        row,
        name: some_name(rng, nodes[row]),
        answer: None,
    };
    case.answer = find(nodes[row], &encoded, row, &case.name);
    let end = encoded.bytes.len() as u32;
    let numbers_of_row = &mut table[row];
    match kind {
        Lookup::Present => {
            case.name = rng.pick_any(&nodes[row].properties)?.name.clone();
            case.answer = find(nodes[row], &encoded, row, &case.name);
        }
        Lookup::Absent => {
            case.name = names::free(rng, 0, &nodes[row].properties);
            case.answer = Some(Err(43));
        }
        Lookup::BadName => {
            case.name = bad_name(rng, nodes[row]);
            case.answer = Some(Err(43));
        }
        Lookup::BodyPast => {
            numbers_of_row.end = *rng.pick(&[end + 1, u32::MAX]);
            if rng.chance(30) {
                numbers_of_row.start = numbers_of_row.end;
            }
            case.answer = Some(Err(41));
        }
        Lookup::BodyReversed => {
            numbers_of_row.end = numbers_of_row.start - rng.range(1, 24) as u32;
            case.answer = Some(Err(41));
        }
        Lookup::BodyLonger => {
            numbers_of_row.end += 1;
            let number = if numbers_of_row.end > end { 41 } else { 42 };
            case.answer = Some(Err(number));
        }
        Lookup::PropertyCount => {
            let old = numbers_of_row.properties;
            numbers_of_row.properties = match rng.chance(50) {
                true => old.wrapping_add(*rng.pick(&[1, u32::MAX])),
                false => rng.edge_u32(),
            };
            if numbers_of_row.properties != old {
                case.answer = Some(Err(42));
            }
        }
        Lookup::UnknownRow => {
            // The name of what may be a property at the start of the body.
            let body = &nodes[row].rest;
            let size = body.get(2).copied().unwrap_or(0);
            if let Some(name) = body.get(8..8 + usize::from(size)) {
                case.name = name.to_vec();
            }
            case.answer = None;
        }
        _ => {}
    }
    case.table = numbers(&table);
    case.bytes = encoded.bytes;
    match kind {
        Lookup::RowOut => {
            let rows = table.len();
            case.row = *rng.pick(&[rows, rows + 1, usize::MAX, usize::MAX / 8, 1 << 61, 1 << 32]);
            case.answer = Some(Err(40));
        }
        Lookup::TableShort => {
            case.table.truncate(row * 8 + rng.below(8));
            case.answer = Some(Err(40));
        }
        Lookup::ChangedByte => {
            let at = rng.below(case.bytes.len());
            case.bytes[at] = rng.byte();
            case.answer = None;
        }
        // A table may hold any numbers after the row.
        _ if rng.chance(30) => case.table.extend([0, 7, NONE]),
        _ => {}
    }
    Some(case)
}

/// Changes one thing that the lookup is given; its answer may be the same.
pub fn change(rng: &mut Rng, case: &mut Case) {
    case.answer = None;
    let start = case.row.saturating_mul(8);
    match rng.below(6) {
        // The body's start, its end or the count, by one or by any amount.
        0 | 1 => {
            if let Some(number) = case.table.get_mut(start.saturating_add(rng.range(4, 6))) {
                *number = match rng.chance(60) {
                    true => number.wrapping_add(*rng.pick(&[1, u32::MAX])),
                    false => rng.edge_u32(),
                };
            }
        }
        2 => {
            let at = rng.below(case.bytes.len());
            if let Some(byte) = case.bytes.get_mut(at) {
                *byte ^= 1 << rng.below(8);
            }
        }
        3 => case.bytes.truncate(rng.below(case.bytes.len() + 1)),
        4 => match case.name.pop() {
            Some(last) if rng.chance(50) => case.name.push(last ^ 1),
            _ => {}
        },
        _ => case.row = case.row.wrapping_add(*rng.pick(&[1, usize::MAX, 1 << 61])),
    }
}

/// The data of the node's first property of this name, or 43.
fn find(
    node: &Node,
    encoded: &Encoded,
    row: usize,
    name: &[u8],
) -> Option<Result<(usize, usize), u32>> {
    let mut properties = node.properties.iter();
    let index = properties.position(|property| property.name == name);
    let place = index.map(|index| encoded.nodes[row].properties[index]);
    Some(place.map_or(Err(43), |place| Ok((place.data, place.end))))
}

/// A name of the node, or any other.
fn some_name(rng: &mut Rng, node: &Node) -> Vec<u8> {
    match rng.pick_any(&node.properties) {
        Some(property) if rng.chance(70) => property.name.clone(),
        _ => names::any(rng),
    }
}

/// Empty, too long, or with a byte that no name holds.
fn bad_name(rng: &mut Rng, node: &Node) -> Vec<u8> {
    let mut name = some_name(rng, node);
    match rng.below(5) {
        0 => name.clear(),
        1 => name.resize(33, b'a'),
        2 => name.push(0),
        3 => name.resize(rng.range(33, 400), b'n'),
        _ => {
            let at = rng.below(name.len());
            name[at] = *rng.pick(b"\0AZ");
        }
    }
    name
}

/// A body of at least `count` properties somewhere in other bytes.
fn by_hand(rng: &mut Rng, count: usize, repeated: bool) -> Case {
    let kind = unknown::kind(rng);
    let mut node = Node::new(kind);
    while node.properties.len() < count {
        let property = free_property(rng, &Profile::TINY, kind, &node.properties);
        node.properties.push(property);
    }
    let mut name = rng.pick(&node.properties).name.clone();
    if repeated {
        for _ in 0..rng.range(1, 3) {
            let code = *rng.pick(&TYPES);
            let data = data(rng, &Profile::TINY, code, 1);
            let at = rng.below(node.properties.len() + 1);
            let double = Property::new(code, &name, 1, data);
            node.properties.insert(at, double);
            let free = free_property(rng, &Profile::TINY, kind, &node.properties);
            node.properties.push(free);
        }
    } else if rng.chance(20) {
        name = names::any(rng);
    }
    // The node's header is what lies before the body.
    let encoded = File::new(0, vec![node]).encode();
    let place = &encoded.nodes[0];
    let mut row = Row::new(rng.next_u32(), rng.next_u32());
    row.start = (place.offset + 24) as u32;
    row.end = place.end as u32;
    row.properties = place.properties.len() as u32;
    let mut places = place.properties.iter();
    let found = places.find(|place| encoded.bytes[place.offset + 8..place.data] == name[..]);
    let answer = match place.properties.len() > MAX_PROPERTIES {
        true => Err(42),
        false => found.map_or(Err(43), |place| Ok((place.data, place.end))),
    };
    // The table may be of any length, also past 1,024 rows.
    let before = match rng.chance(2) {
        true => rng.range(1_022, 2_000),
        false => rng.below(4),
    };
    let mut table: Vec<u32> = (0..before * 8).map(|_| rng.next_u32()).collect();
    table.extend(row.numbers());
    Case {
        bytes: encoded.bytes,
        table,
        row: before,
        name,
        answer: Some(answer),
    }
}

/// A table of one row over random bytes, often with a property header.
fn random_body(rng: &mut Rng) -> Case {
    let length = rng.below(60);
    let mut bytes = rng.bytes(length);
    if rng.chance(70) && bytes.len() > 10 {
        bytes[..2].copy_from_slice(&rng.pick(&TYPES).to_le_bytes());
        bytes[2..4].copy_from_slice(&[rng.range(0, 4) as u8, 0]);
        bytes[4..8].copy_from_slice(&(rng.below(4) as u32).to_le_bytes());
    }
    let mut row = Row::new(rng.next_u32(), 0);
    row.end = rng.below(length + 2) as u32;
    row.properties = rng.below(3) as u32;
    let name = match bytes.get(8..10) {
        Some(name) if rng.chance(50) => name.to_vec(),
        _ => names::any(rng),
    };
    Case {
        bytes,
        table: row.numbers().to_vec(),
        row: 0,
        name,
        answer: None,
    }
}

/// Anything at all.
fn random(rng: &mut Rng, file: &File) -> Case {
    let length = rng.below(40);
    let bytes = match rng.chance(50) {
        true => file.bytes(),
        false => rng.bytes(length),
    };
    let table = (0..length).map(|_| match rng.chance(70) {
        true => rng.below(bytes.len() + 2) as u32,
        false => rng.edge_u32(),
    });
    let table = table.collect();
    let row = match rng.chance(80) {
        true => rng.below(5),
        false => rng.next_u64() as usize,
    };
    let name_length = rng.below(40);
    let name = match rng.chance(50) {
        true => names::any(rng),
        false => rng.bytes(name_length),
    };
    Case {
        bytes,
        table,
        row,
        name,
        answer: None,
    }
}
