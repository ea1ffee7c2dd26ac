//! Faults in the form of properties, and of names, types and presence.

use super::{Fault, Place};
use crate::format::{element_size, rule_of, rules, MAX_NAME, MAX_PROPERTIES, S, TYPES};
use crate::rng::Rng;
use crate::tree::{File, Node, Property};
use crate::valid::properties::{data, free_property};
use crate::valid::{names, Profile};

/// A property of a known node for which `test` holds; where there is none, a
/// free one of type `code` is put in.
fn some_property(
    rng: &mut Rng,
    file: &mut File,
    code: u16,
    test: impl Fn(&Property) -> bool,
) -> Option<(usize, usize)> {
    let mut found = Vec::new();
    for (row, node) in file.nodes().into_iter().enumerate() {
        let indexes = (0..node.properties.len()).filter(|index| test(&node.properties[*index]));
        if node.is_known() {
            found.extend(indexes.map(|index| (row, index)));
        }
    }
    if let Some(place) = rng.pick_any(&found) {
        return Some(*place);
    }
    let row = *rng.pick_any(&file.rows(with_room))?;
    let node = file.node_mut(row);
    let name = names::free(rng, node.kind, &node.properties);
    let data = data(rng, &Profile::TINY, code, 1);
    let index = rng.below(node.properties.len() + 1);
    node.properties
        .insert(index, Property::new(code, &name, 1, data));
    Some((row, index))
}

fn with_room(node: &Node) -> bool {
    node.is_known() && node.properties.len() < MAX_PROPERTIES
}

fn any_code(rng: &mut Rng) -> u16 {
    *rng.pick(&TYPES)
}

pub(super) fn many_properties(rng: &mut Rng, file: &mut File) -> Option<Fault> {
    let row = *rng.pick_any(&file.rows(Node::is_known))?;
    let count = MAX_PROPERTIES + rng.range(1, 3);
    let node = file.node_mut(row);
    while node.properties.len() < count {
        let property = free_property(rng, &Profile::TINY, node.kind, &node.properties);
        node.properties.push(property);
    }
    Some(Some((9, Place::Node(row))))
}

pub(super) fn unknown_type(rng: &mut Rng, file: &mut File) -> Option<Fault> {
    let code = any_code(rng);
    let (row, index) = some_property(rng, file, code, |_| true)?;
    let property = &mut file.node_mut(row).properties[index];
    let code = match rng.below(4) {
        0 => property.code ^ 1 << rng.below(16),
        1 => property.code.swap_bytes(),
        2 => *rng.pick(&[0, 0x76, 0x7631, 0x7635, 0x3276, 0x42, 0xFFFF]),
        _ => rng.next_u32() as u16,
    };
    property.code = code;
    (!TYPES.contains(&code)).then_some(Some((11, Place::Property(row, index))))
}

/// A name of no bytes or of more than 32, mostly with as many bytes there.
pub(super) fn name_size(rng: &mut Rng, file: &mut File) -> Option<Fault> {
    let code = any_code(rng);
    let (row, index) = some_property(rng, file, code, |_| true)?;
    let property = &mut file.node_mut(row).properties[index];
    match rng.below(4) {
        0 => property.name.clear(),
        1 => property.name = vec![b'a'; MAX_NAME + 1],
        2 => property.name = vec![b'a'; rng.range(MAX_NAME + 1, 300)],
        _ => property.name_size = Some(*rng.pick(&[0, 33, 0x0101, 0x2000, 0xFFFF])),
    }
    Some(Some((11, Place::Property(row, index))))
}

/// A zero byte or a capital letter in a name.
pub(super) fn name_byte(rng: &mut Rng, file: &mut File) -> Option<Fault> {
    let code = any_code(rng);
    let (row, index) = some_property(rng, file, code, |property| !property.name.is_empty())?;
    let name = &mut file.node_mut(row).properties[index].name;
    let at = rng.below(name.len());
    name[at] = match rng.chance(40) {
        true => 0,
        false => *rng.pick(b"ABMYZ"),
    };
    Some(Some((11, Place::Property(row, index))))
}

pub(super) fn string_length(rng: &mut Rng, file: &mut File) -> Option<Fault> {
    let (row, index) = some_property(rng, file, S, |property| property.code == S)?;
    let property = &mut file.node_mut(row).properties[index];
    property.length = match rng.chance(60) {
        true => *rng.pick(&[0, 2]),
        false => rng.edge_u32(),
    };
    (property.length != 1).then_some(Some((11, Place::Property(row, index))))
}

/// A string at the end of a childless node, without its zero byte; elsewhere
/// it may run into what follows.
pub(super) fn string_without_zero(rng: &mut Rng, file: &mut File) -> Option<Fault> {
    let (row, index) = some_property(rng, file, S, |property| property.code == S)?;
    let node = file.node_mut(row);
    let text = node.properties[index].text().to_vec();
    node.properties[index].data = text;
    if !node.children.is_empty() {
        return Some(None);
    }
    let property = node.properties.remove(index);
    node.properties.push(property);
    let last = node.properties.len() - 1;
    Some(Some((10, Place::Property(row, last))))
}

/// An array length whose size in bytes is right only when it wraps.
pub(super) fn wrapping_length(rng: &mut Rng, file: &mut File) -> Option<Fault> {
    let fixed = |property: &Property| element_size(property.code).is_some();
    let code = TYPES[rng.below(9)];
    let (row, index) = some_property(rng, file, code, fixed)?;
    let property = &mut file.node_mut(row).properties[index];
    let size = element_size(property.code)?;
    // Adding `turn` elements adds a multiple of 2^32 bytes.
    let turn: u32 = match size {
        1 => return huge_length(rng, property, row, index),
        2 => 0x8000_0000,
        4 | 12 => 0x4000_0000,
        8 => 0x2000_0000,
        _ => 0x1000_0000,
    };
    if size == 12 && rng.chance(30) {
        property.length = 0x1555_5556;
        property.data = vec![0; 8];
    } else if rng.chance(20) {
        return huge_length(rng, property, row, index);
    } else {
        let turns = rng.range(1, (1 << 32) / turn as usize - 1) as u32;
        property.length = property.length.wrapping_add(turn.wrapping_mul(turns));
    }
    Some(Some((10, Place::Property(row, index))))
}

/// A length past every file.
fn huge_length(rng: &mut Rng, property: &mut Property, row: usize, index: usize) -> Option<Fault> {
    property.length = match rng.below(3) {
        0 => u32::MAX,
        1 => u32::MAX - rng.below(200) as u32,
        _ => rng.next_u32() | 0x0200_0000,
    };
    Some(Some((10, Place::Property(row, index))))
}

pub(super) fn name_twice(rng: &mut Rng, file: &mut File) -> Option<Fault> {
    let row = *rng.pick_any(&file.rows(with_room))?;
    let node = file.node_mut(row);
    if node.properties.is_empty() {
        let property = free_property(rng, &Profile::TINY, node.kind, &[]);
        node.properties.push(property);
    }
    let index = rng.below(node.properties.len());
    let later = rng.range(index + 1, node.properties.len());
    let mut double = node.properties[index].clone();
    if rng.chance(40) {
        double.code = any_code(rng);
        double.length = 1;
        double.data = data(rng, &Profile::TINY, double.code, 1);
    }
    node.properties.insert(later, double);
    if rng.chance(20) && node.properties.len() < MAX_PROPERTIES {
        let third = node.properties[index].clone();
        node.properties.push(third);
    }
    Some(Some((13, Place::Property(row, later))))
}

/// Rows and indexes of listed properties.
fn listed(file: &File) -> Vec<(usize, usize)> {
    let mut out = Vec::new();
    for (row, node) in file.nodes().into_iter().enumerate() {
        for (index, property) in node.properties.iter().enumerate() {
            if rule_of(node.kind, &property.name).is_some() {
                out.push((row, index));
            }
        }
    }
    out
}

pub(super) fn wrong_type(rng: &mut Rng, file: &mut File) -> Option<Fault> {
    let (row, index) = *rng.pick_any(&listed(file))?;
    let node = file.node_mut(row);
    let property = &mut node.properties[index];
    let rule = rule_of(node.kind, &property.name)?;
    let code = any_code(rng);
    if rule.types.contains(&code) {
        return None;
    }
    let length = match code == S || property.code == S {
        true => 1,
        false => property.length.min(64) as usize,
    };
    property.code = code;
    property.length = length as u32;
    property.data = data(rng, &Profile::TINY, code, length);
    Some(Some((13, Place::Property(row, index))))
}

/// A listed single with a length other than 1.
pub(super) fn wrong_length(rng: &mut Rng, file: &mut File) -> Option<Fault> {
    let (row, index) = *rng.pick_any(&listed(file))?;
    let node = file.node_mut(row);
    let property = &mut node.properties[index];
    let rule = rule_of(node.kind, &property.name)?;
    if rule.array || property.code == S {
        return None;
    }
    let length = *rng.pick(&[0, 0, 2, 3, 7]);
    property.length = length as u32;
    property.data = data(rng, &Profile::TINY, property.code, length);
    Some(Some((13, Place::Property(row, index))))
}

pub(super) fn missing_required(rng: &mut Rng, file: &mut File) -> Option<Fault> {
    let rows = file.rows(|node| rules(node.kind).any(|rule| rule.required));
    let row = *rng.pick_any(&rows)?;
    let node = file.node_mut(row);
    let required: Vec<_> = rules(node.kind).filter(|rule| rule.required).collect();
    let name = rng.pick_any(&required)?.name;
    let index = node.position(name)?;
    node.properties.remove(index);
    Some(Some((14, Place::Node(row))))
}
