//! Faults of partners, lengths and values.

use super::{Fault, Place};
use crate::format::{
    curve_types, element_size, rule_of, rules, Holds, B, BLEND_SHAPE, BONE, CURVE, F, H, I,
    MAX_PROPERTIES, MESH, V2, V3,
};
use crate::rng::Rng;
use crate::tree::{File, Node, Property};
use crate::valid::properties::{data, number};
use crate::valid::{names, Profile};

const N: [u16; 3] = [B, H, I];

fn at(row: usize, index: usize) -> Option<Fault> {
    Some(Some((15, Place::Property(row, index))))
}

fn row_of(rng: &mut Rng, file: &File, kind: u32) -> Option<usize> {
    rng.pick_any(&file.rows_of(kind)).copied()
}

/// Lengths stay below this, also after a fault that claims more.
const LONGEST: usize = 300_000;

/// A property of `length` elements of any content.
fn elements(rng: &mut Rng, code: u16, name: &str, length: usize) -> Property {
    let mut property = Property::new(code, name.as_bytes(), 0, Vec::new());
    resize(rng, &mut property, length);
    property
}

/// Gives the property another number of elements.
fn resize(rng: &mut Rng, property: &mut Property, length: usize) {
    let length = length.min(LONGEST);
    property.length = length as u32;
    property.data = data(rng, &Profile::TINY, property.code, length);
}

/// A length near `length` but not equal to it.
fn unlike(rng: &mut Rng, length: usize) -> usize {
    loop {
        let other = match rng.below(3) {
            0 => length + rng.range(1, 3),
            1 => length.saturating_sub(rng.range(1, 3)),
            _ => rng.below(2),
        };
        if other != length {
            return other;
        }
    }
}

/// Puts the property at a random place and gives its index, if there is room.
fn insert(rng: &mut Rng, node: &mut Node, property: Property) -> Option<usize> {
    if node.properties.len() >= MAX_PROPERTIES {
        return None;
    }
    let index = rng.below(node.properties.len() + 1);
    node.properties.insert(index, property);
    Some(index)
}

/// Some but not all of wb, wv and mi, and not mi alone.
pub(super) fn missing_partner(rng: &mut Rng, file: &mut File) -> Option<Fault> {
    let row = row_of(rng, file, MESH)?;
    let node = file.node_mut(row);
    let vertices = node.length("vp") as usize;
    let weights = ["wb", "wv", "mi"].map(str::as_bytes);
    let kept = |property: &Property| !weights.contains(&property.name.as_slice());
    node.properties.retain(kept);
    let sets: [&[&str]; 5] = [
        &["wb"],
        &["wv"],
        &["wb", "wv"],
        &["wb", "mi"],
        &["wv", "mi"],
    ];
    for name in *rng.pick(&sets) {
        let code = *rng.pick(&N);
        let property = match *name {
            "wb" => elements(rng, code, name, vertices),
            "wv" => elements(rng, F, name, vertices),
            _ => number(name, code, 1),
        };
        insert(rng, node, property)?;
    }
    Some(Some((14, Place::Node(row))))
}

/// A vn, vt, c%d or u%d whose length is not V.
pub(super) fn layer_length(rng: &mut Rng, file: &mut File) -> Option<Fault> {
    let row = row_of(rng, file, MESH)?;
    let node = file.node_mut(row);
    let vertices = node.length("vp") as usize;
    let is_layer = |property: &Property| match rule_of(MESH, &property.name) {
        Some(rule) => rule.numbered || rule.name == "vn" || rule.name == "vt",
        None => false,
    };
    let layers: Vec<usize> = (0..node.properties.len())
        .filter(|index| is_layer(&node.properties[*index]))
        .collect();
    let length = unlike(rng, vertices);
    let index = match rng.pick_any(&layers) {
        Some(index) if rng.chance(60) => *index,
        _ => {
            let (prefix, code) = *rng.pick(&[("vn", V3), ("vt", V3), ("c", I), ("u", V2)]);
            let name = match code {
                V3 => prefix.as_bytes().to_vec(),
                _ => names::numbered(rng, prefix),
            };
            if names::is_taken(&node.properties, &name) {
                return None;
            }
            insert(rng, node, Property::new(code, &name, 0, Vec::new()))?
        }
    };
    resize(rng, &mut node.properties[index], length);
    at(row, index)
}

/// Weights that fit mi times V, put in where they are missing.
fn give_weights(rng: &mut Rng, node: &mut Node) -> Option<u32> {
    let vertices = node.length("vp") as usize;
    let mi = match node.property("mi") {
        Some(mi) if node.position("wb").is_some() => *mi.numbers().first()?,
        _ => {
            node.properties.retain(|property| property.name != b"mi");
            let mi = rng.below(4) as u32;
            let code = *rng.pick(&N);
            let wb_code = *rng.pick(&N);
            let count = mi as usize * vertices;
            insert(rng, node, number("mi", code, mi))?;
            let wb = elements(rng, wb_code, "wb", count);
            insert(rng, node, wb)?;
            let wv = elements(rng, F, "wv", count);
            insert(rng, node, wv)?;
            mi
        }
    };
    Some(mi)
}

pub(super) fn weight_length(rng: &mut Rng, file: &mut File) -> Option<Fault> {
    let row = row_of(rng, file, MESH)?;
    let node = file.node_mut(row);
    let mi = give_weights(rng, node)?;
    let (wb, wv) = (node.position("wb")?, node.position("wv")?);
    let vertices = node.length("vp");
    if rng.chance(50) {
        let index = *rng.pick(&[wb, wv]);
        let length = unlike(rng, node.properties[index].length as usize);
        resize(rng, &mut node.properties[index], length);
        return at(row, index);
    }
    // Another mi: both lengths are wrong, and the earlier of them speaks.
    let turn = (1 << 32) / (1u64 << vertices.trailing_zeros().min(31));
    let other = match rng.chance(50) {
        // The product is right only when it wraps.
        true if vertices > 0 && vertices.is_multiple_of(2) => mi.wrapping_add(turn as u32),
        _ => mi ^ 1,
    };
    let index = node.position("mi")?;
    node.properties[index].code = I;
    node.properties[index].set_numbers(&[other]);
    (vertices > 0 && other != mi).then_some(())?;
    at(row, wb.min(wv))
}

pub(super) fn face_value(rng: &mut Rng, file: &mut File) -> Option<Fault> {
    let row = row_of(rng, file, MESH)?;
    let node = file.node_mut(row);
    let vertices = node.length("vp");
    let index = node.position("f")?;
    let faces = &mut node.properties[index];
    let mut numbers = faces.numbers();
    if numbers.is_empty() {
        numbers = vec![0; 3];
    }
    let value = match rng.below(4) {
        0 => vertices,
        1 => u32::MAX,
        2 => vertices.saturating_add(rng.range(1, 9) as u32),
        _ => 0x8000_0000,
    };
    let most = match element_size(faces.code) {
        Some(1) => 0xFF,
        Some(2) => 0xFFFF,
        _ => u32::MAX,
    };
    if vertices > most {
        faces.code = I;
    }
    let place = rng.below(numbers.len());
    numbers[place] = match faces.code {
        I => value,
        _ => value.min(most),
    };
    faces.set_numbers(&numbers);
    at(row, index)
}

/// A face buffer whose length is no multiple of three.
pub(super) fn face_length(rng: &mut Rng, file: &mut File) -> Option<Fault> {
    let row = row_of(rng, file, MESH)?;
    let node = file.node_mut(row);
    let index = node.position("f")?;
    let faces = &mut node.properties[index];
    let mut numbers = faces.numbers();
    match rng.chance(50) && !numbers.is_empty() {
        true => numbers.truncate(numbers.len().saturating_sub(rng.range(1, 2))),
        false => numbers.extend(vec![0; rng.range(1, 2)]),
    }
    faces.set_numbers(&numbers);
    at(row, index)
}

pub(super) fn flag_value(rng: &mut Rng, file: &mut File) -> Option<Fault> {
    let flags = |kind: u32| rules(kind).filter(|rule| rule.holds == Holds::Flag);
    let rows = file.rows(|node| flags(node.kind).next().is_some());
    let row = *rng.pick_any(&rows)?;
    let node = file.node_mut(row);
    let names: Vec<&str> = flags(node.kind).map(|rule| rule.name).collect();
    let name = *rng.pick_any(&names)?;
    let value = match rng.below(3) {
        0 => 2,
        1 => 255,
        _ => rng.range(2, 255) as u8,
    };
    let flag = Property::array(B, name, vec![value]);
    let index = match node.position(name) {
        Some(index) => {
            node.properties[index] = flag;
            index
        }
        None => insert(rng, node, flag)?,
    };
    at(row, index)
}

/// Strings that are in some list, or nearly.
const STRINGS: [&str; 24] = [
    "",
    "linear",
    "linea",
    "linear ",
    "Linear",
    "quaternion",
    "quaternions",
    "pt",
    "or",
    "sc",
    "os",
    "rq",
    "tx",
    "vb",
    "VB",
    "v",
    "additive",
    "absolute",
    "relative",
    "relativ",
    "x",
    "X",
    "xy",
    "z\n",
];

/// A string outside of the list of its name.
pub(super) fn string_value(rng: &mut Rng, file: &mut File) -> Option<Fault> {
    let mut found = Vec::new();
    for (row, node) in file.nodes().into_iter().enumerate() {
        for (index, property) in node.properties.iter().enumerate() {
            let rule = rule_of(node.kind, &property.name);
            if let Some(Holds::OneOf(strings)) = rule.map(|rule| rule.holds) {
                found.push((row, index, strings));
            }
        }
    }
    let (row, index, strings) = *rng.pick_any(&found)?;
    let text = *rng.pick(&STRINGS);
    if strings.contains(&text) {
        return None;
    }
    let node = file.node_mut(row);
    node.properties[index].set_text(text.as_bytes());
    // A kp outside its list wants f, so kv may be wrong as well.
    if node.properties[index].name == b"kp" {
        let kv = node.position("kv")?;
        if node.properties[kv].code != F {
            return at(row, index.min(kv));
        }
    }
    at(row, index)
}

/// A kv of a listed type that kp does not want.
pub(super) fn curve_type(rng: &mut Rng, file: &mut File) -> Option<Fault> {
    let row = row_of(rng, file, CURVE)?;
    let node = file.node_mut(row);
    let wanted = curve_types(node.property("kp")?.text());
    let index = node.position("kv")?;
    let code = *rng.pick(rule_of(CURVE, b"kv")?.types);
    if wanted.contains(&code) {
        return None;
    }
    let kv = &mut node.properties[index];
    kv.code = code;
    let length = kv.length as usize;
    resize(rng, kv, length);
    at(row, index)
}

/// Another length for one of two arrays that must be equally long.
fn unequal(rng: &mut Rng, file: &mut File, kind: u32, left: &str, right: &str) -> Option<Fault> {
    let row = row_of(rng, file, kind)?;
    let node = file.node_mut(row);
    let (left, right) = (node.position(left)?, node.position(right)?);
    let changed = *rng.pick(&[left, right]);
    let length = unlike(rng, node.properties[changed].length as usize);
    resize(rng, &mut node.properties[changed], length);
    at(row, right)
}

pub(super) fn shape_lengths(rng: &mut Rng, file: &mut File) -> Option<Fault> {
    unequal(rng, file, BLEND_SHAPE, "vi", "vp")
}

pub(super) fn key_lengths(rng: &mut Rng, file: &mut File) -> Option<Fault> {
    unequal(rng, file, CURVE, "kb", "kv")
}

/// A p that is neither -1 nor a bone of the Skeleton.
pub(super) fn bone_parent(rng: &mut Rng, file: &mut File) -> Option<Fault> {
    let row = row_of(rng, file, BONE)?;
    let parent = file.parents()[row]?;
    let siblings = &file.node(parent).children;
    let bones = siblings.iter().filter(|node| node.kind == BONE).count() as u32;
    let value = match rng.below(6) {
        0 | 1 => bones,
        2 => bones + 1,
        3 => 0x8000_0000,
        4 => 0xFFFF_FFFE,
        _ => 0x7FFF_FFFF,
    };
    let node = file.node_mut(row);
    let property = number("p", I, value);
    let index = match node.position("p") {
        Some(index) => {
            node.properties[index] = property;
            index
        }
        None => insert(rng, node, property)?,
    };
    at(row, index)
}
