//! Properties one at a time, and bodies of them.

use crate::frame::{checksum_of, Case, Cases};
use crate::function::{EXACT, INDEX, STEP};
use corpus::format::{element_size, B, S, TYPES, V4};
use corpus::tree::{Node, Property};
use corpus::valid::properties::{free_property, text};
use corpus::valid::{names, Profile};
use corpus::Rng;
use reference::{body_exact, index, step};

/// The bytes of a node before its properties.
const NODE_HEADER: usize = 24;

pub fn add(cases: &mut Cases) {
    let mut rng = cases.rng(16);
    add_types(cases, &mut rng);
    add_cuts(cases, &mut rng);
    add_names(cases, &mut rng);
    add_strings(cases, &mut rng);
    add_lengths(cases, &mut rng);
    add_offsets(cases, &mut rng);
    add_changed(cases, &mut rng);
    add_bodies(cases, &mut rng);
}

/// The bytes of these properties.
fn body(properties: &[Property]) -> Vec<u8> {
    let mut bytes = Node::with(0, properties.to_vec(), Vec::new()).bytes();
    bytes.split_off(NODE_HEADER)
}

/// A property of this type with a name of `size` bytes and `length` elements.
fn property(rng: &mut Rng, code: u16, size: usize, length: usize) -> Property {
    let name: Vec<u8> = (0..size).map(|_| names::byte(rng)).collect();
    let data = match element_size(code) {
        Some(size) => rng.bytes(size * length),
        None => text(rng, 8),
    };
    Property::new(code, &name, length, data)
}

fn add_step(cases: &mut Cases, body: &[u8], at: u64) {
    let case = Case {
        function: STEP,
        first: body,
        x: at,
        ..Case::default()
    };
    let step = step(body, at as usize);
    let answer = [step.number as usize, step.name.0, step.data.0, step.next];
    cases.add(&case, &answer.map(|number| number as u64));
}

/// The property with other bytes around it.
fn add_inside(cases: &mut Cases, rng: &mut Rng, property: &Property) {
    let (before, after) = (rng.below(6), rng.below(6));
    let bytes = body(std::slice::from_ref(property));
    let bytes = [rng.bytes(before), bytes, rng.bytes(after)].concat();
    add_step(cases, &bytes, before as u64);
}

/// All types, and codes near them, whole and with a byte missing.
fn add_types(cases: &mut Cases, rng: &mut Rng) {
    cases.sweep("properties: types", 16);
    for code in TYPES {
        for length in 0..4 {
            let whole = property(rng, code, 2, length);
            add_inside(cases, rng, &whole);
            let bytes = body(&[whole]);
            add_step(cases, &bytes, 0);
            add_step(cases, &bytes[..bytes.len() - 1], 0);
        }
        for wrong in [code - 1, code + 1, code ^ 0x100, code.swap_bytes()] {
            let mut wrong_type = property(rng, code, 2, 1);
            wrong_type.code = wrong;
            add_inside(cases, rng, &wrong_type);
        }
    }
}

/// Every beginning of a property, and one whose type or name size is wrong besides.
fn add_cuts(cases: &mut Cases, rng: &mut Rng) {
    cases.sweep("properties: cuts", 16);
    for code in TYPES {
        let bytes = body(&[property(rng, code, 2, 1)]);
        for end in 0..bytes.len() {
            add_step(cases, &bytes[..end], 0);
        }
    }
    let longest = body(&[property(rng, V4, 32, 1)]);
    for end in 0..longest.len() {
        add_step(cases, &longest[..end], 0);
    }
    for (at, byte) in [(0, 1), (2, 0), (2, 33), (3, 1)] {
        let mut wrong = longest.clone();
        wrong[at] = byte;
        for end in [7, 8, 9, 39, 40, 41] {
            add_step(cases, &wrong[..end], 0);
        }
    }
}

/// Names of every size, and a barred byte at every place.
fn add_names(cases: &mut Cases, rng: &mut Rng) {
    cases.sweep("properties: names", 12);
    for size in 0..=34 {
        for code in [B, S, V4] {
            let named = property(rng, code, size, 1);
            add_inside(cases, rng, &named);
        }
    }
    for size in [0x20, 0x2000, 0x0120, 0x0100, 0xFF20, 0xFFFF] {
        let mut named = property(rng, B, 32, 1);
        named.name_size = Some(size);
        add_inside(cases, rng, &named);
    }
    for at in 0..32 {
        for byte in [0, b'A', b'Z', b'@', b'['] {
            let mut named = property(rng, B, 32, 1);
            named.name[at] = byte;
            add_inside(cases, rng, &named);
            // With a fault of a later sort besides.
            if byte == b'Z' {
                named.length = u32::MAX;
                add_inside(cases, rng, &named);
                named.code = S;
                add_inside(cases, rng, &named);
            }
        }
    }
}

/// The first zero at any place, at none, and array lengths other than 1.
fn add_strings(cases: &mut Cases, rng: &mut Rng) {
    cases.sweep("properties: strings", 8);
    let string = |data: &[u8]| Property::new(S, b"n", 1, data.to_vec());
    for size in (0..=18).chain([31, 32, 33, 63, 64, 65, 127, 128, 129, 600]) {
        let mut data = vec![*rng.pick(&[1, 0x80, 0xFF, b'x']); size];
        add_step(cases, &body(&[string(&data)]), 0);
        data.push(0);
        add_step(cases, &body(&[string(&data)]), 0);
        data.extend([1, 0, 2]);
        add_step(cases, &body(&[string(&data)]), 0);
    }
    for length in [0, 2, 3, 0x100, 0x101, 0x1_0001, 0x100_0001, u32::MAX] {
        for data in [&b"ab\0"[..], b"ab", b""] {
            let mut wrong = string(data);
            wrong.length = length;
            add_step(cases, &body(&[wrong]), 0);
        }
    }
}

/// Array lengths whose product with the size passes the body, 2^32, or both.
fn add_lengths(cases: &mut Cases, rng: &mut Rng) {
    cases.sweep("properties: lengths", 8);
    for code in TYPES {
        let size = element_size(code).unwrap_or(1) as u32;
        let wraps = ((1u64 << 32).div_ceil(size.into())).min(u32::MAX.into()) as u32;
        for length in [wraps, wraps.wrapping_add(1), wraps - 1, 1 << 31, u32::MAX] {
            let mut long = property(rng, code, 2, 1);
            long.length = length;
            add_inside(cases, rng, &long);
        }
    }
}

/// Offsets about a property's parts, past the end, and at the ends of the numbers.
fn add_offsets(cases: &mut Cases, rng: &mut Rng) {
    cases.sweep("properties: offsets", 8);
    let bytes = body(&[property(rng, B, 3, 1), property(rng, S, 1, 1)]);
    for at in 0..bytes.len() as u64 + 3 {
        add_step(cases, &bytes, at);
    }
    for back in 0..18 {
        add_step(cases, &bytes, u64::MAX - back);
    }
    for bit in 5..64 {
        add_step(cases, &bytes, 1 << bit);
    }
    for at in [0, 1, u64::MAX] {
        add_step(cases, &[], at);
    }
}

/// A changed byte or a cut in a generated property.
fn add_changed(cases: &mut Cases, rng: &mut Rng) {
    cases.sweep("properties: changed", 4);
    for _ in 0..cases.draws(150) {
        let mut bytes = body(&[free_property(rng, &Profile::TINY, 0, &[])]);
        match rng.below(4) {
            0 => bytes.truncate(rng.below(bytes.len())),
            1 => {
                let at = rng.below(8);
                bytes[at] = rng.byte();
            }
            2 => {
                let at = rng.below(bytes.len());
                bytes[at] = rng.byte();
            }
            _ => {}
        }
        add_step(cases, &bytes, 0);
    }
}

/// The body with this count, indexed and judged.
fn add_body(cases: &mut Cases, body: &[u8], count: u32) {
    let case = |function| Case {
        function,
        first: body,
        y: count.into(),
        ..Case::default()
    };
    let index = index(body, count);
    let mut values: Vec<u64> = index.starts.iter().map(|&start| start as u64).collect();
    values.push(index.at as u64);
    values.resize(65, 0);
    let number = index.number.into();
    let passed = index.starts.len() as u64;
    let answer = [number, passed, number, index.at as u64, checksum_of(values)];
    cases.add(&case(INDEX), &answer);
    cases.add(&case(EXACT), &[body_exact(body, count).into()]);
}

fn add_bodies(cases: &mut Cases, rng: &mut Rng) {
    cases.sweep("properties: bodies", 6);
    for _ in 0..cases.draws(300) {
        let mut properties = some_properties(rng);
        if rng.chance(25) {
            spoil(rng, &mut properties);
        }
        let mut bytes = body(&properties);
        match rng.below(8) {
            0 => bytes.truncate(rng.below(bytes.len() + 1)),
            1 => bytes.push(rng.byte()),
            _ => {}
        }
        let properties = properties.len() as u32;
        let count = match rng.below(8) {
            0 => properties + 1,
            1 => properties.saturating_sub(1),
            2 => rng.edge_u32(),
            _ => properties,
        };
        add_body(cases, &bytes, count);
    }
    cases.sweep("properties: counts", 4);
    for count in [0, 1, 63, 64, 65, 66, 256, 320, 0x1_0000, u32::MAX] {
        add_body(cases, &[], count);
        let short = body(&vec![Property::new(B, b"x", 0, Vec::new()); 66]);
        add_body(cases, &short, count);
        add_body(cases, &short[..short.len().min(9 * count as usize)], count);
    }
}

/// A few of any sort, or many short ones.
fn some_properties(rng: &mut Rng) -> Vec<Property> {
    let mut properties = Vec::new();
    if rng.chance(85) {
        for _ in 0..rng.below(6) {
            properties.push(free_property(rng, &Profile::TINY, 0, &properties));
        }
    } else {
        for _ in 0..rng.range(60, 66) {
            properties.push(property(rng, B, 1, 0));
        }
    }
    properties
}

/// Puts a fault into one property.
fn spoil(rng: &mut Rng, properties: &mut [Property]) {
    let at = rng.below(properties.len());
    let Some(property) = properties.get_mut(at) else {
        return;
    };
    match rng.below(5) {
        0 => property.code ^= 1 << rng.below(16),
        1 => property.name_size = Some(*rng.pick(&[0, 33, 0x100])),
        2 => property.name[0] = *rng.pick(b"\0AZ"),
        3 => property.length = rng.edge_u32(),
        _ => drop(property.data.pop()),
    }
}
