//! A mesh's partners and the lengths that its vertices bind.

use super::placed::{elements, file, floats, minimal, numbers, placed, put, rooted, shuffled};
use super::Reads;
use corpus::format::{B, BLEND_SHAPE, F, H, I, MESH, V2, V3};
use corpus::tree::{Node, Property};

const N: [u16; 3] = [B, H, I];

pub fn add(reads: &mut Reads) {
    add_partners(reads);
    add_layers(reads);
    add_weights(reads);
    add_products(reads);
    add_own(reads);
}

/// A mesh of this number of vertices, and no faces.
fn mesh(vertices: usize) -> Node {
    let mut node = minimal(MESH);
    put(&mut node, elements(V3, "vp", vertices));
    put(&mut node, numbers(B, "f", &[]));
    node
}

/// All sets of wb, wv and mi; some of those that pass have lengths that mi does not give.
fn add_partners(reads: &mut Reads) {
    reads.cases.sweep("reads meshes: partners", 10);
    for vertices in [0, 1, 2] {
        for set in 0..8 {
            for code in N {
                let mut node = mesh(vertices);
                let all = [
                    elements(code, "wb", vertices),
                    floats("wv", vertices),
                    numbers(code, "mi", &[1]),
                ];
                for (bit, property) in all.into_iter().enumerate() {
                    if set & 1 << bit != 0 {
                        node.properties.push(property);
                    }
                }
                let node = shuffled(&mut reads.rng, node);
                match set {
                    0b000 | 0b100 | 0b111 => drop(reads.right(&placed(node))),
                    _ => reads.lacking(&placed(node)),
                }
            }
        }
    }
    // A partner of another type is 13, and a name near a partner's is none.
    for (name, code) in [("wb", F), ("wv", I), ("mi", F)] {
        let mut node = weighted(2, 1, [2, 2]);
        put(&mut node, elements(code, name, 1));
        let index = node.position(name).expect("it was put");
        reads.wrong(&placed(node.clone()), 13, index);
        node.properties[index].name.push(b'0');
        let placed = placed(node);
        reads.lacking(&placed);
    }
}

/// Layers of every length about V.
fn add_layers(reads: &mut Reads) {
    for vertices in [0, 1, 2, 5] {
        for (name, code) in [("vn", V3), ("vt", V3), ("c3", I), ("u999", V2)] {
            reads.cases.sweep(&format!("reads meshes: {name}"), 2);
            for length in 0..=vertices + 2 {
                let mut node = mesh(vertices);
                node.properties.push(elements(code, name, length));
                let node = shuffled(&mut reads.rng, node);
                let index = node.position(name).expect("it was put");
                match length == vertices {
                    true => drop(reads.right(&placed(node))),
                    false => reads.wrong(&placed(node), 15, index),
                }
            }
        }
    }
    // Lengths that agree with V in their lowest byte.
    reads.cases.sweep("reads meshes: low bytes", 2);
    for (vertices, length) in [(1, 257), (257, 1), (0, 256), (256, 0), (256, 256)] {
        let mut node = mesh(vertices);
        node.properties.push(elements(I, "c0", length));
        match length == vertices {
            true => drop(reads.right(&placed(node))),
            false => reads.wrong(&placed(node), 15, 2),
        }
    }
    reads.cases.sweep("reads meshes: layers", 4);
    // Several layers: the first wrong one in file order speaks.
    for wrong in 1..16 {
        let mut node = mesh(2);
        for (bit, (name, code)) in [("c0", I), ("vt", V3), ("u0", V2), ("vn", V3)]
            .into_iter()
            .enumerate()
        {
            let length = if wrong & 1 << bit != 0 { 3 } else { 2 };
            node.properties.push(elements(code, name, length));
        }
        let node = shuffled(&mut reads.rng, node);
        let first = (0..node.properties.len())
            .find(|&index| node.properties[index].length == 3)
            .expect("one is wrong");
        reads.wrong(&placed(node), 15, first);
    }
}

/// A mesh with weights of these lengths, wb before wv.
fn weighted(vertices: usize, mi: u32, [wb, wv]: [usize; 2]) -> Node {
    let mut node = mesh(vertices);
    let code = match mi {
        0..=0xFF => B,
        0x100..=0xFFFF => H,
        _ => I,
    };
    node.properties.push(numbers(code, "mi", &[mi]));
    node.properties.push(elements(B, "wb", wb));
    node.properties.push(floats("wv", wv));
    node
}

/// Right and wrong lengths of either; where both are wrong, the first in file order speaks.
fn judge(reads: &mut Reads, vertices: usize, mi: u32, lengths: [usize; 2], right: usize) {
    let node = weighted(vertices, mi, lengths);
    let node = shuffled(&mut reads.rng, node);
    let wrong = (0..node.properties.len()).find(|&index| {
        let property = &node.properties[index];
        property.name.starts_with(b"w") && property.length as usize != right
    });
    match wrong {
        None => drop(reads.right(&placed(node))),
        Some(index) => reads.wrong(&placed(node), 15, index),
    }
}

fn add_weights(reads: &mut Reads) {
    reads.cases.sweep("reads meshes: weights", 10);
    for vertices in [0, 1, 2, 3] {
        for mi in 0..=3 {
            let right = mi as usize * vertices;
            let others = [
                right,
                right + 1,
                right.saturating_sub(1),
                vertices,
                mi as usize,
            ];
            for wb in others {
                judge(reads, vertices, mi, [wb, right], right);
            }
            judge(reads, vertices, mi, [right, right + 1], right);
            judge(reads, vertices, mi, [right + 1, right + 2], right);
            judge(reads, vertices, mi, [right + 1, right + 1], right);
        }
    }
    // Numbers whose highest bit is set are no negative ones.
    for (vertices, mi) in [(1, 127), (1, 128), (1, 255), (1, 256), (2, 128), (3, 100)] {
        let right = mi as usize * vertices;
        judge(reads, vertices, mi, [right, right], right);
        judge(reads, vertices, mi, [right, 0], right);
        judge(reads, vertices, mi, [right % 256, right % 256], right);
    }
    // mi of each type, alone and with any value.
    for code in N {
        for value in [0, 1, 0x80, 0x8000, 0x8000_0000, u32::MAX] {
            let mut node = mesh(2);
            node.properties.push(numbers(code, "mi", &[value]));
            let node = shuffled(&mut reads.rng, node);
            reads.right(&placed(node));
        }
    }
}

/// Products that are right only where they wrap at 2^32, or at 2^16, or where a number has a sign.
fn add_products(reads: &mut Reads) {
    reads.cases.sweep("reads meshes: products", 8);
    for (vertices, mi, length) in [
        (2, 0x8000_0000, 0),
        (2, 0x8000_0001, 2),
        (4, 0x4000_0000, 0),
        (4, 0x4000_0001, 4),
        (3, 0x5555_5556, 2),
        (5, 0x3333_3334, 4),
        (8, 0xE000_0001, 8),
        (2, 0xFFFF_FFFF, 2),
        (1, 0xFFFF_FFFF, 0),
        (1, 0xFFFF_FFFF, 1),
        (1, 0x8000_0000, 0),
        (1, 0x0001_0000, 0),
        (1, 0x0001_0001, 1),
        (2, 0x8000, 0),
        (2, 0x8001, 2),
        (1, 0x0100_0000, 0),
    ] {
        let product = mi as u64 * vertices as u64;
        assert_ne!(product, length as u64);
        judge(reads, vertices, mi, [length, length], product as usize);
    }
    for mi in [0x8000_0000, 0xFFFF_FFFF, 0x1_0000] {
        judge(reads, 0, mi, [0, 0], 0);
        judge(reads, 0, mi, [1, 0], 0);
        judge(reads, 0, mi, [0, 1], 0);
    }
}

/// Every mesh has its own V; a BlendShape's vp is none.
fn add_own(reads: &mut Reads) {
    reads.cases.sweep("reads meshes: own", 2);
    let layered = |vertices: usize, length: usize| {
        let mut node = mesh(vertices);
        node.properties.push(elements(I, "c0", length));
        node
    };
    let parts = [(1, 1), (2, 2), (0, 0), (3, 3)];
    for wrong in 0..=parts.len() {
        let mut outer = rooted(layered(1, 1));
        let model = &mut outer.children[0];
        model.children.clear();
        for (index, (vertices, length)) in parts.into_iter().enumerate() {
            let mut part = layered(vertices, length);
            part.hash += index as u64;
            if index == wrong {
                part.properties[2] = elements(I, "c0", parts[(index + 1) % 4].1);
            }
            model.children.push(part);
        }
        model.children.insert(2, shape());
        let tree = file(vec![outer]);
        let row = 2 + wrong + usize::from(wrong >= 2);
        match tree.encode().nodes.get(row) {
            Some(node) => reads.refused(&tree.bytes(), 15, node.properties[2].offset),
            None => drop(reads.accepted(&tree)),
        }
    }
}

fn shape() -> Node {
    let mut shape = minimal(BLEND_SHAPE);
    put(&mut shape, elements(V3, "vp", 4));
    put(&mut shape, numbers(B, "vi", &[9, 8, 7, 255]));
    shape
        .properties
        .push(Property::new(F, b"ts", 0, Vec::new()));
    shape
}
