//! A mesh's f: its length, its values in every width, and faces with equal indices.

use super::placed::{elements, file, minimal, numbers, placed, put, rooted, shuffled, Placed};
use super::Reads;
use corpus::format::{B, H, I, MESH, MODEL, V3};

const N: [u16; 3] = [B, H, I];

pub fn add(reads: &mut Reads) {
    add_lengths(reads);
    add_equal(reads);
    add_values(reads);
    add_many(reads);
}

/// A mesh of this number of vertices with these faces, in either order. Answers the index of f, too.
fn mesh(reads: &mut Reads, vertices: usize, code: u16, indices: &[u32]) -> (Placed, usize) {
    let mut node = minimal(MESH);
    put(&mut node, elements(V3, "vp", vertices));
    put(&mut node, numbers(code, "f", indices));
    let node = shuffled(&mut reads.rng, node);
    let index = node.position("f").expect("it was put");
    (placed(node), index)
}

fn right(reads: &mut Reads, vertices: usize, code: u16, indices: &[u32]) -> (u32, u32) {
    let (placed, _) = mesh(reads, vertices, code, indices);
    let sums = reads.right(&placed);
    (sums.faces, sums.degenerate)
}

fn wrong(reads: &mut Reads, vertices: usize, code: u16, indices: &[u32]) {
    let (placed, index) = mesh(reads, vertices, code, indices);
    reads.wrong(&placed, 15, index);
}

fn add_lengths(reads: &mut Reads) {
    reads.cases.sweep("reads faces: lengths", 8);
    for code in N {
        for length in 0..=10 {
            let indices = vec![0; length];
            match length % 3 {
                0 => {
                    let faces = length as u32 / 3;
                    assert_eq!(right(reads, 1, code, &indices), (faces, faces));
                }
                _ => wrong(reads, 1, code, &indices),
            }
            match length {
                0 => drop(right(reads, 0, code, &indices)),
                _ => wrong(reads, 0, code, &indices),
            }
        }
        // Both a length and a value that are wrong.
        wrong(reads, 1, code, &[0, 1]);
        wrong(reads, 1, code, &[0, 0, 0, 1]);
        for length in [255, 256] {
            let indices = vec![0; length];
            match length % 3 {
                0 => drop(right(reads, 1, code, &indices)),
                _ => wrong(reads, 1, code, &indices),
            }
        }
    }
}

/// Every face of three vertices.
fn add_equal(reads: &mut Reads) {
    reads.cases.sweep("reads faces: equal", 10);
    for code in N {
        for number in 0..27 {
            let [a, b, c] = [number / 9, number / 3 % 3, number % 3];
            let equal = a == b || b == c || a == c;
            let sums = right(reads, 3, code, &[a, b, c]);
            assert_eq!(sums, (1, equal.into()));
        }
        // Equal indices in two faces are no matter; nor are equal low bytes.
        assert_eq!(right(reads, 3, code, &[0, 1, 2, 2, 1, 0]), (2, 0));
        assert_eq!(right(reads, 3, code, &[0, 1, 2, 2, 0, 1, 1, 0, 2]), (3, 0));
        assert_eq!(right(reads, 3, code, &[0, 0, 1, 1, 2, 2]), (2, 2));
    }
    for code in [H, I] {
        let indices = [1, 257, 0, 0, 256, 1, 257, 1, 257];
        assert_eq!(right(reads, 258, code, &indices), (3, 1));
    }
}

/// Values about V, at the first, a middle and the last place of three faces.
fn add_values(reads: &mut Reads) {
    reads.cases.sweep("reads faces: values", 8);
    for code in N {
        for vertices in [1, 2, 3, 128] {
            let most = vertices as u32 - 1;
            // Many vertices are long.
            let places: &[usize] = if vertices > 3 { &[8] } else { &[0, 4, 8] };
            for &at in places {
                let mut indices = [0; 9];
                indices[at] = most;
                right(reads, vertices, code, &indices);
                indices[at] = most + 1;
                wrong(reads, vertices, code, &indices);
            }
        }
        // The widest values, and those of which one byte alone is set.
        let values: &[u32] = match code {
            B => &[0x7F, 0x80, 0xFE, 0xFF],
            H => &[0x100, 0x7F00, 0x8000, 0xFF00, 0xFFFF],
            _ => &[
                0x100,
                0x8000,
                0x1_0000,
                0x0100_0000,
                0x7FFF_FFFF,
                0x8000_0000,
                0xFF00_0000,
                0xFFFF_FFFF,
            ],
        };
        for &value in values {
            for at in 0..6 {
                let mut indices = [1, 0, 2, 2, 1, 0];
                indices[at] = value;
                wrong(reads, 3, code, &indices);
            }
        }
        // A value beyond V after a degenerate face and before one.
        wrong(reads, 2, code, &[0, 0, 1, 0, 2, 1]);
        wrong(reads, 2, code, &[2, 2, 2, 0, 0, 0]);
    }
    // Where the values of one byte end.
    right(reads, 256, B, &[0, 1, 255]);
    wrong(reads, 255, B, &[0, 1, 255]);
    right(reads, 257, H, &[0, 1, 256]);
    wrong(reads, 256, H, &[0, 1, 256]);
}

/// More faces than fill a block, with one wrong value among them, and several meshes.
fn add_many(reads: &mut Reads) {
    reads.cases.sweep("reads faces: many", 3);
    for code in N {
        for faces in [5, 21, 22, 64, 85, 86] {
            let mut indices: Vec<u32> = (0..3 * faces).map(|_| reads.rng.below(4) as u32).collect();
            right(reads, 4, code, &indices);
            let at = reads.rng.below(indices.len());
            indices[at] = 4;
            wrong(reads, 4, code, &indices);
        }
    }
    let mut outer = rooted(minimal(MESH));
    let mut parts = Vec::new();
    for code in N {
        let mut part = minimal(MESH);
        put(&mut part, numbers(code, "f", &[0, 1, 1, 0, 1, 0]));
        part.hash = u64::from(code);
        parts.push(part);
    }
    put(&mut parts[1], elements(V3, "vp", 3));
    put(&mut parts[1], numbers(H, "f", &[0, 1, 2]));
    outer.children[0].children = parts;
    let tree = file(vec![outer.clone(), outer]);
    let sums = reads.accepted(&tree);
    assert_eq!((sums.faces, sums.degenerate), (10, 8));
    for row in [2, 3, 4, 7, 8, 9] {
        let mut tree = tree.clone();
        put(tree.node_mut(row), numbers(I, "f", &[0, 1, 3]));
        let index = tree.node(row).position("f").expect("it was put");
        let place = tree.encode().nodes[row].properties[index].offset;
        reads.refused(&tree.bytes(), 15, place);
    }
    // On another kind f is a free name.
    let mut model = minimal(MODEL);
    model.properties.push(numbers(B, "f", &[9, 9]));
    assert_eq!(reads.right(&placed(model)).faces, 0);
}
