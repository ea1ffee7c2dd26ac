//! The slowest sorts of files that a search over [`super::drawn`] found, each at the size of a limit.

use super::names::{on_nodes, Names};
use super::scenes::{bones, handles, skeleton};
use crate::format::{
    B, I, MATERIAL, MAX_FILE, MAX_NODES, MAX_PROPERTIES, MESH, METADATA, MODEL, ROOT, SKELETON, V3,
};
use crate::large::Maker;
use crate::rng::Rng;
use crate::tree::{numbers_data, File, Node, Property};

pub const ALL: [Maker; 15] = [
    ("1,024 x 64 names of 32 letters, no data", long_names),
    ("the same, the last name twice: refused", repeated_name),
    ("the same, names that differ in letter 8", eighth_letters),
    ("1,000 x 62 names like roughness1x", near_material),
    ("1,000 x 62 names like wb1x", near_mesh),
    ("1,000 x 62 names like extra258x", near_numbered),
    ("1,023 bare Metadata", bare_metadata),
    ("341 chains of Root, Model, Skeleton", chains),
    ("1,020 bones, hashes down by 2^32, a handle", far_hashes),
    ("1,022 Models with an empty string", empty_strings),
    ("1,000 meshes of 22 faces, the last bad: refused", bad_mesh),
    ("5,000 faces in b, the 865th bad: refused", bad_inside),
    ("16 MiB of f in i, bad at its end: refused", bad_at_end),
    ("16 MiB of a string without a zero: refused", open_string),
    ("1,025 nodes: refused", one_too_many),
];

/// Names that differ in the last letter alone.
const LONG: Names = Names {
    count: MAX_PROPERTIES,
    length: 32,
    shared: 31,
    repeated: None,
};

fn long_names(_: &mut Rng) -> File {
    on_nodes(ROOT, MAX_NODES, &LONG, 0)
}

fn repeated_name(_: &mut Rng) -> File {
    let names = Names {
        repeated: Some(0),
        ..LONG
    };
    on_nodes(ROOT, MAX_NODES, &names, 0)
}

fn eighth_letters(_: &mut Rng) -> File {
    on_nodes(ROOT, MAX_NODES, &Names { shared: 7, ..LONG }, 0)
}

/// Free names that start as a listed one, numbered from here on.
fn near(kind: u32, mut properties: Vec<Property>, prefix: &str, from: usize) -> File {
    let free = (from..from + MAX_PROPERTIES - 2).map(|number| {
        let name = format!("{prefix}{number}x");
        Property::new(B, name.as_bytes(), 0, Vec::new())
    });
    properties.extend(free);
    in_model(vec![Node::with(kind, properties, Vec::new()); 1_000])
}

fn material() -> Vec<Property> {
    vec![Property::string("n", b""), Property::string("t", b"")]
}

fn near_material(_: &mut Rng) -> File {
    near(MATERIAL, material(), "roughness", 0)
}

fn near_numbered(_: &mut Rng) -> File {
    near(MATERIAL, material(), "extra", 258)
}

fn near_mesh(_: &mut Rng) -> File {
    let needed = vec![
        Property::array(V3, "vp", Vec::new()),
        Property::array(B, "f", Vec::new()),
    ];
    near(MESH, needed, "wb", 0)
}

fn in_root(nodes: Vec<Node>) -> File {
    File::new(0, vec![Node::with(ROOT, Vec::new(), nodes)])
}

fn in_model(nodes: Vec<Node>) -> File {
    in_root(vec![Node::with(MODEL, Vec::new(), nodes)])
}

fn bare_metadata(_: &mut Rng) -> File {
    in_root(vec![Node::new(METADATA); MAX_NODES - 1])
}

fn chains(_: &mut Rng) -> File {
    let chain = in_model(vec![Node::new(SKELETON)]);
    File::new(0, vec![chain.roots[0].clone(); MAX_NODES / 3])
}

fn far_hashes(rng: &mut Rng) -> File {
    let hashes: Vec<u64> = (1..=1_020).rev().map(|number| number << 32).collect();
    let mut parts = bones(hashes.iter().copied());
    parts.extend(handles(rng, 1, &hashes));
    skeleton(parts)
}

fn empty_strings(_: &mut Rng) -> File {
    let model = Node::with(MODEL, vec![Property::string("n", b"")], Vec::new());
    in_root(vec![model; MAX_NODES - 2])
}

/// A mesh of three vertices and these indices.
fn mesh(indices: &[u32]) -> Node {
    let properties = vec![
        Property::array(V3, "vp", vec![0; 36]),
        Property::array(I, "f", numbers_data(4, indices)),
    ];
    Node::with(MESH, properties, Vec::new())
}

fn bad_mesh(_: &mut Rng) -> File {
    let mut indices: Vec<u32> = (0..66).map(|index| index % 3).collect();
    let mut meshes = vec![mesh(&indices); 1_000];
    indices[65] = 3;
    meshes[999] = mesh(&indices);
    in_model(meshes)
}

fn bad_inside(_: &mut Rng) -> File {
    let mut indices = vec![0; 15_000];
    indices[2_593] = 1;
    let mut node = mesh(&[]);
    node.properties = vec![
        Property::array(V3, "vp", vec![0; 12]),
        Property::array(B, "f", indices),
    ];
    in_model(vec![node])
}

fn bad_at_end(rng: &mut Rng) -> File {
    let mut data = vec![0; (MAX_FILE - 300) / 12 * 12];
    let last = data.len() - 4;
    for index in data.chunks_exact_mut(4) {
        index[0] = rng.below(3) as u8;
    }
    data[last] = 3;
    let mut node = mesh(&[]);
    node.properties[1] = Property::array(I, "f", data);
    in_model(vec![node])
}

fn open_string(_: &mut Rng) -> File {
    let mut text = Property::string("n", &vec![b'x'; MAX_FILE - 100]);
    text.data.pop();
    in_root(vec![Node::with(MODEL, vec![text], Vec::new())])
}

fn one_too_many(_: &mut Rng) -> File {
    File::new(0, vec![Node::new(ROOT); MAX_NODES + 1])
}
