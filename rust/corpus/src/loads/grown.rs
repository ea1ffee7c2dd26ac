//! Valid files of few nodes, less than some hundred bytes short of a length.

use crate::format::{B, H, MESH, MODEL, ROOT, V3};
use crate::rng::Rng;
use crate::tree::{File, Node, Property};
use crate::worked::WAGON;

/// What headers, names and a few vertices take at most.
const REST: usize = 300;

fn in_model(properties: Vec<Property>) -> File {
    let mesh = Node::with(MESH, properties, Vec::new());
    let model = Node::with(MODEL, Vec::new(), vec![mesh]);
    File::new(0, vec![Node::with(ROOT, Vec::new(), vec![model])])
}

/// The file with a short unknown node before all else in its first root, which is row 1.
pub fn noted(mut file: File) -> File {
    let mut note = Node::new(WAGON);
    note.rest = vec![b'-'; 40];
    file.roots[0].children.insert(0, note);
    file
}

/// A mesh of vertices alone.
pub fn vertices(length: usize) -> File {
    let count = (length - REST) / 12;
    in_model(vec![
        Property::array(V3, "vp", vec![0; 12 * count]),
        Property::array(B, "f", Vec::new()),
    ])
}

/// A mesh of faces in `h` or `i` over 256 vertices.
pub fn faces(rng: &mut Rng, code: u16, length: usize) -> File {
    let (vertices, width) = (256, if code == H { 2 } else { 4 });
    let faces = (length - REST - 12 * vertices) / (3 * width);
    let mut data = vec![0; 3 * width * faces];
    for index in data.chunks_exact_mut(width) {
        index[0] = rng.byte();
    }
    in_model(vec![
        Property::array(V3, "vp", vec![0; 12 * vertices]),
        Property::array(code, "f", data),
    ])
}

/// A Model with two strings, the first of them long.
pub fn string(length: usize) -> File {
    let properties = vec![
        Property::string("n", &vec![b'x'; length - REST]),
        Property::string("last", b"y"),
    ];
    let model = Node::with(MODEL, properties, Vec::new());
    File::new(0, vec![Node::with(ROOT, Vec::new(), vec![model])])
}
