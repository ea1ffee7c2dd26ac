//! The worked files E1 to E12 of the rules. Bytes that the rules leave free are as `docs/DECISIONS.md` has them.

use crate::format::{element_size, B, MESH, MODEL, ROOT, V3};
use crate::tree::{numbers_data, File, Node, Property};

/// An unknown kind, that of E10's child.
pub const WAGON: u32 = u32::from_le_bytes(*b"wagn");

/// E1 to E12 by name, and E11 with its degenerate face.
pub fn all() -> Vec<(&'static str, Vec<u8>)> {
    vec![
        ("e1", e1().bytes()),
        ("e2", Vec::new()),
        ("e3", e3().bytes()),
        ("e4", e4()),
        ("e5", e5().bytes()),
        ("e6", e6().bytes()),
        ("e7", e7().bytes()),
        ("e8", e8().bytes()),
        ("e9", e9().bytes()),
        ("e10", e10().bytes()),
        ("e11", e11().bytes()),
        ("e11_degenerate", triangle([0, 1, 1]).bytes()),
        ("e12", triangle([0, 1, 3]).bytes()),
    ]
}

/// No roots.
pub fn e1() -> File {
    File::default()
}

/// One bare root.
pub fn e3() -> File {
    File::new(0, vec![Node::new(ROOT)])
}

/// E3 with a change.
pub fn changed(change: impl FnOnce(&mut File)) -> File {
    let mut file = e3();
    change(&mut file);
    file
}

/// E3 without its last byte.
pub fn e4() -> Vec<u8> {
    let mut bytes = e3().bytes();
    bytes.pop();
    bytes
}

/// One more byte.
pub fn e5() -> File {
    changed(|file| file.rest.push(0))
}

/// One more byte that is the root's.
pub fn e6() -> File {
    changed(|file| file.roots[0].rest.push(0))
}

/// Root size 23.
pub fn e7() -> File {
    changed(|file| file.roots[0].claimed.size = Some(23))
}

/// A Mesh at the top.
pub fn e8() -> File {
    changed(|file| file.roots[0].kind = MESH)
}

/// Version 2.
pub fn e9() -> File {
    changed(|file| file.version = 2)
}

/// A root with one unknown child.
pub fn e10() -> File {
    let mut wagon = Node::new(WAGON);
    wagon.rest = b"abc".to_vec();
    changed(|file| file.roots[0].children.push(wagon))
}

/// A mesh of one face.
pub fn e11() -> File {
    triangle([0, 1, 2])
}

/// E11 with this face.
pub fn triangle(face: [u32; 3]) -> File {
    mesh(B, 3, &face)
}

/// E11 with this number of vertices, and indices of this type.
pub fn mesh(code: u16, vertices: usize, indices: &[u32]) -> File {
    let size = element_size(code).expect("a type of numbers");
    let properties = vec![
        Property::array(V3, "vp", vec![0; 12 * vertices]),
        Property::array(code, "f", numbers_data(size, indices)),
    ];
    let mesh = Node::with(MESH, properties, Vec::new());
    let model = Node::with(MODEL, Vec::new(), vec![mesh]);
    File::new(0, vec![Node::with(ROOT, Vec::new(), vec![model])])
}
