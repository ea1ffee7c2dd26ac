//! Faces that a search may be slow on.

use super::drawn::Drawn;
use crate::format::{element_size, B, H, I, MESH, MODEL, ROOT, V3};
use crate::rng::Rng;
use crate::tree::{File, Node, Property};

/// Draws meshes, the last of which may have one bad index.
pub fn drawn(rng: &mut Rng) -> Drawn {
    let code = *rng.pick(&[B, H, I]);
    let width = element_size(code).unwrap_or(1);
    let meshes = *rng.pick(&[1, 1, 1, 2, 30, 500]);
    let most = 600_000 / meshes;
    let faces = *rng
        .pick(&[0, 1, 2, 5, 21, 22, 300, 5_000, 200_000])
        .min(&most);
    let vertices = *rng.pick(&[1, 3, 200, 256]);
    let same = rng.chance(30);
    let mut data = vec![0; 3 * faces * width];
    for index in data.chunks_exact_mut(width) {
        index[0] = if same { 0 } else { rng.below(vertices) as u8 };
    }
    let mesh = |data: &[u8]| {
        let properties = vec![
            Property::array(V3, "vp", vec![0; 12 * vertices]),
            Property::array(code, "f", data.to_vec()),
        ];
        Node::with(MESH, properties, Vec::new())
    };
    let mut list = vec![mesh(&data); meshes];
    let bad = match rng.below(3) {
        _ if faces == 0 || (code == B && vertices == 256) => None,
        0 => None,
        1 => Some(3 * faces - 1),
        _ => Some(rng.below(3 * faces)),
    };
    if let Some(bad) = bad {
        // Too great by little, or in the highest byte alone.
        let last = &mut data[bad * width..][..width];
        match rng.chance(50) {
            true => last[width - 1] = 0xFF,
            false => last.copy_from_slice(&(vertices as u32).to_le_bytes()[..width]),
        }
        list[meshes - 1] = mesh(&data);
    }
    let model = Node::with(MODEL, Vec::new(), list);
    Drawn {
        about: format!(
            "{meshes} meshes of {faces} faces of width {width} over {vertices} vertices, all indices 0: {same}, the last mesh bad at {bad:?}"
        ),
        bytes: File::new(0, vec![Node::with(ROOT, Vec::new(), vec![model])]).bytes(),
    }
}
