//! Names that a search may be slow on.

use super::drawn::Drawn;
use crate::format::{B, MATERIAL, MAX_NAME, MESH, MODEL, ROOT, SKELETON, V3};
use crate::rng::Rng;
use crate::tree::{File, Node, Property};

/// How the names of a node are made.
#[derive(Clone, Copy, Debug)]
pub struct Names {
    /// Properties of a node.
    pub count: usize,
    pub length: usize,
    /// Letters at the start in which all agree.
    pub shared: usize,
    /// The last is one of the others again.
    pub repeated: Option<usize>,
}

impl Names {
    /// The number stands right after what is shared, in two letters where there is room.
    pub fn list(&self) -> Vec<Vec<u8>> {
        let mut names: Vec<Vec<u8>> = (0..self.count).map(|number| self.name(number)).collect();
        if let (Some(other), true) = (self.repeated, self.count > 1) {
            let last = self.count - 1;
            names[last] = names[other % last].clone();
        }
        names
    }

    fn name(&self, number: usize) -> Vec<u8> {
        let mut name = vec![b'n'; self.length];
        let shared = self.shared.min(self.length - 1);
        name[shared] = 0x80 + number as u8;
        name
    }
}

/// Draws names and how many nodes have them.
pub fn drawn(rng: &mut Rng) -> Drawn {
    let names = Names {
        count: *rng.pick(&[1, 2, 3, 8, 16, 32, 63, 64]),
        length: rng.range(1, MAX_NAME),
        shared: 0,
        repeated: None,
    };
    let names = Names {
        shared: *rng
            .pick(&[0, 1, 3, 4, 7, 8, 15, 16, 30, 31])
            .min(&(names.length - 1)),
        repeated: rng.chance(30).then(|| rng.below(64)),
        ..names
    };
    let nodes = *rng.pick(&[1, 2, 10, 100, 1_000]);
    let kind = *rng.pick(&[ROOT, SKELETON, MODEL]);
    let elements = *rng.pick(&[0, 0, 1, 8, 100]);
    Drawn {
        about: format!("{names:?}, {elements} bytes each, on {nodes} nodes of kind {kind:08X}"),
        bytes: on_nodes(kind, nodes, &names, elements).bytes(),
    }
}

/// Nodes of a kind, all with these names. Only the last has the repeated one.
pub fn on_nodes(kind: u32, nodes: usize, names: &Names, elements: usize) -> File {
    let node = |names: &Names| {
        let property = |name: Vec<u8>| Property::new(B, &name, elements, vec![1; elements]);
        let properties = names.list().into_iter().map(property).collect();
        Node::with(kind, properties, Vec::new())
    };
    let whole = Names {
        repeated: None,
        ..*names
    };
    let mut list = vec![node(&whole); nodes - 1];
    list.push(node(names));
    match kind {
        ROOT => File::new(0, list),
        SKELETON => {
            let model = Node::with(MODEL, Vec::new(), list);
            File::new(0, vec![Node::with(ROOT, Vec::new(), vec![model])])
        }
        _ => File::new(0, vec![Node::with(ROOT, Vec::new(), list)]),
    }
}

/// Draws names that are listed or nearly so: in their first letters, in a digit or in a letter more.
pub fn near_listed(rng: &mut Rng) -> Drawn {
    let mesh = rng.chance(50);
    let count = rng.range(1, 62);
    let (first, digits, more) = (rng.below(1_000), rng.chance(70), rng.below(3));
    let prefix = match mesh {
        true => *rng.pick(&["c", "u", "cl", "vn", "wb", "vp"]),
        false => *rng.pick(&[
            "extra",
            "roughness",
            "diffuse",
            "albedo",
            "extr",
            "specular",
        ]),
    };
    let names = (0..count).map(|number| match digits {
        true => format!("{prefix}{}{}", (first + number) % 1_200, &"xx"[..more]),
        false => format!("{prefix}.{number}{}", &"xx"[..more]),
    });
    let listed = |name: &str| {
        let digits = name.strip_prefix(prefix).unwrap_or_default();
        let short = digits.len() <= 3 && digits.bytes().all(|digit| digit.is_ascii_digit());
        short && ["c", "u", "extra"].contains(&prefix)
    };
    let mut properties = match mesh {
        true => vec![
            Property::array(V3, "vp", Vec::new()),
            Property::array(B, "f", Vec::new()),
        ],
        false => vec![Property::string("n", b""), Property::string("t", b"")],
    };
    // Listed ones would need links, or data as long as the vertices.
    let free = names.filter(|name| !listed(name));
    properties.extend(free.map(|name| Property::new(B, name.as_bytes(), 0, Vec::new())));
    let kind = if mesh { MESH } else { MATERIAL };
    let nodes = *rng.pick(&[1, 10, 100, 1_000]);
    let about = format!(
        "{nodes} nodes of kind {kind:08X} of {} names like {prefix}, from {first}, digits {digits}, {more} letters more",
        properties.len()
    );
    let node = Node::with(kind, properties, Vec::new());
    let model = Node::with(MODEL, Vec::new(), vec![node; nodes]);
    let bytes = File::new(0, vec![Node::with(ROOT, Vec::new(), vec![model])]).bytes();
    Drawn { about, bytes }
}
