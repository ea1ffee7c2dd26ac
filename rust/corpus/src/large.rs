//! Valid files for measurements: an ordinary one, and some near the limits.

use crate::format::{
    B, BONE, F, FILE, H, I, L, MATERIAL, MAX_FILE, MAX_NODES, MAX_PROPERTIES, MESH, MODEL, ROOT,
    SKELETON, V2, V3, V4,
};
use crate::rng::Rng;
use crate::tree::{numbers_data, File, Node, Property};
use crate::valid::unknown;

/// A named maker of a large file.
pub type Maker = (&'static str, fn(&mut Rng) -> File);

/// All makers of files near the limits.
pub const ALL: [Maker; 14] = [
    ("many vertices", many_vertices),
    ("many small faces", many_small_faces),
    ("many wide faces", many_wide_faces),
    ("many short faces", many_short_faces),
    ("huge string", huge_string),
    ("many strings", many_strings),
    ("most short properties", most_short_properties),
    ("most listed properties", most_listed_properties),
    ("most long names", most_long_names),
    ("most links", most_links),
    ("most bones", most_bones),
    ("most bare nodes", most_bare_nodes),
    ("most unknown nodes", most_unknown_nodes),
    ("largest file", largest_file),
];

/// A file whose only nodes are a Root, a Model and `node` in it.
fn in_model(node: Node) -> File {
    let model = Node::with(MODEL, Vec::new(), vec![node]);
    File::new(0, vec![Node::with(ROOT, Vec::new(), vec![model])])
}

/// A box wagon on two bogies: one skinned mesh, six bones, three materials with a picture each.
pub fn wagon() -> File {
    let vertices = 2_400;
    let array = |code, name, size: usize| Property::array(code, name, vec![1; size * vertices]);
    let indices: Vec<u32> = (0..3 * 3_200).map(|index| index * 7 % 2_400).collect();
    let mesh = vec![
        Property::string("n", b"body"),
        array(V3, "vp", 12),
        array(V3, "vn", 12),
        array(V2, "u0", 8),
        array(H, "wb", 2),
        array(F, "wv", 4),
        Property::array(H, "f", numbers_data(2, &indices)),
        Property::array(H, "mi", vec![1, 0]),
        Property::string("sm", b"linear"),
        Property::array(L, "m", 100u64.to_le_bytes().to_vec()),
    ];
    let bones = (0..6u32).map(|bone| {
        let properties = vec![
            Property::string("n", format!("axle {bone}").as_bytes()),
            Property::array(I, "p", bone.wrapping_sub(1).to_le_bytes().to_vec()),
            Property::array(V3, "lp", vec![0; 12]),
            Property::array(V4, "lr", vec![0; 16]),
        ];
        Node::with(BONE, properties, Vec::new())
    });
    let materials = (0..3u64).map(|number| {
        let mut picture = Node::with(FILE, vec![Property::string("p", b"side.dds")], Vec::new());
        picture.hash = 200 + number;
        let properties = vec![
            Property::string("n", b"paint"),
            Property::string("t", b"pbr"),
            Property::array(L, "albedo", picture.hash.to_le_bytes().to_vec()),
        ];
        let mut material = Node::with(MATERIAL, properties, vec![picture]);
        material.hash = 100 + number;
        material
    });
    let mut parts = vec![
        Node::with(MESH, mesh, Vec::new()),
        Node::with(SKELETON, Vec::new(), bones.collect()),
    ];
    parts.extend(materials);
    let model = Node::with(MODEL, vec![Property::string("n", b"wagon")], parts);
    File::new(0, vec![Node::with(ROOT, Vec::new(), vec![model])])
}

/// A mesh with positions, normals, a layer of each sort, weights and faces.
pub fn many_vertices(rng: &mut Rng) -> File {
    let vertices = 200_000;
    let mut random =
        |code, name, size: usize| Property::array(code, name, rng.bytes(size * vertices));
    let mut properties = vec![
        random(V3, "vp", 12),
        random(V3, "vn", 12),
        random(I, "c0", 4),
        random(V2, "u0", 8),
        random(I, "wb", 4),
        random(F, "wv", 4),
        Property::array(B, "mi", vec![1]),
    ];
    let most = vertices as u32;
    let faces = (0..most).flat_map(|at| [at, (at + 1) % most, (at * 7 + 2) % most]);
    let faces: Vec<u32> = faces.collect();
    properties.push(Property::array(I, "f", numbers_data(4, &faces)));
    in_model(Node::with(MESH, properties, Vec::new()))
}

/// As many faces as fit: one byte an index, three vertices.
pub fn many_small_faces(rng: &mut Rng) -> File {
    let indices = (MAX_FILE - 300) / 3 * 3;
    let mut data = rng.bytes(indices);
    data.iter_mut().for_each(|index| *index %= 3);
    mesh_of(vec![0; 36], Property::array(B, "f", data))
}

/// Faces of four bytes an index.
pub fn many_wide_faces(rng: &mut Rng) -> File {
    let indices = (MAX_FILE - 300) / 12 * 3;
    let numbers: Vec<u32> = (0..indices).map(|_| rng.below(3) as u32).collect();
    mesh_of(
        vec![0; 36],
        Property::array(I, "f", numbers_data(4, &numbers)),
    )
}

/// Faces of two bytes an index, with as many vertices as they can tell apart.
pub fn many_short_faces(rng: &mut Rng) -> File {
    let vertices = 1 << 16;
    let indices = (MAX_FILE - 300 - 12 * vertices) / 6 * 3;
    let faces = Property::array(H, "f", rng.bytes(2 * indices));
    mesh_of(vec![0; 12 * vertices], faces)
}

fn mesh_of(positions: Vec<u8>, faces: Property) -> File {
    let properties = vec![Property::array(V3, "vp", positions), faces];
    in_model(Node::with(MESH, properties, Vec::new()))
}

/// A Model of 64 properties, one of them a string that fills the file.
pub fn huge_string(rng: &mut Rng) -> File {
    let mut properties: Vec<Property> = (0..MAX_PROPERTIES - 1)
        .map(|index| Property::string(&format!("note{index}"), b"-"))
        .collect();
    let at = rng.below(properties.len() + 1);
    let text = vec![b'x'; MAX_FILE - 2_000];
    properties.insert(at, Property::string("n", &text));
    let model = Node::with(MODEL, properties, Vec::new());
    File::new(0, vec![Node::with(ROOT, Vec::new(), vec![model])])
}

/// 64 strings of a quarter of a mebibyte.
pub fn many_strings(_: &mut Rng) -> File {
    let text = vec![0xC3; MAX_FILE / MAX_PROPERTIES - 100];
    let strings = (0..MAX_PROPERTIES).map(|index| Property::string(&format!("text{index}"), &text));
    let model = Node::with(MODEL, strings.collect(), Vec::new());
    File::new(0, vec![Node::with(ROOT, Vec::new(), vec![model])])
}

/// 1,024 roots, each with the properties that `make` gives for an index.
fn full_roots(make: impl Fn(usize) -> Property) -> File {
    let root = || Node::with(ROOT, (0..MAX_PROPERTIES).map(&make).collect(), Vec::new());
    File::new(0, (0..MAX_NODES).map(|_| root()).collect())
}

/// 1,024 nodes of 64 short properties.
pub fn most_short_properties(_: &mut Rng) -> File {
    full_roots(|index| {
        let name = [b'a' + (index % 26) as u8, b'a' + (index / 26) as u8];
        Property::new(B, &name, 0, Vec::new())
    })
}

/// 1,022 Meshes of 64 listed properties without data.
pub fn most_listed_properties(_: &mut Rng) -> File {
    let mut properties = vec![
        Property::new(V3, b"vp", 0, Vec::new()),
        Property::new(B, b"f", 0, Vec::new()),
    ];
    let layers = (0..MAX_PROPERTIES - 2).map(|number| {
        let name = format!("c{number}");
        Property::new(I, name.as_bytes(), 0, Vec::new())
    });
    properties.extend(layers);
    let mesh = Node::with(MESH, properties, Vec::new());
    let model = Node::with(MODEL, Vec::new(), vec![mesh; MAX_NODES - 2]);
    File::new(0, vec![Node::with(ROOT, Vec::new(), vec![model])])
}

/// 1,024 nodes of 64 properties whose names of 32 bytes differ at the end.
pub fn most_long_names(_: &mut Rng) -> File {
    full_roots(|index| {
        let mut name = [b'n'; 32];
        name[31] = 0x80 + index as u8;
        Property::new(L, &name, 26, vec![0; 208])
    })
}

/// 1,021 Materials with 62 links each, all to a File in the last row.
pub fn most_links(_: &mut Rng) -> File {
    let hash: u64 = 0x0123_4567_89AB_CDEF;
    let mut links = vec![Property::string("n", b""), Property::string("t", b"")];
    for number in 0..62 {
        let name = format!("extra{number}");
        links.push(Property::array(L, &name, hash.to_le_bytes().to_vec()));
    }
    let material = Node::with(MATERIAL, links, Vec::new());
    let mut materials = vec![material; MAX_NODES - 3];
    let mut file = Node::with(FILE, vec![Property::string("p", b"")], Vec::new());
    file.hash = hash;
    if let Some(last) = materials.last_mut() {
        last.children.push(file);
    }
    let model = Node::with(MODEL, Vec::new(), materials);
    File::new(0, vec![Node::with(ROOT, Vec::new(), vec![model])])
}

/// 1,021 bones in one Skeleton, each the parent of the next.
pub fn most_bones(_: &mut Rng) -> File {
    let bones = (0..MAX_NODES as u64 - 3).map(|number| {
        let parent = number as i32 - 1;
        let parent = Property::array(I, "p", parent.to_le_bytes().to_vec());
        let mut bone = Node::with(
            BONE,
            vec![Property::string("n", b"bone"), parent],
            Vec::new(),
        );
        bone.hash = number;
        bone
    });
    in_model(Node::with(SKELETON, Vec::new(), bones.collect()))
}

/// 1,024 roots without properties.
pub fn most_bare_nodes(_: &mut Rng) -> File {
    File::new(0, vec![Node::new(ROOT); MAX_NODES])
}

/// 1,022 unknown nodes that fill the file, half of them under a Model.
pub fn most_unknown_nodes(rng: &mut Rng) -> File {
    let count = MAX_NODES - 2;
    let body = MAX_FILE / count - 30;
    let mut notes = (0..count).map(|_| {
        let mut note = Node::new(unknown::kind(rng));
        note.rest = vec![b'-'; body];
        note
    });
    let below: Vec<Node> = notes.by_ref().take(count / 2).collect();
    let mut children = vec![Node::with(MODEL, Vec::new(), below)];
    children.extend(notes);
    File::new(0, vec![Node::with(ROOT, Vec::new(), children)])
}

/// Exactly this long, from 160 bytes to some 40,000, with a node in every few bytes: roots, each with an unknown child.
pub fn many_notes(rng: &mut Rng, length: usize) -> File {
    let mut roots = Vec::new();
    let mut left = length - 16;
    while left > 0 {
        // What is left has room for another pair.
        let size = match left {
            0..200 => left,
            _ => rng.range(60, 100),
        };
        let mut note = Node::new(unknown::kind(rng));
        note.rest = rng.bytes(size - 2 * 24);
        roots.push(Node::with(ROOT, Vec::new(), vec![note]));
        left -= size;
    }
    File::new(rng.next_u32(), roots)
}

/// Exactly 16,777,216 bytes.
pub fn largest_file(rng: &mut Rng) -> File {
    let mut note = Node::new(unknown::kind(rng));
    note.rest = vec![0; MAX_FILE - 16 - 2 * 24];
    File::new(0, vec![Node::with(ROOT, Vec::new(), vec![note])])
}
