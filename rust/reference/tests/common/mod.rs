//! A tiny builder of files and the assertions that all tests share.
#![allow(dead_code)]

use reference::{read, Reading};

pub const NONE: u32 = 0xFFFF_FFFF;
/// What tables hold before a call.
pub const OLD: u32 = 0xA5A5_A5A5;

pub fn kind(name: &[u8; 4]) -> u32 {
    u32::from_le_bytes(*name)
}

pub const TYPES: [(&str, u16, usize); 10] = [
    ("b", 0x62, 1),
    ("h", 0x68, 2),
    ("i", 0x69, 4),
    ("l", 0x6C, 8),
    ("f", 0x66, 4),
    ("d", 0x64, 8),
    ("s", 0x73, 0),
    ("v2", 0x7632, 8),
    ("v3", 0x7633, 12),
    ("v4", 0x7634, 16),
];

fn type_of(name: &str) -> (u16, usize) {
    let line = TYPES.iter().find(|line| line.0 == name).expect("a type");
    (line.1, line.2)
}

/// A property's bytes, with any numbers.
pub fn raw(type_code: u16, name: &[u8], length: u32, data: &[u8]) -> Vec<u8> {
    let mut bytes = type_code.to_le_bytes().to_vec();
    bytes.extend((name.len() as u16).to_le_bytes());
    bytes.extend(length.to_le_bytes());
    bytes.extend(name);
    bytes.extend(data);
    bytes
}

#[derive(Clone, Debug)]
pub struct Prop {
    pub name: String,
    pub bytes: Vec<u8>,
}

fn prop(type_name: &str, name: &str, length: u32, data: &[u8]) -> Prop {
    Prop {
        name: name.into(),
        bytes: raw(type_of(type_name).0, name.as_bytes(), length, data),
    }
}

/// `length` elements of zero bytes; a string of one `z`.
pub fn zeros(type_name: &str, name: &str, length: u32) -> Prop {
    match type_of(type_name) {
        (0x73, _) => text(name, "z"),
        (_, size) => prop(type_name, name, length, &vec![0; length as usize * size]),
    }
}

pub fn text(name: &str, value: &str) -> Prop {
    let data = [value.as_bytes(), &[0]].concat();
    prop("s", name, 1, &data)
}

/// Integers of type `b`, `h`, `i` or `l`, cut to its width.
pub fn ints(type_name: &str, name: &str, values: &[u64]) -> Prop {
    let (_, size) = type_of(type_name);
    let data: Vec<u8> = values
        .iter()
        .flat_map(|value| value.to_le_bytes()[..size].to_vec())
        .collect();
    prop(type_name, name, values.len() as u32, &data)
}

#[derive(Clone, Debug)]
pub struct Node {
    pub kind: [u8; 4],
    pub hash: u64,
    pub props: Vec<Prop>,
    /// The rest of an unknown node.
    pub rest: Vec<u8>,
    pub children: Vec<Node>,
}

pub fn node(kind: &[u8; 4], hash: u64, props: Vec<Prop>, children: Vec<Node>) -> Node {
    Node {
        kind: *kind,
        hash,
        props,
        rest: Vec::new(),
        children,
    }
}

/// A node of an unknown kind.
pub fn unknown(hash: u64, rest: &[u8]) -> Node {
    let mut node = node(b"wagn", hash, vec![], vec![]);
    node.rest = rest.to_vec();
    node
}

impl Node {
    pub fn bytes(&self) -> Vec<u8> {
        let mut inside: Vec<u8> = Vec::new();
        self.props.iter().for_each(|p| inside.extend(&p.bytes));
        inside.extend(&self.rest);
        self.children.iter().for_each(|c| inside.extend(c.bytes()));
        let mut bytes = self.kind.to_vec();
        bytes.extend((inside.len() as u32 + 24).to_le_bytes());
        bytes.extend(self.hash.to_le_bytes());
        bytes.extend((self.props.len() as u32).to_le_bytes());
        bytes.extend((self.children.len() as u32).to_le_bytes());
        bytes.extend(inside);
        bytes
    }

    /// The first node of a kind, in file order.
    pub fn find(&mut self, kind: &[u8; 4]) -> &mut Node {
        self.search(kind).expect("a node of the kind")
    }

    fn search(&mut self, kind: &[u8; 4]) -> Option<&mut Node> {
        if self.kind == *kind {
            return Some(self);
        }
        self.children.iter_mut().find_map(|c| c.search(kind))
    }

    pub fn prop(&mut self, name: &str) -> &mut Prop {
        let prop = self.props.iter_mut().find(|p| p.name == name);
        prop.expect("a property of the name")
    }
}

pub fn file_with_flags(flags: u32, roots: &[Node]) -> Vec<u8> {
    let mut bytes = b"cast\x01\0\0\0".to_vec();
    bytes.extend((roots.len() as u32).to_le_bytes());
    bytes.extend(flags.to_le_bytes());
    roots.iter().for_each(|root| bytes.extend(root.bytes()));
    bytes
}

pub fn file(roots: &[Node]) -> Vec<u8> {
    file_with_flags(0, roots)
}

pub fn root(children: Vec<Node>) -> Node {
    node(b"root", 0, vec![], children)
}

/// A file of one root with these children.
pub fn rooted(children: Vec<Node>) -> Vec<u8> {
    file(&[root(children)])
}

/// A file of one model with these children.
pub fn modelled(children: Vec<Node>) -> Vec<u8> {
    rooted(vec![node(b"modl", 0, vec![], children)])
}

/// Where the only copy of these bytes stands.
pub fn place(file: &[u8], bytes: &[u8]) -> u32 {
    let mut places = file.windows(bytes.len()).enumerate();
    let (at, _) = places.find(|(_, w)| *w == bytes).expect("the bytes");
    assert!(!places.any(|(_, w)| w == bytes), "more than one copy");
    at as u32
}

pub fn put(file: &mut [u8], at: usize, number: u32) {
    file[at..at + 4].copy_from_slice(&number.to_le_bytes());
}

pub fn table() -> Vec<u32> {
    vec![OLD; 8200]
}

pub fn refusal(number: u32, place: u32) -> Reading {
    Reading {
        number,
        place,
        nodes: 0,
        flags: 0,
        own_known: 0,
        own_unknown: 0,
        faces: 0,
        degenerate: 0,
        links: 0,
    }
}

pub fn assert_cleared(table: &[u32]) {
    assert!(table[..8192].iter().all(|&n| n == 0));
    assert!(table[8192..].iter().all(|&n| n == OLD));
}

pub fn assert_refused(file: &[u8], number: u32, place: u32) {
    let mut table = table();
    assert_eq!(read(file, &mut table), refusal(number, place));
    assert_cleared(&table);
}

/// The reading and the rows of an accepted file.
pub fn accepted(file: &[u8]) -> (Reading, Vec<[u32; 8]>) {
    let mut table = table();
    let reading = read(file, &mut table);
    assert_eq!((reading.number, reading.place), (0, 0));
    let rows = rows_of(&table, reading.nodes as usize);
    assert_eq!(
        16 + reading.own_known as usize + reading.own_unknown as usize,
        file.len()
    );
    (reading, rows)
}

/// A table's rows; the numbers after them must be zero, and those past 8,192 old.
pub fn rows_of(table: &[u32], nodes: usize) -> Vec<[u32; 8]> {
    assert!(table[nodes * 8..8192].iter().all(|&n| n == 0));
    assert!(table[8192..].iter().all(|&n| n == OLD));
    let rows = table.chunks_exact(8).take(nodes);
    rows.map(|row| row.try_into().unwrap()).collect()
}

/// Numbers from a seed.
pub struct Random(pub u64);

impl Random {
    pub fn below(&mut self, limit: usize) -> usize {
        self.0 ^= self.0 << 13;
        self.0 ^= self.0 >> 7;
        self.0 ^= self.0 << 17;
        (self.0 >> 11) as usize % limit
    }
}

/// A file with every known kind and every listed name.
pub fn everything() -> Node {
    let bones = vec![
        node(
            b"bone",
            1,
            vec![
                text("n", "hip"),
                ints("i", "p", &[u64::MAX]),
                ints("b", "ssc", &[1]),
                zeros("v3", "lp", 1),
                zeros("v3", "wp", 1),
                zeros("v3", "s", 1),
                zeros("v4", "lr", 1),
                zeros("v4", "wr", 1),
            ],
            vec![],
        ),
        node(
            b"ikhd",
            0,
            vec![
                text("n", "leg"),
                ints("l", "sb", &[1]),
                ints("l", "eb", &[1]),
                ints("l", "tb", &[1]),
                ints("l", "pv", &[1]),
                ints("l", "pb", &[1]),
                ints("b", "tr", &[0]),
            ],
            vec![],
        ),
        node(
            b"cnst",
            0,
            vec![
                text("n", "tie"),
                text("ct", "or"),
                ints("l", "cb", &[1]),
                ints("l", "tb", &[1]),
                ints("b", "mo", &[1]),
                ints("b", "sx", &[0]),
                ints("b", "sy", &[1]),
                ints("b", "sz", &[0]),
            ],
            vec![],
        ),
    ];
    let mesh = node(
        b"mesh",
        3,
        vec![
            text("n", "wheel"),
            zeros("v3", "vp", 3),
            zeros("v3", "vn", 3),
            zeros("v3", "vt", 3),
            zeros("i", "c0", 3),
            zeros("v2", "u10", 3),
            ints("b", "wb", &[0; 6]),
            zeros("f", "wv", 6),
            ints("b", "f", &[0, 1, 2, 2, 1, 1]),
            ints("b", "cl", &[1]),
            ints("b", "ul", &[1]),
            ints("b", "mi", &[2]),
            text("sm", "quaternion"),
            ints("l", "m", &[4]),
        ],
        vec![],
    );
    let shape = node(
        b"blsh",
        0,
        vec![
            text("n", "flat"),
            ints("l", "b", &[3]),
            ints("b", "vi", &[0, 200]),
            zeros("v3", "vp", 2),
            zeros("f", "ts", 3),
        ],
        vec![],
    );
    let mut hashes = vec![text("n", "paint"), text("t", "pbr")];
    for name in [
        "albedo",
        "diffuse",
        "normal",
        "specular",
        "emissive",
        "gloss",
        "roughness",
        "ao",
        "cavity",
        "aniso",
        "extra999",
    ] {
        hashes.push(ints("l", name, &[5]));
    }
    let image = node(b"file", 5, vec![text("p", "a.png")], vec![]);
    let material = node(b"matl", 4, hashes, vec![image]);
    let skeleton = node(b"skel", 0, vec![], bones);
    let model = node(
        b"modl",
        0,
        vec![text("n", "wagon")],
        vec![skeleton, mesh, shape, material],
    );
    let curves = vec![
        node(
            b"curv",
            0,
            vec![
                text("nn", "hip"),
                text("kp", "vb"),
                ints("b", "kb", &[0, 7]),
                ints("b", "kv", &[1, 0]),
                text("m", "absolute"),
                zeros("f", "ab", 1),
            ],
            vec![],
        ),
        node(
            b"CMOV",
            0,
            vec![
                text("nn", "hip"),
                text("m", "relative"),
                ints("b", "ot", &[0]),
                ints("b", "or", &[1]),
                ints("b", "os", &[1]),
            ],
            vec![],
        ),
        node(
            b"ntif",
            0,
            vec![text("n", "step"), ints("b", "kb", &[3])],
            vec![],
        ),
    ];
    let animation = node(
        b"anim",
        0,
        vec![
            text("n", "roll"),
            zeros("f", "fr", 1),
            ints("b", "lo", &[1]),
        ],
        curves,
    );
    let instance = node(
        b"inst",
        0,
        vec![
            text("n", "yard"),
            ints("l", "rf", &[6]),
            zeros("v3", "p", 1),
            zeros("v4", "r", 1),
            zeros("v3", "s", 1),
        ],
        vec![node(b"file", 6, vec![text("p", "b.cast")], vec![])],
    );
    let metadata = node(
        b"meta",
        0,
        vec![text("a", "me"), text("s", "it"), text("up", "y")],
        vec![],
    );
    root(vec![model, animation, instance, metadata])
}
