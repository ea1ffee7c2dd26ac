//! The small files of `samples/`: the worked ones, and a few wagons as the intake desk may get them.

use crate::format::{
    element_size, ANIMATION, B, BLEND_SHAPE, BONE, CONSTRAINT, CURVE, CURVE_MODE_OVERRIDE, F, FILE,
    H, I, IK_HANDLE, INSTANCE, L, MATERIAL, MESH, METADATA, MODEL, NONE, NOTIFICATION_TRACK, ROOT,
    SKELETON, V2, V3, V4,
};
use crate::tree::{numbers_data, File, Node, Property};
use crate::worked;

/// The sample that the program lists in its own run.
pub const RUN: &str = "noted_wagon";

const FRAME: u64 = 0x0F1E_2D3C_4B5A_6978;
const BOGIE: u64 = 0x1020_3040_5060_7080;
const DECK: u64 = 0xDEC0_0000_0000_0001;
const PLANKS: u64 = 0xA5A5_0000_1234_5678;
const PICTURE: u64 = 0x8000_0000_0000_0000;
const YARD: u64 = 0x0000_0001_0000_0000;

/// Every sample by name.
pub fn all() -> Vec<(&'static str, Vec<u8>)> {
    let mut samples = worked::all();
    samples.extend([
        ("flat_wagon", flat_wagon().bytes()),
        (RUN, noted_wagon().bytes()),
        ("rolling_wagon", rolling_wagon().bytes()),
        ("lost_material", lost_material().bytes()),
        ("torn_face", torn_face().bytes()),
    ]);
    samples
}

/// A deck of thirteen faces, one of them degenerate, on two bones; a material and its picture.
pub fn flat_wagon() -> File {
    let skeleton = Node::with(SKELETON, Vec::new(), bones());
    let name = vec![text("n", "flat wagon")];
    let model = Node::with(MODEL, name, vec![skeleton, deck(), planks()]);
    File::new(0, vec![Node::with(ROOT, Vec::new(), vec![model])])
}

/// The flat wagon with flags, and private notes of unknown kinds below a node of every kind that it has.
pub fn noted_wagon() -> File {
    let mut file = flat_wagon();
    file.flags = 3_000_000_001;
    let notes = [
        (ROOT, note(*b"wagn", b"weighed 14.2 t")),
        (ROOT, note([10, 0, 0, 0], b"")),
        (MODEL, note(*b"Mesh", &deck().bytes()[..40])),
        (SKELETON, note(*b"enob", &bones()[1].bytes())),
        (BONE, note(*b"note", b"axle load 7 t")),
        (MESH, note([0xFF; 4], &[0xFF; 24])),
        (MATERIAL, note(*b"MATL", &planks().bytes())),
        (FILE, note(*b"wagn", b"from the drawing")),
    ];
    for (kind, note) in notes {
        let row = file.rows_of(kind)[0];
        file.node_mut(row).children.push(note);
    }
    let last = note(*b"tail", b"\0");
    file.roots.push(Node::with(ROOT, Vec::new(), vec![last]));
    file
}

/// A wagon that rolls: handles, curves and notifications, a yard to place it in, and who made it.
pub fn rolling_wagon() -> File {
    let mut skeleton = Node::with(SKELETON, Vec::new(), bones());
    skeleton.children.extend([handle(), constraint()]);
    let worn = vec![
        text("n", "worn"),
        hash("b", DECK),
        numbers(B, "vi", &[0, 7]),
        floats(V3, "vp", &[0.0, 0.0, 0.9, 8.0, 2.5, 1.1]),
        floats(F, "ts", &[1.0]),
    ];
    let worn = Node::with(BLEND_SHAPE, worn, Vec::new());
    let name = vec![text("n", "rolling wagon")];
    let model = Node::with(MODEL, name, vec![skeleton, deck(), worn, planks()]);
    let author = vec![
        text("a", "wagon works"),
        text("s", "lathe"),
        text("up", "z"),
    ];
    let metadata = Node::with(METADATA, author, Vec::new());
    let children = vec![metadata, model, animation(), instance()];
    File::new(1, vec![Node::with(ROOT, Vec::new(), children)])
}

/// The flat wagon, with a mesh whose material no node is: 16 at the link.
pub fn lost_material() -> File {
    let mut file = flat_wagon();
    let row = file.rows_of(MATERIAL)[0];
    file.node_mut(row).hash = PLANKS + 1;
    file
}

/// The flat wagon, with an index one past its vertices in the last face: 15 at the faces.
pub fn torn_face() -> File {
    let mut file = flat_wagon();
    let row = file.rows_of(MESH)[0];
    let mesh = file.node_mut(row);
    let vertices = mesh.length("vp");
    let faces = mesh.position("f").expect("a mesh has faces");
    let mut indices = mesh.properties[faces].numbers();
    *indices.last_mut().expect("a face") = vertices;
    mesh.properties[faces].set_numbers(&indices);
    file
}

fn text(name: &str, text: &str) -> Property {
    Property::string(name, text.as_bytes())
}

fn hash(name: &str, hash: u64) -> Property {
    Property::array(L, name, hash.to_le_bytes().to_vec())
}

/// Elements of `b`, `h` or `i`.
fn numbers(code: u16, name: &str, numbers: &[u32]) -> Property {
    let size = element_size(code).expect("a type of numbers");
    Property::array(code, name, numbers_data(size, numbers))
}

/// Elements of one or more floats.
fn floats(code: u16, name: &str, floats: &[f32]) -> Property {
    let data = floats.iter().flat_map(|float| float.to_le_bytes());
    Property::array(code, name, data.collect())
}

fn hashed(hash: u64, mut node: Node) -> Node {
    node.hash = hash;
    node
}

/// An unknown node with counts that nothing bears out.
fn note(kind: [u8; 4], body: &[u8]) -> Node {
    let mut note = hashed(PLANKS, Node::new(u32::from_le_bytes(kind)));
    note.rest = body.to_vec();
    note.claimed.properties = Some(3);
    note.claimed.children = Some(NONE);
    note
}

fn bones() -> Vec<Node> {
    let frame = vec![
        text("n", "frame"),
        numbers(I, "p", &[NONE]),
        floats(V3, "lp", &[0.0, 0.0, 1.0]),
    ];
    let bogie = vec![
        text("n", "bogie"),
        numbers(I, "p", &[0]),
        numbers(B, "ssc", &[1]),
        floats(V3, "lp", &[1.5, 0.0, -0.5]),
        floats(V4, "lr", &[0.0, 0.0, 0.0, 1.0]),
    ];
    vec![
        hashed(FRAME, Node::with(BONE, frame, Vec::new())),
        hashed(BOGIE, Node::with(BONE, bogie, Vec::new())),
    ]
}

/// A box of eight corners, skinned to one bone a corner.
fn deck() -> Node {
    let corners: Vec<[f32; 3]> = (0..8)
        .map(|corner| {
            let side = |bit: u32, low, high| if corner & bit == 0 { low } else { high };
            [side(1, 0.0, 8.0), side(2, 0.0, 2.5), side(4, 1.0, 1.2)]
        })
        .collect();
    let across: Vec<f32> = corners
        .iter()
        .flat_map(|c| [c[0] / 8.0, c[1] / 2.5])
        .collect();
    let faces = [
        0, 2, 1, 1, 2, 3, 4, 5, 6, 5, 7, 6, 0, 1, 4, 1, 5, 4, //
        2, 6, 3, 3, 6, 7, 0, 4, 2, 2, 4, 6, 1, 3, 5, 3, 7, 5, 7, 7, 0,
    ];
    let properties = vec![
        text("n", "deck"),
        floats(V3, "vp", corners.as_flattened()),
        floats(V3, "vn", &[0.0; 24]),
        floats(V2, "u0", &across),
        numbers(I, "c0", &[0xFF80_8080; 8]),
        numbers(B, "wb", &[0, 0, 0, 0, 1, 1, 1, 1]),
        floats(F, "wv", &[1.0; 8]),
        numbers(B, "mi", &[1]),
        numbers(H, "f", &faces),
        text("sm", "linear"),
        hash("m", PLANKS),
    ];
    hashed(DECK, Node::with(MESH, properties, Vec::new()))
}

fn planks() -> Node {
    let picture = Node::with(FILE, vec![text("p", "planks.dds")], Vec::new());
    let properties = vec![
        text("n", "planks"),
        text("t", "pbr"),
        hash("albedo", PICTURE),
        hash("extra0", PICTURE),
    ];
    let planks = Node::with(MATERIAL, properties, vec![hashed(PICTURE, picture)]);
    hashed(PLANKS, planks)
}

fn handle() -> Node {
    let properties = vec![
        text("n", "coupling"),
        hash("sb", FRAME),
        hash("eb", BOGIE),
        numbers(B, "tr", &[0]),
    ];
    Node::with(IK_HANDLE, properties, Vec::new())
}

fn constraint() -> Node {
    let properties = vec![
        text("ct", "pt"),
        hash("cb", BOGIE),
        hash("tb", FRAME),
        numbers(B, "sz", &[1]),
    ];
    Node::with(CONSTRAINT, properties, Vec::new())
}

fn animation() -> Node {
    let curve = |name, channel, mode, keys, values| {
        let properties = vec![
            text("nn", name),
            text("kp", channel),
            text("m", mode),
            numbers(H, "kb", keys),
            values,
        ];
        Node::with(CURVE, properties, Vec::new())
    };
    let turn = floats(V4, "kv", &[0.0, 0.0, 0.0, 1.0, 0.0, 1.0, 0.0, 0.0]);
    let way = floats(F, "kv", &[0.0, 2.5, 900.25]);
    let shown = numbers(B, "kv", &[1]);
    let relative = vec![
        text("nn", "frame"),
        text("m", "relative"),
        numbers(B, "ot", &[1]),
    ];
    let joints = vec![text("n", "rail joint"), numbers(I, "kb", &[0, 12, 70_000])];
    let children = vec![
        curve("bogie", "rq", "absolute", &[0, 30], turn),
        curve("frame", "tx", "relative", &[0, 30, 900], way),
        curve("deck", "vb", "additive", &[0], shown),
        Node::with(CURVE_MODE_OVERRIDE, relative, Vec::new()),
        Node::with(NOTIFICATION_TRACK, joints, Vec::new()),
    ];
    let properties = vec![
        text("n", "rolling"),
        floats(F, "fr", &[30.0]),
        numbers(B, "lo", &[1]),
    ];
    Node::with(ANIMATION, properties, children)
}

fn instance() -> Node {
    let yard = Node::with(FILE, vec![text("p", "yard.cast")], Vec::new());
    let properties = vec![
        text("n", "siding 3"),
        hash("rf", YARD),
        floats(V3, "p", &[120.0, -4.5, 0.0]),
        floats(V4, "r", &[0.0, 0.0, 0.0, 1.0]),
        floats(V3, "s", &[1.0, 1.0, 1.0]),
    ];
    Node::with(INSTANCE, properties, vec![hashed(YARD, yard)])
}
