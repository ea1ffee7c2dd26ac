//! Files that a reader may be slow on, drawn.

use super::{faces, hashes, names, scenes};
use crate::format::{
    ANIMATION, BONE, FILE, I, INSTANCE, MATERIAL, METADATA, MODEL, NOTIFICATION_TRACK, ROOT,
    SKELETON,
};
use crate::rng::Rng;
use crate::tree::{File, Node, Property};
use crate::valid::{self, Profile};
use crate::worked::WAGON;
use crate::{mutate, worked};

/// A file, and in words how it was made.
#[derive(Clone, Debug)]
pub struct Drawn {
    pub about: String,
    pub bytes: Vec<u8>,
}

/// A family of files.
pub type Family = (&'static str, fn(&mut Rng) -> Drawn);

pub const FAMILIES: [Family; 11] = [
    ("names", names::drawn),
    ("names near listed ones", names::near_listed),
    ("hashes", hashes::drawn),
    ("faces", faces::drawn),
    ("chains", chains),
    ("small nodes", small_nodes),
    ("strings", strings),
    ("unknown nodes", unknown),
    ("curves", curves),
    ("valid", valid_file),
    ("damaged", damaged),
];

fn family_of(number: u64) -> Family {
    FAMILIES[(number % FAMILIES.len() as u64) as usize]
}

/// The name of the family that a number's file is of.
pub fn family(number: u64) -> &'static str {
    family_of(number).0
}

/// The file that a number gives, after its family.
pub fn of(number: u64) -> (&'static str, Drawn) {
    let (family, draw) = family_of(number);
    (family, draw(&mut Rng::new(number)))
}

/// Kinds that may stand below each other.
const PATHS: [&[u32]; 5] = [
    &[ROOT, MODEL, SKELETON, BONE, WAGON],
    &[ROOT, MODEL, MATERIAL, FILE, WAGON],
    &[ROOT, INSTANCE, FILE, WAGON],
    &[ROOT, ANIMATION, NOTIFICATION_TRACK, WAGON],
    &[ROOT, MODEL, SKELETON, WAGON],
];

/// Nodes as deep below each other as they may stand, many times.
fn chains(rng: &mut Rng) -> Drawn {
    let path = *rng.pick(&PATHS);
    let path = &path[..rng.range(1, path.len())];
    let bare = path
        .iter()
        .all(|kind| [ROOT, MODEL, SKELETON, WAGON].contains(kind));
    let count = *rng.pick(&[1, 5, 50, 200]);
    let mut node: Option<Node> = None;
    for &kind in path.iter().rev() {
        node = Some(Node::with(kind, Vec::new(), node.into_iter().collect()));
    }
    let bytes = File::new(0, vec![node.unwrap_or_default(); count]).bytes();
    let refused = if bare { "" } else { ", refused with 14" };
    Drawn {
        about: format!(
            "{count} chains of {} nodes, the last of kind {:08X}{refused}",
            path.len(),
            path[path.len() - 1]
        ),
        bytes,
    }
}

/// Nodes of few bytes, up to one more than a file may have.
fn small_nodes(rng: &mut Rng) -> Drawn {
    let count = *rng.pick(&[1, 2, 16, 128, 1_000, 1_022, 1_023]);
    let kinds = [ROOT, MODEL, SKELETON, METADATA, WAGON, BONE];
    let kind = *rng.pick(&kinds);
    let mut node = Node::new(kind);
    if kind == BONE {
        node.properties.push(Property::string("n", b""));
        if rng.chance(50) {
            let parent = Property::array(I, "p", 0u32.to_le_bytes().to_vec());
            node.properties.push(parent);
        }
    }
    let mut list = vec![node; count];
    let cut = rng.chance(20);
    if cut {
        list[count - 1].claimed.children = Some(1);
    }
    let file = match kind {
        ROOT => File::new(0, list),
        BONE => scenes::skeleton(list),
        SKELETON => {
            let model = Node::with(MODEL, Vec::new(), list);
            File::new(0, vec![Node::with(ROOT, Vec::new(), vec![model])])
        }
        _ => File::new(0, vec![Node::with(ROOT, Vec::new(), list)]),
    };
    Drawn {
        about: format!("{count} nodes of kind {kind:08X}, a child missing in the last: {cut}"),
        bytes: file.bytes(),
    }
}

/// Strings of one length, of which the last may have no zero.
fn strings(rng: &mut Rng) -> Drawn {
    let nodes = *rng.pick(&[1, 2, 20, 500]);
    let count = *rng.pick(&[1, 2, 16, 64]);
    let most = 2_000_000 / (nodes * count);
    let length = *rng
        .pick(&[0, 1, 7, 31, 63, 64, 65, 127, 1_000, 100_000])
        .min(&most);
    let open = rng.chance(30);
    let names = (0..count).map(|number| format!("text{number}"));
    let list: Vec<Property> = names
        .map(|name| Property::string(&name, &vec![b'x'; length]))
        .collect();
    let mut list = vec![Node::with(MODEL, list, Vec::new()); nodes];
    if let (Some(node), true) = (list.last_mut(), open) {
        node.properties[count - 1].data.pop();
    }
    Drawn {
        about: format!(
            "{nodes} nodes of {count} strings of {length} bytes, the last without a zero: {open}"
        ),
        bytes: File::new(0, vec![Node::with(ROOT, Vec::new(), list)]).bytes(),
    }
}

/// Unknown nodes in a root.
fn unknown(rng: &mut Rng) -> Drawn {
    let nodes = *rng.pick(&[2, 3, 10, 100, 1_024]);
    let body = *rng.pick(&[0, 1, 8, 24, 100, 1_000]);
    Drawn {
        about: format!("{} unknown nodes of {body} bytes each", nodes - 1),
        bytes: scenes::unknown(nodes, body).bytes(),
    }
}

fn curves(rng: &mut Rng) -> Drawn {
    let nodes = *rng.pick(&[3, 10, 100, 1_024]);
    let keys = *rng.pick(&[0, 1, 4, 20, 200]);
    Drawn {
        about: format!("{} curves of {keys} keys", nodes - 2),
        bytes: scenes::curves(nodes, keys).bytes(),
    }
}

fn profile(rng: &mut Rng) -> (&'static str, Profile) {
    let profiles = [
        ("tiny", Profile::TINY),
        ("small", Profile::SMALL),
        ("medium", Profile::MEDIUM),
        ("of 1,024 nodes", Profile::MOST_NODES),
    ];
    *rng.pick(&profiles)
}

fn valid_file(rng: &mut Rng) -> Drawn {
    let (name, profile) = profile(rng);
    Drawn {
        about: format!("a valid file, {name}"),
        bytes: valid::file(rng, &profile).bytes(),
    }
}

fn damaged(rng: &mut Rng) -> Drawn {
    let (name, profile) = profile(rng);
    let file = match rng.below(8) {
        0 => worked::e11(),
        _ => valid::file(rng, &profile),
    };
    let (damage, mutant) = mutate::any(rng, &file);
    Drawn {
        about: format!("a file, {name}, damaged: {}", damage.name()),
        bytes: mutant.bytes,
    }
}
