//! Files that every rule accepts.

pub mod names;
pub mod properties;
mod shape;
pub mod unknown;

use crate::format::{
    BLEND_SHAPE, BONE, CONSTRAINT, FILE, IK_HANDLE, INSTANCE, MATERIAL, MAX_FILE, MESH, SKELETON,
};
use crate::rng::Rng;
use crate::tree::{File, Node};
use properties::{Context, Targets};

/// The kinds that links lead to.
pub const LINKED: [u32; 4] = [MATERIAL, MESH, BONE, FILE];

/// Kinds with a required link, and where it leads.
pub const NEEDS: [(u32, u32); 4] = [
    (BLEND_SHAPE, MESH),
    (IK_HANDLE, BONE),
    (CONSTRAINT, BONE),
    (INSTANCE, FILE),
];

/// Typical sizes of the generated files.
#[derive(Clone, Copy, Debug)]
pub struct Profile {
    /// Most nodes; fewer are drawn unless `exact_nodes`.
    pub nodes: usize,
    pub exact_nodes: bool,
    pub roots: usize,
    pub vertices: usize,
    pub faces: usize,
    /// Most elements of an array that no other length fixes.
    pub elements: usize,
    pub string: usize,
    /// Most free names on one node.
    pub free: usize,
    /// Most bytes in the body of an unknown node.
    pub body: usize,
    /// Chances in percent.
    pub unknown: usize,
    pub optional: usize,
    pub full_node: usize,
    /// Longer draws are thrown away.
    pub bytes: usize,
}

impl Profile {
    /// Under 400 bytes.
    pub const TINY: Profile = Profile {
        nodes: 7,
        exact_nodes: false,
        roots: 2,
        vertices: 3,
        faces: 2,
        elements: 2,
        string: 3,
        free: 1,
        body: 12,
        unknown: 20,
        optional: 15,
        full_node: 0,
        bytes: 399,
    };

    /// A few kilobytes.
    pub const SMALL: Profile = Profile {
        nodes: 30,
        exact_nodes: false,
        roots: 3,
        vertices: 9,
        faces: 8,
        elements: 6,
        string: 12,
        free: 3,
        body: 60,
        unknown: 15,
        optional: 40,
        full_node: 1,
        bytes: 40_000,
    };

    /// About a hundred kilobytes.
    pub const MEDIUM: Profile = Profile {
        nodes: 220,
        exact_nodes: false,
        roots: 4,
        vertices: 400,
        faces: 500,
        elements: 60,
        string: 60,
        free: 4,
        body: 1_500,
        unknown: 10,
        optional: 50,
        full_node: 2,
        bytes: 2_000_000,
    };

    /// Exactly 1,024 nodes.
    pub const MOST_NODES: Profile = Profile {
        nodes: 1_024,
        exact_nodes: true,
        roots: 5,
        vertices: 4,
        faces: 3,
        elements: 2,
        string: 4,
        free: 1,
        body: 8,
        unknown: 15,
        optional: 20,
        full_node: 0,
        bytes: MAX_FILE,
    };
}

/// A valid file within the profile.
pub fn file(rng: &mut Rng, profile: &Profile) -> File {
    loop {
        let file = draw(rng, profile);
        if file.bytes().len() <= profile.bytes {
            return file;
        }
    }
}

/// Mostly tiny and small files; now and then a medium or a full one.
pub fn mixed(rng: &mut Rng) -> File {
    let profile = match rng.below(400) {
        0 => Profile::MOST_NODES,
        1 | 2 => Profile::MEDIUM,
        3..=250 => Profile::TINY,
        _ => Profile::SMALL,
    };
    file(rng, &profile)
}

fn draw(rng: &mut Rng, profile: &Profile) -> File {
    let mut roots = shape::roots(rng, profile);
    let targets = Targets::of(&roots);
    for root in &mut roots {
        let context = Context {
            profile,
            targets: &targets,
            bones: 0,
        };
        fill(rng, &context, root);
    }
    let flags = match rng.below(4) {
        0 => 0,
        1 => rng.next_u32(),
        _ => rng.edge_u32(),
    };
    File::new(flags, roots)
}

/// Gives a node and those below it their properties and bodies.
fn fill(rng: &mut Rng, context: &Context, node: &mut Node) {
    if !node.is_known() {
        unknown::fill(rng, context.profile, context.targets, node);
        return;
    }
    node.properties = properties::properties(rng, context, node.kind);
    let bones = if node.kind == SKELETON {
        let bones = node.children.iter().filter(|child| child.kind == BONE);
        bones.count()
    } else {
        0
    };
    let context = Context { bones, ..*context };
    for child in &mut node.children {
        fill(rng, &context, child);
    }
}
