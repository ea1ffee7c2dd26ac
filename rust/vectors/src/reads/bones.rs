//! A Bone's p against the Bones of its own Skeleton.

use super::placed::{file, minimal, numbers, wagon};
use super::Reads;
use corpus::format::{BONE, CONSTRAINT, I, IK_HANDLE, MATERIAL, MODEL, ROOT, SKELETON};
use corpus::tree::{File, Node};

pub fn add(reads: &mut Reads) {
    for tree in [plain(&[1]), plain(&[3]), plain(&[2, 0, 5, 1]), mixed()] {
        add_tree(reads, &tree);
    }
    add_drawn(reads);
}

fn in_model(parts: Vec<Node>) -> File {
    let model = Node::with(MODEL, Vec::new(), parts);
    file(vec![Node::with(ROOT, Vec::new(), vec![model])])
}

/// Skeletons of these numbers of Bones.
fn plain(counts: &[usize]) -> File {
    let skeleton = |&count: &usize| Node::with(SKELETON, Vec::new(), vec![minimal(BONE); count]);
    in_model(counts.iter().map(skeleton).collect())
}

/// Skeletons with other nodes between their Bones and inside them, in two Models and two roots.
fn mixed() -> File {
    let mut hidden = minimal(BONE);
    hidden.hash += 1;
    let mut outer = minimal(BONE);
    outer.hash += 2;
    outer.children = vec![wagon(&minimal(BONE).bytes()), wagon(&[])];
    let mut near = Node::new(BONE ^ 1);
    near.rest = vec![0; 24];
    let first = Node::with(
        SKELETON,
        Vec::new(),
        vec![
            wagon(b"bone"),
            hidden.clone(),
            minimal(IK_HANDLE),
            near,
            outer,
            minimal(CONSTRAINT),
            minimal(BONE),
            wagon(&[]),
        ],
    );
    let mut other = minimal(BONE);
    other.hash += 3;
    let second = Node::with(
        SKELETON,
        Vec::new(),
        vec![minimal(IK_HANDLE), other.clone()],
    );
    let third = Node::with(
        SKELETON,
        Vec::new(),
        vec![other.clone(), other.clone(), wagon(&[])],
    );
    let model = Node::with(MODEL, Vec::new(), vec![first, minimal(MATERIAL), second]);
    let last = Node::with(MODEL, Vec::new(), vec![wagon(&[]), third]);
    let root = |children| Node::with(ROOT, Vec::new(), children);
    file(vec![root(vec![model.clone()]), root(vec![last])])
}

/// The rows of Bones, each with how many its Skeleton has.
fn bones(tree: &File) -> Vec<(usize, u32)> {
    let parents = tree.parents();
    let nodes = tree.nodes();
    let siblings = |row: usize| {
        let like = |other: &usize| parents[*other] == parents[row] && nodes[*other].kind == BONE;
        (0..nodes.len()).filter(like).count() as u32
    };
    let rows = tree.rows_of(BONE).into_iter();
    rows.map(|row| (row, siblings(row))).collect()
}

/// The tree with a p on this row, before or after the name.
fn with_parent(tree: &File, row: usize, parent: u32, first: bool) -> File {
    let mut tree = tree.clone();
    let properties = &mut tree.node_mut(row).properties;
    let at = if first { 0 } else { properties.len() };
    properties.insert(at, numbers(I, "p", &[parent]));
    tree
}

fn is_right(parent: u32, bones: u32) -> bool {
    parent == u32::MAX || parent < bones
}

fn place(tree: &File, row: usize) -> usize {
    let index = tree.node(row).position("p").expect("it was put");
    tree.encode().nodes[row].properties[index].offset
}

/// Every Bone with parents about the ends of what is right.
fn add_tree(reads: &mut Reads, tree: &File) {
    reads.cases.sweep("reads bones: tree", 5);
    reads.accepted(tree);
    let most = bones(tree).iter().map(|bone| bone.1).max().unwrap_or(0);
    for (row, bones) in bones(tree) {
        let mut values = vec![u32::MAX, bones - 1, bones, most];
        // Of small trees more.
        if tree.nodes().len() < 10 {
            values.extend([
                0,
                bones + 1,
                0x80,
                0xFF,
                0x100,
                0xFFFF,
                0x1_0000,
                0x0100_0000,
            ]);
            values.extend([0x7FFF_FFFF, 0x8000_0000, 0x8000_0001, 0xFFFF_FFFE]);
        }
        for value in values {
            let first = reads.rng.chance(50);
            let tree = with_parent(tree, row, value, first);
            match is_right(value, bones) {
                true => drop(reads.accepted(&tree)),
                false => reads.refused(&tree.bytes(), 15, place(&tree, row)),
            }
        }
    }
}

/// All Bones with a parent; the first wrong one in file order speaks. Rings are right.
fn add_drawn(reads: &mut Reads) {
    reads.cases.sweep("reads bones: drawn", 2);
    for round in 0..reads.cases.draws(24) {
        let mut tree = match round % 2 {
            0 => plain(&[2, 1, 4]),
            _ => mixed(),
        };
        let mut wrong = None;
        for (row, bones) in bones(&tree) {
            let value = match reads.rng.below(10) {
                0 => bones,
                1 => u32::MAX,
                _ => reads.rng.below(bones as usize) as u32,
            };
            tree = with_parent(&tree, row, value, false);
            if !is_right(value, bones) {
                wrong = wrong.or(Some(row));
            }
        }
        match wrong {
            None => drop(reads.accepted(&tree)),
            Some(row) => reads.refused(&tree.bytes(), 15, place(&tree, row)),
        }
    }
}
