//! What a reading of a valid tree must answer, counted from the tree.

use crate::format::{rule_of, Holds, MESH, NONE};
use crate::rows::Row;
use crate::tree::{Encoded, File, Node};

#[derive(Clone, Debug, PartialEq, Eq)]
pub struct Expected {
    pub flags: u32,
    pub own_known: usize,
    pub own_unknown: usize,
    pub faces: usize,
    pub degenerate: usize,
    pub links: usize,
    pub rows: Vec<Row>,
}

/// `encoded` is the encoding of `file`, which must be valid.
pub fn expected(file: &File, encoded: &Encoded) -> Expected {
    let mut answer = Expected {
        flags: file.flags,
        own_known: 0,
        own_unknown: 0,
        faces: 0,
        degenerate: 0,
        links: 0,
        rows: Vec::new(),
    };
    for (node, place) in file.nodes().into_iter().zip(&encoded.nodes) {
        let own = place.body_end - place.offset;
        if node.is_known() {
            answer.own_known += own;
            answer.links += links(node).len();
        } else {
            answer.own_unknown += own;
        }
        if node.kind == MESH {
            let (faces, degenerate) = faces(node);
            answer.faces += faces;
            answer.degenerate += degenerate;
        }
        let claimed = &node.claimed;
        answer.rows.push(Row {
            kind: node.kind,
            hash: node.hash,
            parent: place.parent.map_or(NONE, |row| row as u32),
            start: (place.offset + 24) as u32,
            end: place.body_end as u32,
            properties: claimed.properties.unwrap_or(node.properties.len() as u32),
            children: claimed.children.unwrap_or(node.children.len() as u32),
        });
    }
    answer
}

/// Indexes of the link properties of a node, with the kind they lead to.
pub fn links(node: &Node) -> Vec<(usize, u32)> {
    let mut out = Vec::new();
    for (index, property) in node.properties.iter().enumerate() {
        let rule = rule_of(node.kind, &property.name);
        if let Some(Holds::Link(kind)) = rule.map(|rule| rule.holds) {
            out.push((index, kind));
        }
    }
    out
}

/// Faces of a mesh, and how many of them have two equal indices.
pub fn faces(mesh: &Node) -> (usize, usize) {
    let numbers = mesh
        .property("f")
        .map_or(Vec::new(), |property| property.numbers());
    let faces = numbers.chunks_exact(3);
    let count = faces.len();
    let equal = |face: &&[u32]| face[0] == face[1] || face[1] == face[2] || face[0] == face[2];
    (count, faces.filter(equal).count())
}
