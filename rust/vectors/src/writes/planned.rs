//! A right plan with something of every sort.

use corpus::format::{B, INSTANCE, MESH, METADATA, MODEL, NONE, ROOT, S};
use corpus::rows::{mend_children, Row};
use corpus::tree::{Node, Property};
use corpus::worked::WAGON;

pub struct Planned {
    pub rows: Vec<Row>,
    pub source: Vec<u8>,
}

impl Planned {
    pub fn empty() -> Planned {
        Planned {
            rows: Vec::new(),
            source: Vec::new(),
        }
    }

    /// A row after the others, its body after theirs.
    pub fn push(&mut self, kind: u32, parent: u32, properties: u32, body: &[u8]) {
        let mut row = Row::new(kind, parent);
        row.hash = 0x0123_4567_89AB_CDEF ^ self.rows.len() as u64;
        row.start = self.source.len() as u32;
        self.source.extend_from_slice(body);
        row.end = self.source.len() as u32;
        row.properties = properties;
        self.rows.push(row);
    }

    /// A row with these properties.
    pub fn push_known(&mut self, kind: u32, parent: u32, properties: Vec<Property>) {
        let count = properties.len() as u32;
        self.push(kind, parent, count, &body(properties));
    }
}

/// The bytes of properties.
pub fn body(properties: Vec<Property>) -> Vec<u8> {
    let mut bytes = Node::with(ROOT, properties, Vec::new()).bytes();
    bytes.split_off(24)
}

/// Nine rows in two roots. The first, the middle and the last are known, and a byte stands before and after all bodies.
pub fn base() -> Planned {
    let bytes = |name: &[u8], data: &[u8]| Property::new(B, name, data.len(), data.to_vec());
    let name = Property::new(S, b"n", 1, b"ab\0".to_vec());
    let mut plan = Planned::empty();
    plan.source.push(0xEE);
    plan.push_known(ROOT, NONE, vec![bytes(b"x", &[7])]);
    plan.push_known(MODEL, 0, vec![name.clone(), bytes(b"y", &[1, 2])]);
    plan.push_known(MESH, 1, Vec::new());
    plan.push(WAGON, 1, NONE, b"abc");
    plan.push_known(METADATA, 0, vec![name]);
    plan.push(WAGON, 4, 5, b"");
    plan.push_known(INSTANCE, 0, vec![bytes(b"q", &[])]);
    plan.push_known(ROOT, NONE, Vec::new());
    plan.push_known(METADATA, 7, vec![bytes(b"z", &[9])]);
    plan.source.push(0xEE);
    mend_children(&mut plan.rows);
    plan.rows[3].children = 0x8000_0000;
    plan.rows[5].children = 6;
    plan
}
