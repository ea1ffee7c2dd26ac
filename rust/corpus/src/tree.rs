//! A file in memory, and its bytes.
//!
//! Counts and sizes follow from the tree unless a field claims others, so a
//! fault can be put in while everything else stays consistent.

use crate::format::{element_size, is_known, S};

#[derive(Clone, Debug, PartialEq, Eq)]
pub struct File {
    pub magic: [u8; 4],
    pub version: u32,
    pub flags: u32,
    pub roots: Vec<Node>,
    /// Stored in place of the true root count.
    pub root_count: Option<u32>,
    /// Bytes after the last root; a valid file has none.
    pub rest: Vec<u8>,
}

#[derive(Clone, Debug, Default, PartialEq, Eq)]
pub struct Node {
    pub kind: u32,
    pub hash: u64,
    pub properties: Vec<Property>,
    pub children: Vec<Node>,
    /// Bytes after the children: the body of an unknown node, none in a known
    /// node of a valid file.
    pub rest: Vec<u8>,
    pub claimed: Claimed,
}

/// Header numbers stored in place of the true ones.
#[derive(Clone, Debug, Default, PartialEq, Eq)]
pub struct Claimed {
    pub size: Option<u32>,
    pub properties: Option<u32>,
    pub children: Option<u32>,
}

#[derive(Clone, Debug, PartialEq, Eq)]
pub struct Property {
    pub code: u16,
    pub name: Vec<u8>,
    /// Stored in place of the true name size.
    pub name_size: Option<u16>,
    pub length: u32,
    pub data: Vec<u8>,
}

/// The bytes of a file and where its parts lie in them.
#[derive(Clone, Debug, Default)]
pub struct Encoded {
    pub bytes: Vec<u8>,
    /// One per node, in the order of their headers.
    pub nodes: Vec<NodePlace>,
}

#[derive(Clone, Debug)]
pub struct NodePlace {
    pub offset: usize,
    /// End of the properties; for an unknown node the end of its body.
    pub body_end: usize,
    /// Where the bytes after the last child start.
    pub rest: usize,
    pub end: usize,
    pub parent: Option<usize>,
    /// A root has depth 1.
    pub depth: usize,
    pub properties: Vec<PropertyPlace>,
}

#[derive(Clone, Copy, Debug)]
pub struct PropertyPlace {
    pub offset: usize,
    pub data: usize,
    pub end: usize,
}

impl Default for File {
    fn default() -> Self {
        File {
            magic: *b"cast",
            version: 1,
            flags: 0,
            roots: Vec::new(),
            root_count: None,
            rest: Vec::new(),
        }
    }
}

impl File {
    pub fn new(flags: u32, roots: Vec<Node>) -> Self {
        File {
            flags,
            roots,
            ..File::default()
        }
    }

    /// The nodes in the order of their headers.
    pub fn nodes(&self) -> Vec<&Node> {
        fn gather<'a>(nodes: &'a [Node], out: &mut Vec<&'a Node>) {
            for node in nodes {
                out.push(node);
                gather(&node.children, out);
            }
        }
        let mut out = Vec::new();
        gather(&self.roots, &mut out);
        out
    }

    pub fn node(&self, row: usize) -> &Node {
        self.nodes()[row]
    }

    pub fn node_mut(&mut self, row: usize) -> &mut Node {
        fn find<'a>(nodes: &'a mut [Node], left: &mut usize) -> Option<&'a mut Node> {
            for node in nodes {
                if *left == 0 {
                    return Some(node);
                }
                *left -= 1;
                if let Some(found) = find(&mut node.children, left) {
                    return Some(found);
                }
            }
            None
        }
        let mut left = row;
        find(&mut self.roots, &mut left).expect("a row of the tree")
    }

    /// The parent row of each row.
    pub fn parents(&self) -> Vec<Option<usize>> {
        fn gather(nodes: &[Node], parent: Option<usize>, out: &mut Vec<Option<usize>>) {
            for node in nodes {
                let row = out.len();
                out.push(parent);
                gather(&node.children, Some(row), out);
            }
        }
        let mut out = Vec::new();
        gather(&self.roots, None, &mut out);
        out
    }

    /// The roots, or the children of a row.
    pub fn siblings_mut(&mut self, parent: Option<usize>) -> &mut Vec<Node> {
        match parent {
            None => &mut self.roots,
            Some(row) => &mut self.node_mut(row).children,
        }
    }

    /// Rows of which `test` holds.
    pub fn rows(&self, mut test: impl FnMut(&Node) -> bool) -> Vec<usize> {
        let nodes = self.nodes();
        (0..nodes.len()).filter(|row| test(nodes[*row])).collect()
    }

    pub fn rows_of(&self, kind: u32) -> Vec<usize> {
        self.rows(|node| node.kind == kind)
    }

    /// The file without the nodes of these rows and what lies below them.
    pub fn without(&self, removed: &[usize]) -> File {
        fn keep(nodes: &[Node], row: &mut usize, removed: &[usize]) -> Vec<Node> {
            let mut out = Vec::new();
            for node in nodes {
                let stays = !removed.contains(row);
                *row += 1;
                let children = keep(&node.children, row, removed);
                if stays {
                    let node = Node {
                        children,
                        ..node.clone()
                    };
                    out.push(node);
                }
            }
            out
        }
        File {
            roots: keep(&self.roots, &mut 0, removed),
            ..self.clone()
        }
    }

    pub fn encode(&self) -> Encoded {
        let mut out = Encoded::default();
        let root_count = self.root_count.unwrap_or(self.roots.len() as u32);
        out.bytes.extend_from_slice(&self.magic);
        out.bytes.extend_from_slice(&self.version.to_le_bytes());
        out.bytes.extend_from_slice(&root_count.to_le_bytes());
        out.bytes.extend_from_slice(&self.flags.to_le_bytes());
        for root in &self.roots {
            root.encode(None, 1, &mut out);
        }
        out.bytes.extend_from_slice(&self.rest);
        out
    }

    pub fn bytes(&self) -> Vec<u8> {
        self.encode().bytes
    }
}

impl Node {
    pub fn new(kind: u32) -> Self {
        Node {
            kind,
            ..Node::default()
        }
    }

    pub fn with(kind: u32, properties: Vec<Property>, children: Vec<Node>) -> Self {
        Node {
            kind,
            properties,
            children,
            ..Node::default()
        }
    }

    pub fn is_known(&self) -> bool {
        is_known(self.kind)
    }

    /// Index of the property of this name.
    pub fn position(&self, name: &str) -> Option<usize> {
        self.properties
            .iter()
            .position(|property| property.name == name.as_bytes())
    }

    pub fn property(&self, name: &str) -> Option<&Property> {
        self.position(name).map(|index| &self.properties[index])
    }

    /// Array length of the property of this name, 0 without it.
    pub fn length(&self, name: &str) -> u32 {
        self.property(name).map_or(0, |property| property.length)
    }

    pub fn bytes(&self) -> Vec<u8> {
        let mut out = Encoded::default();
        self.encode(None, 1, &mut out);
        out.bytes
    }

    fn encode(&self, parent: Option<usize>, depth: usize, out: &mut Encoded) {
        let row = out.nodes.len();
        let offset = out.bytes.len();
        let properties = self.claimed.properties;
        let children = self.claimed.children;
        let properties = properties.unwrap_or(self.properties.len() as u32);
        let children = children.unwrap_or(self.children.len() as u32);
        out.bytes.extend_from_slice(&self.kind.to_le_bytes());
        out.bytes.extend_from_slice(&[0; 4]);
        out.bytes.extend_from_slice(&self.hash.to_le_bytes());
        out.bytes.extend_from_slice(&properties.to_le_bytes());
        out.bytes.extend_from_slice(&children.to_le_bytes());
        let properties = self.properties.iter();
        let properties = properties.map(|property| property.encode(&mut out.bytes));
        let properties = properties.collect();
        out.nodes.push(NodePlace {
            offset,
            body_end: 0,
            rest: 0,
            end: 0,
            parent,
            depth,
            properties,
        });
        let properties_end = out.bytes.len();
        for child in &self.children {
            child.encode(Some(row), depth + 1, out);
        }
        let rest = out.bytes.len();
        out.bytes.extend_from_slice(&self.rest);
        let end = out.bytes.len();
        let size = self.claimed.size.unwrap_or((end - offset) as u32);
        out.bytes[offset + 4..offset + 8].copy_from_slice(&size.to_le_bytes());
        let place = &mut out.nodes[row];
        place.body_end = if self.is_known() { properties_end } else { end };
        place.rest = rest;
        place.end = end;
    }
}

impl Property {
    pub fn new(code: u16, name: &[u8], length: usize, data: Vec<u8>) -> Self {
        Property {
            code,
            name: name.to_vec(),
            name_size: None,
            length: length as u32,
            data,
        }
    }

    /// A string property; the zero byte is added.
    pub fn string(name: &str, text: &[u8]) -> Self {
        Property::new(S, name.as_bytes(), 1, with_zero(text))
    }

    /// Elements of fixed size, as many as `data` holds.
    pub fn array(code: u16, name: &str, data: Vec<u8>) -> Self {
        let size = element_size(code).expect("a code with an element size");
        Property::new(code, name.as_bytes(), data.len() / size, data)
    }

    /// Gives the property the text and its zero byte.
    pub fn set_text(&mut self, text: &[u8]) {
        self.data = with_zero(text);
    }

    /// The string without its zero byte.
    pub fn text(&self) -> &[u8] {
        self.data.strip_suffix(&[0]).unwrap_or(&self.data)
    }

    /// Elements of `b`, `h` and `i`, unsigned.
    pub fn numbers(&self) -> Vec<u32> {
        let size = element_size(self.code).unwrap_or(1);
        let elements = self.data.chunks_exact(size);
        elements
            .map(|element| {
                let low = element.iter().take(4).rev();
                low.fold(0, |number, byte| number << 8 | u32::from(*byte))
            })
            .collect()
    }

    /// Replaces the elements of a `b`, `h` or `i` property.
    pub fn set_numbers(&mut self, numbers: &[u32]) {
        let size = element_size(self.code).unwrap_or(1);
        self.length = numbers.len() as u32;
        self.data = numbers_data(size, numbers);
    }

    /// The hash that an `l` property holds.
    pub fn hash(&self) -> u64 {
        let bytes = self.data.get(..8).and_then(|data| data.try_into().ok());
        bytes.map_or(0, u64::from_le_bytes)
    }

    fn encode(&self, out: &mut Vec<u8>) -> PropertyPlace {
        let offset = out.len();
        let name_size = self.name_size.unwrap_or(self.name.len() as u16);
        out.extend_from_slice(&self.code.to_le_bytes());
        out.extend_from_slice(&name_size.to_le_bytes());
        out.extend_from_slice(&self.length.to_le_bytes());
        out.extend_from_slice(&self.name);
        let data = out.len();
        out.extend_from_slice(&self.data);
        let end = out.len();
        PropertyPlace { offset, data, end }
    }
}

fn with_zero(text: &[u8]) -> Vec<u8> {
    let mut data = text.to_vec();
    data.push(0);
    data
}

/// Little-endian elements of 1, 2 or 4 bytes.
pub fn numbers_data(size: usize, numbers: &[u32]) -> Vec<u8> {
    let bytes = numbers.iter().map(|number| number.to_le_bytes());
    bytes
        .flat_map(|bytes| bytes.into_iter().take(size))
        .collect()
}
