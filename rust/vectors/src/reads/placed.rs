//! A node of any known kind, with right properties, in a file that is right around it.

use corpus::expect::links;
use corpus::format::{children, element_size, rules, Holds, Rule, F, KINDS, MESH, NONE, S, V4};
use corpus::tree::{File, Node, Property};
use corpus::worked::WAGON;
use corpus::Rng;

/// Elements of a right array, but of f.
pub const LENGTH: usize = 2;

pub struct Placed {
    pub file: File,
    /// The node's.
    pub row: usize,
}

impl Placed {
    /// Where a property of the node starts.
    pub fn property(&self, index: usize) -> usize {
        self.file.encode().nodes[self.row].properties[index].offset
    }

    /// Where the node's header starts.
    pub fn header(&self) -> usize {
        self.file.encode().nodes[self.row].offset
    }
}

/// A file of these roots, its flags not zero.
pub fn file(roots: Vec<Node>) -> File {
    File::new(0x8765_4321, roots)
}

/// The kinds from a root down to this one.
pub fn path(kind: u32) -> Vec<u32> {
    let parent = KINDS
        .iter()
        .find(|parent| children(parent.0).contains(&kind));
    let mut path = parent.map_or(Vec::new(), |parent| path(parent.0));
    path.push(kind);
    path
}

/// The node in right parents, up to a root.
pub fn rooted(node: Node) -> Node {
    let parents = path(node.kind);
    let (_, parents) = parents.split_last().expect("the kind itself");
    parents.iter().rev().fold(node, |child, &parent| {
        let mut parent = minimal(parent);
        parent.children.push(child);
        parent
    })
}

/// The node in a root, and after it a root for each kind that its links lead to.
pub fn placed(node: Node) -> Placed {
    let mut kinds: Vec<u32> = links(&node).into_iter().map(|link| link.1).collect();
    kinds.sort_unstable();
    kinds.dedup();
    let row = path(node.kind).len() - 1;
    let mut roots = vec![rooted(node)];
    roots.extend(kinds.into_iter().map(|kind| rooted(minimal(kind))));
    Placed {
        file: file(roots),
        row,
    }
}

/// What a minimal node of this kind has as its hash.
pub fn hash_of(kind: u32) -> u64 {
    u64::from(kind) << 32 | u64::from(!kind)
}

/// The required properties alone.
pub fn minimal(kind: u32) -> Node {
    let required = rules(kind).filter(|rule| rule.required);
    let mut node = Node::with(kind, required.map(right).collect(), Vec::new());
    node.hash = hash_of(kind);
    node
}

/// All listed properties, a numbered one once.
pub fn full(kind: u32) -> Node {
    let mut node = minimal(kind);
    node.properties = rules(kind).map(right).collect();
    node
}

/// The minimal node with a property of this line and its partners.
pub fn with_line(rule: &Rule) -> Node {
    let mut node = minimal(rule.kind);
    let names: &[&str] = match (rule.kind, rule.name) {
        (MESH, "wb" | "wv") => &["wb", "wv", "mi"],
        _ => &[rule.name],
    };
    for line in rules(rule.kind) {
        if names.contains(&line.name) && !line.required {
            node.properties.push(right(line));
        }
    }
    node
}

/// The node's properties in a drawn order.
pub fn shuffled(rng: &mut Rng, mut node: Node) -> Node {
    rng.shuffle(&mut node.properties);
    node
}

/// The first name that a line lists.
pub fn name_of(rule: &Rule) -> String {
    let number = if rule.numbered { "0" } else { "" };
    format!("{}{number}", rule.name)
}

/// The index of a line's first name.
pub fn index_of(node: &Node, rule: &Rule) -> usize {
    node.position(&name_of(rule)).expect("the line is there")
}

/// A property that the line takes. A Curve's keys are for rq.
pub fn right(rule: &Rule) -> Property {
    let code = match rule.name {
        "kv" => V4,
        _ => rule.types[0],
    };
    let length = match (rule.array, rule.name) {
        (false, _) => 1,
        (true, "f") => 3,
        (true, _) => LENGTH,
    };
    let mut property = elements(code, &name_of(rule), length);
    match rule.holds {
        Holds::OneOf(strings) => property.set_text(strings[0].as_bytes()),
        Holds::Link(kind) => property.data = hash_of(kind).to_le_bytes().to_vec(),
        Holds::Flag => property.data = vec![1],
        Holds::Any if rule.name == "mi" => property.set_numbers(&[1]),
        Holds::Any => {}
    }
    property
}

/// Elements that are all zero; of a string, a short text.
pub fn elements(code: u16, name: &str, length: usize) -> Property {
    match code {
        S => Property::string(name, b"ab"),
        code => {
            let size = element_size(code).unwrap_or(1);
            Property::new(code, name.as_bytes(), length, vec![0; size * length])
        }
    }
}

/// Numbers of type `b`, `h` or `i`.
pub fn numbers(code: u16, name: &str, numbers: &[u32]) -> Property {
    let mut property = elements(code, name, 0);
    property.set_numbers(numbers);
    property
}

/// Floats, all zero.
pub fn floats(name: &str, length: usize) -> Property {
    elements(F, name, length)
}

/// Puts a property in place of the one of its name, or after the others.
pub fn put(node: &mut Node, property: Property) {
    let found = node
        .properties
        .iter()
        .position(|old| old.name == property.name);
    match found {
        Some(index) => node.properties[index] = property,
        None => node.properties.push(property),
    }
}

/// An unknown node with this body and counts that nothing bears out.
pub fn wagon(body: &[u8]) -> Node {
    let mut node = Node::new(WAGON);
    node.hash = 0x0123_4567_89AB_CDEF;
    node.rest = body.to_vec();
    node.claimed.properties = Some(NONE);
    node.claimed.children = Some(NONE);
    node
}
