//! The properties of a valid known node.

use super::{names, Profile, LINKED};
use crate::format::{
    curve_types, element_size, rules, Holds, Rule, B, BLEND_SHAPE, BONE, CURVE, H, I,
    MAX_PROPERTIES, MESH, S, TYPES,
};
use crate::rng::Rng;
use crate::tree::{numbers_data, Node, Property};

/// Hashes that exactly one node of a kind has.
#[derive(Clone, Debug, Default)]
pub struct Targets {
    hashes: Vec<(u32, Vec<u64>)>,
}

impl Targets {
    pub fn of(roots: &[Node]) -> Self {
        fn gather(nodes: &[Node], kind: u32, out: &mut Vec<u64>) {
            for node in nodes {
                if node.kind == kind {
                    out.push(node.hash);
                }
                gather(&node.children, kind, out);
            }
        }
        let reachable = LINKED.iter().map(|kind| {
            let mut all = Vec::new();
            gather(roots, *kind, &mut all);
            all.sort_unstable();
            let groups = all.chunk_by(|left, right| left == right);
            let single = groups.filter(|group| group.len() == 1);
            (*kind, single.map(|group| group[0]).collect())
        });
        Targets {
            hashes: reachable.collect(),
        }
    }

    /// The reachable hashes of a kind.
    pub fn of_kind(&self, kind: u32) -> &[u64] {
        let found = self.hashes.iter().find(|entry| entry.0 == kind);
        found.map_or(&[], |entry| entry.1.as_slice())
    }

    /// A reachable hash of some kind.
    pub fn any(&self, rng: &mut Rng) -> Option<u64> {
        let entry = rng.pick_any(&self.hashes)?;
        rng.pick_any(&entry.1).copied()
    }
}

/// What the properties of a node depend on beside its kind.
#[derive(Clone, Copy, Debug)]
pub struct Context<'a> {
    pub profile: &'a Profile,
    pub targets: &'a Targets,
    /// Bone children of the Skeleton that the node stands in.
    pub bones: usize,
}

/// All properties of a node of a known kind.
pub fn properties(rng: &mut Rng, context: &Context, kind: u32) -> Vec<Property> {
    let mut properties = match kind {
        MESH => mesh(rng, context),
        BLEND_SHAPE => paired(rng, context, kind, "vi", "vp"),
        CURVE => paired(rng, context, kind, "kb", "kv"),
        _ => plain(rng, context, kind),
    };
    let room = MAX_PROPERTIES - properties.len();
    let free = match rng.chance(context.profile.full_node) {
        true => room,
        false => rng.skewed(context.profile.free).min(room),
    };
    for _ in 0..free {
        let property = free_property(rng, context.profile, kind, &properties);
        properties.push(property);
    }
    if rng.chance(80) {
        rng.shuffle(&mut properties);
    }
    properties
}

/// A property with a name that the kind does not list.
pub fn free_property(rng: &mut Rng, profile: &Profile, kind: u32, taken: &[Property]) -> Property {
    let name = names::free(rng, kind, taken);
    let code = *rng.pick(&TYPES);
    let length = match code {
        S => 1,
        _ => rng.skewed(profile.elements),
    };
    Property::new(code, &name, length, data(rng, profile, code, length))
}

/// Elements of a type, or a string with its zero byte.
pub fn data(rng: &mut Rng, profile: &Profile, code: u16, length: usize) -> Vec<u8> {
    match element_size(code) {
        Some(size) if rng.chance(80) => rng.bytes(size * length),
        Some(size) => vec![0; size * length],
        None => text(rng, profile.string),
    }
}

/// A string of any content, with its zero byte.
pub fn text(rng: &mut Rng, longest: usize) -> Vec<u8> {
    let size = rng.skewed(longest);
    let mut text = match rng.chance(50) {
        true => (0..size).map(|_| rng.range(0x20, 0x7E) as u8).collect(),
        false => rng.bytes(size),
    };
    text.iter_mut().for_each(|byte| *byte = (*byte).max(1));
    text.push(0);
    text
}

/// Whether the rule's property is put on a node.
fn present(rng: &mut Rng, context: &Context, rule: &Rule) -> bool {
    let reachable = match rule.holds {
        Holds::Link(kind) => !context.targets.of_kind(kind).is_empty(),
        _ => true,
    };
    rule.required || (reachable && rng.chance(context.profile.optional))
}

/// A property that keeps the rule by itself.
pub fn listed(
    rng: &mut Rng,
    context: &Context,
    rule: &Rule,
    name: &[u8],
    length: usize,
) -> Property {
    let code = *rng.pick(rule.types);
    let data = match rule.holds {
        Holds::Flag => vec![rng.below(2) as u8],
        Holds::OneOf(strings) => [rng.pick(strings).as_bytes(), &[0]].concat(),
        Holds::Link(kind) => {
            let targets = context.targets.of_kind(kind);
            let hash = rng.pick_any(targets).copied().unwrap_or(0);
            hash.to_le_bytes().to_vec()
        }
        Holds::Any if rule.kind == BONE && rule.name == "p" => {
            bone_parent(rng, context.bones).to_le_bytes().to_vec()
        }
        Holds::Any => self::data(rng, context.profile, code, length),
    };
    Property::new(code, name, length, data)
}

/// -1 or the number of a bone of the same Skeleton.
pub fn bone_parent(rng: &mut Rng, bones: usize) -> i32 {
    match rng.below(4) {
        0 => -1,
        1 => bones as i32 - 1,
        _ => rng.below(bones) as i32,
    }
}

/// Pushes the rule's property, or some of them if it is numbered.
fn push_listed(
    rng: &mut Rng,
    context: &Context,
    rule: &Rule,
    length: usize,
    out: &mut Vec<Property>,
) {
    if !rule.numbered {
        out.push(listed(rng, context, rule, rule.name.as_bytes(), length));
        return;
    }
    let count = match rng.chance(context.profile.full_node * 5) {
        true => 30,
        false => rng.range(1, 3),
    };
    for _ in 0..count {
        let name = names::numbered(rng, rule.name);
        if out.len() < MAX_PROPERTIES - 10 && !names::is_taken(out, &name) {
            out.push(listed(rng, context, rule, &name, length));
        }
    }
}

fn plain(rng: &mut Rng, context: &Context, kind: u32) -> Vec<Property> {
    let mut out = Vec::new();
    for rule in rules(kind) {
        if present(rng, context, rule) {
            let length = match rule.array {
                true => rng.skewed(context.profile.elements),
                false => 1,
            };
            push_listed(rng, context, rule, length, &mut out);
        }
    }
    out
}

/// A BlendShape or a Curve: two arrays of equal length.
fn paired(rng: &mut Rng, context: &Context, kind: u32, left: &str, right: &str) -> Vec<Property> {
    let mut out = plain(rng, context, kind);
    let length = rng.skewed(context.profile.elements);
    let kp = out.iter().find(|property| property.name == b"kp");
    let kv_types = curve_types(kp.map_or(b"", |kp| kp.text()));
    let names = [left.as_bytes(), right.as_bytes()];
    for property in &mut out {
        if names.contains(&property.name.as_slice()) {
            if kind == CURVE && property.name == b"kv" {
                property.code = *rng.pick(kv_types);
            }
            property.length = length as u32;
            property.data = data(rng, context.profile, property.code, length);
        }
    }
    out
}

fn mesh(rng: &mut Rng, context: &Context) -> Vec<Property> {
    let profile = context.profile;
    let vertices = rng.skewed(profile.vertices);
    let has_mi = rng.chance(profile.optional + 10);
    let has_weights = has_mi && rng.chance(60);
    let mi_code = *rng.pick(&[B, H, I]);
    let mi = influences(rng, context, mi_code, has_weights, vertices);
    let weights = match has_weights {
        true => mi as usize * vertices,
        false => 0,
    };
    let mut out = Vec::new();
    for rule in rules(MESH) {
        match rule.name {
            "wb" | "wv" if has_weights => push_listed(rng, context, rule, weights, &mut out),
            "mi" if has_mi => out.push(number("mi", mi_code, mi)),
            "wb" | "wv" | "mi" => {}
            "f" => out.push(faces(rng, profile.faces, vertices)),
            _ if present(rng, context, rule) => {
                let length = if rule.array { vertices } else { 1 };
                push_listed(rng, context, rule, length, &mut out);
            }
            _ => {}
        }
    }
    out
}

/// One number of type `b`, `h` or `i`.
pub fn number(name: &str, code: u16, number: u32) -> Property {
    let size = element_size(code).unwrap_or(4);
    Property::array(code, name, numbers_data(size, &[number]))
}

/// A value for mi; small where arrays of mi times V follow.
fn influences(
    rng: &mut Rng,
    context: &Context,
    code: u16,
    has_weights: bool,
    vertices: usize,
) -> u32 {
    if has_weights && vertices > 0 {
        let wide = vertices < 4 && context.profile.bytes > 10_000 && rng.chance(5);
        return match wide {
            true => rng.range(128, 255) as u32,
            false => rng.skewed(4) as u32,
        };
    }
    let most = match element_size(code) {
        Some(1) => 0xFF,
        Some(2) => 0xFFFF,
        _ => u32::MAX,
    };
    match rng.chance(50) {
        true => rng.edge_u32() & most,
        false => rng.below(5) as u32,
    }
}

/// The face buffer of a mesh of `vertices`.
pub fn faces(rng: &mut Rng, most: usize, vertices: usize) -> Property {
    let code = *rng.pick(&[B, H, I]);
    let size = element_size(code).unwrap_or(4);
    let reach = vertices.min(1 << (8 * size));
    let count = match reach {
        0 => 0,
        _ => rng.skewed(most),
    };
    let mut numbers = Vec::with_capacity(3 * count);
    for _ in 0..count {
        let mut face = [0; 3];
        for index in &mut face {
            *index = match rng.chance(20) {
                true => reach as u32 - 1,
                false => rng.below(reach) as u32,
            };
        }
        match rng.below(10) {
            0 => face[1] = face[0],
            1 => face[2] = face[0],
            2 => face[2] = face[1],
            3 => face = [face[0]; 3],
            _ => {}
        }
        numbers.extend(face);
    }
    Property::array(code, "f", numbers_data(size, &numbers))
}
