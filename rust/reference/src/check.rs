//! The property rules and the links: refusals 13 to 17.

use crate::bytes::first_u64;
use crate::faces::{faces, unsigned, Faces};
use crate::kinds::{known, BONE, MESH, SKELETON};
use crate::links::Targets;
use crate::names::{key, SPREAD};
use crate::property::{Property, MAX_PROPERTIES};
use crate::read::own_bytes;
use crate::rules::{key_values_type, rules_of, Check, Lines, Rule};
use crate::table::{BODY_END, BODY_START, KIND, NO_PARENT, PARENT, PROPERTIES, ROW};
use crate::walk::NODE_HEADER;
use crate::Refusal;

#[derive(Clone, Copy, Default)]
pub(crate) struct Counts {
    /// Own bytes of known nodes, and of unknown ones.
    pub own_known: u32,
    pub own_unknown: u32,
    pub faces: u32,
    pub degenerate: u32,
    pub links: u32,
}

/// Judges all rows of a walked file. Links come after everything else: the first that fails is kept
/// until all rows have passed.
pub(crate) fn check(file: &[u8], rows: &[u32]) -> Result<Counts, Refusal> {
    let mut counts = Counts::default();
    let mut node = Node::default();
    let mut targets = None;
    let mut failed_link = None;
    for (index, row) in rows.chunks_exact(ROW).enumerate() {
        if !known(row[KIND]) {
            counts.own_unknown += own_bytes(row);
            continue;
        }
        counts.own_known += own_bytes(row);
        if row[KIND] == SKELETON {
            // Skeletons do not nest: a Bone belongs to the last one before it.
            node.bones = bone_children(rows, index);
        }
        if row[PROPERTIES] == 0 && rules_of(row[KIND]).required == 0 {
            continue;
        }
        let body = &file[row[BODY_START] as usize..row[BODY_END] as usize];
        let refuse = |number: u32, at: usize| Refusal {
            number,
            place: row[BODY_START] + at as u32,
        };
        node.fill(body, row).map_err(|at| refuse(13, at))?;
        if !node.complete(row[KIND]) {
            return Err(Refusal {
                number: 14,
                place: row[BODY_START] - NODE_HEADER as u32,
            });
        }
        for (property, rule) in node.listed() {
            let Some(faces) = node.judge(body, property, rule.check) else {
                return Err(refuse(15, property.start));
            };
            counts.faces += faces.count;
            counts.degenerate += faces.degenerate;
            if let Check::Link(kind) = rule.check {
                counts.links += 1;
                if failed_link.is_none() {
                    let targets = targets.get_or_insert_with(|| Targets::new(rows));
                    let number = targets.resolve(kind, first_u64(property.data(body)));
                    if number != 0 {
                        failed_link = Some(refuse(number, property.start));
                    }
                }
            }
        }
    }
    failed_link.map_or(Ok(counts), Err)
}

/// The Bone children of a row. All rows below it follow it at once.
fn bone_children(rows: &[u32], index: usize) -> u32 {
    let index = index as u32;
    let mut bones = 0;
    for row in rows.chunks_exact(ROW).skip(index as usize + 1) {
        if row[PARENT] == NO_PARENT || row[PARENT] < index {
            break;
        }
        bones += u32::from(row[KIND] == BONE && row[PARENT] == index);
    }
    bones
}

/// A power of two, several times as many as there are properties.
const BITS: usize = 512;

/// The properties of one known node. Made once and filled for each row.
struct Node {
    count: usize,
    properties: [Property; MAX_PROPERTIES as usize],
    keys: [u64; MAX_PROPERTIES as usize],
    /// A bit of each key, to pass most searches among them by.
    some_bits: [u64; BITS / 64],
    rules: [Option<&'static Rule>; MAX_PROPERTIES as usize],
    /// The lines of this kind, and a bit for each that some property has.
    lines: Lines,
    seen: u32,
    /// The Bones of the Skeleton around this node.
    bones: u32,
}

impl Default for Node {
    fn default() -> Node {
        Node {
            count: 0,
            properties: [Property::default(); MAX_PROPERTIES as usize],
            keys: [0; MAX_PROPERTIES as usize],
            some_bits: [0; BITS / 64],
            rules: [None; MAX_PROPERTIES as usize],
            lines: Lines::default(),
            seen: 0,
            bones: 0,
        }
    }
}

impl Node {
    /// Takes in a row's properties up to the first that breaks 13, which is answered.
    fn fill(&mut self, body: &[u8], row: &[u32]) -> Result<(), usize> {
        self.count = 0;
        self.seen = 0;
        self.lines = rules_of(row[KIND]);
        self.some_bits = [0; BITS / 64];
        let mut at = 0;
        for i in 0..row[PROPERTIES] as usize {
            let property = Property::judged(body, at);
            let name = property.name(body);
            let key = key(name);
            if self.bit_was_set(key) && self.keys[..i].contains(&key) {
                let earlier = &self.properties[..i];
                if earlier.iter().any(|other| other.name(body) == name) {
                    return Err(at);
                }
            }
            let line = self
                .lines
                .rules
                .iter()
                .position(|rule| rule.lists(name, key));
            let rule = line.map(|line| &self.lines.rules[line]);
            if rule.is_some_and(|rule| !rule.takes(property.type_code, property.length)) {
                return Err(at);
            }
            self.seen |= line.map_or(0, |line| 1 << line);
            self.properties[i] = property;
            self.keys[i] = key;
            self.rules[i] = rule;
            self.count = i + 1;
            at = property.next();
        }
        Ok(())
    }

    /// Sets a key's bit. Of equal keys it is the same.
    fn bit_was_set(&mut self, key: u64) -> bool {
        let bit = key.wrapping_mul(SPREAD) >> 32;
        let bits = &mut self.some_bits[bit as usize % BITS / 64];
        let was = *bits & 1 << (bit % 64) != 0;
        *bits |= 1 << (bit % 64);
        was
    }

    /// Refusal 14's question: the required properties, and a mesh's partners.
    fn complete(&self, kind: u32) -> bool {
        if self.lines.required & !self.seen != 0 {
            return false;
        }
        if kind != MESH {
            return true;
        }
        let has = |name| self.get(name).is_some();
        let weights = [has(b"wb"), has(b"wv")];
        weights == [false, false] || (weights == [true, true] && has(b"mi"))
    }

    /// The properties that the rules list, in file order.
    fn listed(&self) -> impl Iterator<Item = (&Property, &'static Rule)> {
        let properties = self.properties[..self.count].iter();
        properties
            .zip(&self.rules)
            .filter_map(|(property, rule)| Some((property, (*rule)?)))
    }

    /// The property of a name of at most seven bytes.
    fn get(&self, name: &[u8]) -> Option<&Property> {
        let key = key(name);
        let keys = &self.keys[..self.count];
        let i = keys.iter().position(|&other| other == key)?;
        Some(&self.properties[i])
    }

    /// A length; the properties asked for are there, by 14.
    fn length(&self, name: &[u8]) -> u32 {
        self.get(name).map_or(0, |property| property.length)
    }

    /// Refusal 15's question for one property: its faces, which only f has, or `None`.
    fn judge(&self, body: &[u8], property: &Property, check: Check) -> Option<Faces> {
        let data = property.data(body);
        let right = match check {
            Check::Free | Check::Link(_) => true,
            Check::Flag => data[0] <= 1,
            Check::Text(texts) => texts.contains(&text(data)),
            Check::PerVertex => property.length == self.length(b"vp"),
            Check::PerInfluence => {
                let mi = self
                    .get(b"mi")
                    .map_or(0, |mi| unsigned(mi.type_code, mi.data(body)));
                u64::from(property.length) == u64::from(mi) * u64::from(self.length(b"vp"))
            }
            Check::Faces => {
                let vertices = self.length(b"vp");
                return faces(property.type_code, property.length, data, vertices);
            }
            Check::Pair(name) => property.length == self.length(name),
            Check::KeyValues => {
                let kp = self.get(b"kp").map_or(&[][..], |kp| text(kp.data(body)));
                property.length == self.length(b"kb") && key_values_type(kp, property.type_code)
            }
            Check::ParentBone => {
                let parent = unsigned(property.type_code, data);
                parent as i32 == -1 || (parent as i32 >= 0 && parent < self.bones)
            }
        };
        right.then(Faces::default)
    }
}

/// A string without its zero.
fn text(data: &[u8]) -> &[u8] {
    data.split_last().map_or(&[], |(_, text)| text)
}
