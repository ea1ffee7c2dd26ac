//! The property rules of the known kinds, in one table.

use crate::kinds::*;
use crate::names::{key, numbered, KEY_BYTES};
use crate::types::*;

/// What is judged of a listed property beyond its type and its being single or an array.
#[derive(Clone, Copy)]
pub(crate) enum Check {
    Free,
    /// 0 or 1.
    Flag,
    /// One of these strings.
    Text(&'static [&'static [u8]]),
    /// As long as the mesh's vp.
    PerVertex,
    /// As long as the mesh's vp times mi.
    PerInfluence,
    /// Three values a face, each below vp's length.
    Faces,
    /// As long as the property of this name.
    Pair(&'static [u8]),
    /// As long as kb, of the type that kp wants.
    KeyValues,
    /// -1 or the number of a Bone of the same Skeleton.
    ParentBone,
    /// The hash of a node of this kind.
    Link(u32),
}

/// A set of types, a bit for each.
type Types = u16;

const B: Types = 1;
const H: Types = 1 << 1;
const I: Types = 1 << 2;
const L: Types = 1 << 3;
const F: Types = 1 << 4;
const S: Types = 1 << 5;
const V2: Types = 1 << 6;
const V3: Types = 1 << 7;
const V4: Types = 1 << 8;
const N: Types = B | H | I;

fn types(type_code: u16) -> Types {
    match type_code {
        BYTE => B,
        SHORT => H,
        INTEGER => I,
        LONG => L,
        FLOAT => F,
        STRING => S,
        VECTOR2 => V2,
        VECTOR3 => V3,
        VECTOR4 => V4,
        _ => 0,
    }
}

#[derive(Clone, Copy)]
pub(crate) struct Rule {
    kind: u32,
    /// Without the `%d` of a numbered name.
    name: &'static [u8],
    key: u64,
    numbered: bool,
    types: Types,
    array: bool,
    pub required: bool,
    pub check: Check,
}

const ONE: bool = false;
const ARRAY: bool = true;
const MAY: bool = false;
const MUST: bool = true;

const fn rule(
    kind: u32,
    name: &'static str,
    types: Types,
    array: bool,
    required: bool,
    check: Check,
) -> Rule {
    let (name, numbered) = match name.as_bytes() {
        [prefix @ .., b'%', b'd'] => (prefix, true),
        name => (name, false),
    };
    Rule {
        kind,
        name,
        key: key(name),
        numbered,
        types,
        array,
        required,
        check,
    }
}

const SKINNING: Check = Check::Text(&[b"linear", b"quaternion"]);
const CONSTRAINTS: Check = Check::Text(&[b"pt", b"or", b"sc"]);
const KEYS: Check = Check::Text(&[
    b"rq", b"tx", b"ty", b"tz", b"sx", b"sy", b"sz", b"bs", b"vb",
]);
const MODES: Check = Check::Text(&[b"additive", b"absolute", b"relative"]);
const AXES: Check = Check::Text(&[b"x", b"y", b"z"]);
use Check::*;

/// A line per kind and name; the lines of a kind stand together. Root and Skeleton have none.
#[rustfmt::skip]
const RULES: [Rule; 81] = [
    rule(MODEL, "n", S, ONE, MAY, Free),                                // n s

    rule(MESH, "n", S, ONE, MAY, Free),                                 // n s
    rule(MESH, "vp", V3, ARRAY, MUST, Free),                            // vp! v3[]
    rule(MESH, "vn", V3, ARRAY, MAY, PerVertex),                        // vn v3[]
    rule(MESH, "vt", V3, ARRAY, MAY, PerVertex),                        // vt v3[]
    rule(MESH, "c%d", I, ARRAY, MAY, PerVertex),                        // c%d i[]
    rule(MESH, "u%d", V2, ARRAY, MAY, PerVertex),                       // u%d v2[]
    rule(MESH, "wb", N, ARRAY, MAY, PerInfluence),                      // wb N[]
    rule(MESH, "wv", F, ARRAY, MAY, PerInfluence),                      // wv f[]
    rule(MESH, "f", N, ARRAY, MUST, Faces),                             // f! N[]
    rule(MESH, "cl", N, ONE, MAY, Free),                                // cl N
    rule(MESH, "ul", N, ONE, MAY, Free),                                // ul N
    rule(MESH, "mi", N, ONE, MAY, Free),                                // mi N
    rule(MESH, "sm", S, ONE, MAY, SKINNING),                            // sm s (linear, quaternion)
    rule(MESH, "m", L, ONE, MAY, Link(MATERIAL)),                       // m l

    rule(BLEND_SHAPE, "n", S, ONE, MUST, Free),                         // n! s
    rule(BLEND_SHAPE, "b", L, ONE, MUST, Link(MESH)),                   // b! l
    rule(BLEND_SHAPE, "vi", N, ARRAY, MUST, Free),                      // vi! N[]
    rule(BLEND_SHAPE, "vp", V3, ARRAY, MUST, Pair(b"vi")),              // vp! v3[]
    rule(BLEND_SHAPE, "ts", F, ARRAY, MAY, Free),                       // ts f[]

    rule(BONE, "n", S, ONE, MUST, Free),                                // n! s
    rule(BONE, "p", I, ONE, MAY, ParentBone),                           // p i
    rule(BONE, "ssc", B, ONE, MAY, Flag),                               // ssc B
    rule(BONE, "lp", V3, ONE, MAY, Free),                               // lp v3
    rule(BONE, "wp", V3, ONE, MAY, Free),                               // wp v3
    rule(BONE, "s", V3, ONE, MAY, Free),                                // s v3
    rule(BONE, "lr", V4, ONE, MAY, Free),                               // lr v4
    rule(BONE, "wr", V4, ONE, MAY, Free),                               // wr v4

    rule(IK_HANDLE, "n", S, ONE, MAY, Free),                            // n s
    rule(IK_HANDLE, "sb", L, ONE, MUST, Link(BONE)),                    // sb! l
    rule(IK_HANDLE, "eb", L, ONE, MUST, Link(BONE)),                    // eb! l
    rule(IK_HANDLE, "tb", L, ONE, MAY, Link(BONE)),                     // tb l
    rule(IK_HANDLE, "pv", L, ONE, MAY, Link(BONE)),                     // pv l
    rule(IK_HANDLE, "pb", L, ONE, MAY, Link(BONE)),                     // pb l
    rule(IK_HANDLE, "tr", B, ONE, MAY, Flag),                           // tr B

    rule(CONSTRAINT, "n", S, ONE, MAY, Free),                           // n s
    rule(CONSTRAINT, "ct", S, ONE, MUST, CONSTRAINTS),                  // ct! s (pt, or, sc)
    rule(CONSTRAINT, "cb", L, ONE, MUST, Link(BONE)),                   // cb! l
    rule(CONSTRAINT, "tb", L, ONE, MUST, Link(BONE)),                   // tb! l
    rule(CONSTRAINT, "mo", B, ONE, MAY, Flag),                          // mo B
    rule(CONSTRAINT, "sx", B, ONE, MAY, Flag),                          // sx B
    rule(CONSTRAINT, "sy", B, ONE, MAY, Flag),                          // sy B
    rule(CONSTRAINT, "sz", B, ONE, MAY, Flag),                          // sz B

    rule(MATERIAL, "n", S, ONE, MUST, Free),                            // n! s
    rule(MATERIAL, "t", S, ONE, MUST, Free),                            // t! s
    rule(MATERIAL, "albedo", L, ONE, MAY, Link(FILE)),                  // albedo l
    rule(MATERIAL, "diffuse", L, ONE, MAY, Link(FILE)),                 // diffuse l
    rule(MATERIAL, "normal", L, ONE, MAY, Link(FILE)),                  // normal l
    rule(MATERIAL, "specular", L, ONE, MAY, Link(FILE)),                // specular l
    rule(MATERIAL, "emissive", L, ONE, MAY, Link(FILE)),                // emissive l
    rule(MATERIAL, "gloss", L, ONE, MAY, Link(FILE)),                   // gloss l
    rule(MATERIAL, "roughness", L, ONE, MAY, Link(FILE)),               // roughness l
    rule(MATERIAL, "ao", L, ONE, MAY, Link(FILE)),                      // ao l
    rule(MATERIAL, "cavity", L, ONE, MAY, Link(FILE)),                  // cavity l
    rule(MATERIAL, "aniso", L, ONE, MAY, Link(FILE)),                   // aniso l
    rule(MATERIAL, "extra%d", L, ONE, MAY, Link(FILE)),                 // extra%d l

    rule(FILE, "p", S, ONE, MUST, Free),                                // p! s

    rule(ANIMATION, "n", S, ONE, MAY, Free),                            // n s
    rule(ANIMATION, "fr", F, ONE, MUST, Free),                          // fr! f
    rule(ANIMATION, "lo", B, ONE, MAY, Flag),                           // lo B

    rule(CURVE, "nn", S, ONE, MUST, Free),                              // nn! s
    rule(CURVE, "kp", S, ONE, MUST, KEYS),                              // kp! s (rq tx ty tz sx sy sz bs vb)
    rule(CURVE, "kb", N, ARRAY, MUST, Free),                            // kb! N[]
    rule(CURVE, "kv", N | F | V4, ARRAY, MUST, KeyValues),              // kv! one of b h i f v4 []
    rule(CURVE, "m", S, ONE, MUST, MODES),                              // m! s (additive, absolute, relative)
    rule(CURVE, "ab", F, ONE, MAY, Free),                               // ab f

    rule(CURVE_MODE_OVERRIDE, "nn", S, ONE, MUST, Free),                // nn! s
    rule(CURVE_MODE_OVERRIDE, "m", S, ONE, MUST, MODES),                // m! s (as Curve)
    rule(CURVE_MODE_OVERRIDE, "ot", B, ONE, MAY, Flag),                 // ot B
    rule(CURVE_MODE_OVERRIDE, "or", B, ONE, MAY, Flag),                 // or B
    rule(CURVE_MODE_OVERRIDE, "os", B, ONE, MAY, Flag),                 // os B

    rule(NOTIFICATION_TRACK, "n", S, ONE, MUST, Free),                  // n! s
    rule(NOTIFICATION_TRACK, "kb", N, ARRAY, MUST, Free),               // kb! N[]

    rule(INSTANCE, "n", S, ONE, MAY, Free),                             // n s
    rule(INSTANCE, "rf", L, ONE, MUST, Link(FILE)),                     // rf! l
    rule(INSTANCE, "p", V3, ONE, MUST, Free),                           // p! v3
    rule(INSTANCE, "r", V4, ONE, MUST, Free),                           // r! v4
    rule(INSTANCE, "s", V3, ONE, MUST, Free),                           // s! v3

    rule(METADATA, "a", S, ONE, MAY, Free),                             // a s
    rule(METADATA, "s", S, ONE, MAY, Free),                             // s s
    rule(METADATA, "up", S, ONE, MAY, AXES),                            // up s (x, y, z)
];

impl Rule {
    /// Whether this line lists the name, whose key is given too.
    pub fn lists(&self, name: &[u8], key: u64) -> bool {
        if self.numbered {
            name.len() > self.name.len() && numbered(self.name, name).is_some()
        } else {
            self.key == key && (name.len() <= KEY_BYTES || self.name == name)
        }
    }

    /// Refusal 13's question: the type, and single or array.
    pub fn takes(&self, type_code: u16, length: u32) -> bool {
        self.types & types(type_code) != 0 && (self.array || length == 1)
    }
}

/// Whether kv may have this type on a Curve with this kp.
pub(crate) fn key_values_type(kp: &[u8], type_code: u16) -> bool {
    let wanted = match kp {
        b"rq" => V4,
        b"vb" => N,
        _ => F,
    };
    wanted & types(type_code) != 0
}

/// The lines of a kind, and a bit for each that is required.
#[derive(Clone, Copy, Default)]
pub(crate) struct Lines {
    pub rules: &'static [Rule],
    pub required: u32,
}

/// The first and the past-the-last line of a kind, and the bits of those required.
const fn lines(kind: u32) -> (usize, usize, u32) {
    let mut start = 0;
    while start < RULES.len() && RULES[start].kind != kind {
        start += 1;
    }
    let mut end = start;
    let mut required = 0;
    while end < RULES.len() && RULES[end].kind == kind {
        if RULES[end].required {
            required |= 1 << (end - start);
        }
        end += 1;
    }
    (start, end, required)
}

/// The lines of a kind, found while compiling.
pub(crate) fn rules_of(kind: u32) -> Lines {
    static TABLE: [Rule; RULES.len()] = RULES;
    macro_rules! of {
        ($($kind:ident)*) => {
            match kind {
                $($kind => const { lines($kind) },)*
                _ => (0, 0, 0),
            }
        };
    }
    let (start, end, required) = of!(
        MODEL MESH BLEND_SHAPE BONE IK_HANDLE CONSTRAINT MATERIAL FILE ANIMATION CURVE
        CURVE_MODE_OVERRIDE NOTIFICATION_TRACK INSTANCE METADATA
    );
    Lines {
        rules: &TABLE[start..end],
        required,
    }
}

#[cfg(test)]
mod tests {
    use super::*;

    #[test]
    fn the_lines_of_a_kind_stand_together_and_names_are_single() {
        for line in &RULES {
            let lines = rules_of(line.kind).rules;
            let of_kind = RULES.iter().filter(|other| other.kind == line.kind);
            assert_eq!(lines.len(), of_kind.count());
            let same = |other: &&Rule| other.name == line.name && other.numbered == line.numbered;
            assert_eq!(lines.iter().filter(same).count(), 1);
        }
    }
}
