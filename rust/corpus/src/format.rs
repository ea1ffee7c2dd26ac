//! Kinds, type codes, parents and the table of listed properties.

pub const ROOT: u32 = 0x746F_6F72;
pub const MODEL: u32 = 0x6C64_6F6D;
pub const MESH: u32 = 0x6873_656D;
pub const BLEND_SHAPE: u32 = 0x6873_6C62;
pub const SKELETON: u32 = 0x6C65_6B73;
pub const BONE: u32 = 0x656E_6F62;
pub const IK_HANDLE: u32 = 0x6468_6B69;
pub const CONSTRAINT: u32 = 0x7473_6E63;
pub const ANIMATION: u32 = 0x6D69_6E61;
pub const CURVE: u32 = 0x7672_7563;
pub const CURVE_MODE_OVERRIDE: u32 = 0x564F_4D43;
pub const NOTIFICATION_TRACK: u32 = 0x6669_746E;
pub const MATERIAL: u32 = 0x6C74_616D;
pub const FILE: u32 = 0x656C_6966;
pub const INSTANCE: u32 = 0x7473_6E69;
pub const METADATA: u32 = 0x6174_656D;

/// The known kinds with their names.
pub const KINDS: [(u32, &str); 16] = [
    (ROOT, "Root"),
    (MODEL, "Model"),
    (MESH, "Mesh"),
    (BLEND_SHAPE, "BlendShape"),
    (SKELETON, "Skeleton"),
    (BONE, "Bone"),
    (IK_HANDLE, "IKHandle"),
    (CONSTRAINT, "Constraint"),
    (ANIMATION, "Animation"),
    (CURVE, "Curve"),
    (CURVE_MODE_OVERRIDE, "CurveModeOverride"),
    (NOTIFICATION_TRACK, "NotificationTrack"),
    (MATERIAL, "Material"),
    (FILE, "File"),
    (INSTANCE, "Instance"),
    (METADATA, "Metadata"),
];

pub const MAX_FILE: usize = 16_777_216;
/// The longest input of the listing program.
pub const MAX_INPUT: usize = 32_768;
pub const MAX_NODES: usize = 1_024;
pub const MAX_PROPERTIES: usize = 64;
pub const MAX_NAME: usize = 32;
/// Numbers in a table of 1,024 rows.
pub const TABLE: usize = 8_192;
/// The parent of a row without one.
pub const NONE: u32 = 0xFFFF_FFFF;

pub const B: u16 = 0x62;
pub const H: u16 = 0x68;
pub const I: u16 = 0x69;
pub const L: u16 = 0x6C;
pub const F: u16 = 0x66;
pub const D: u16 = 0x64;
pub const V2: u16 = 0x7632;
pub const V3: u16 = 0x7633;
pub const V4: u16 = 0x7634;
pub const S: u16 = 0x73;

pub const TYPES: [u16; 10] = [B, H, I, L, F, D, V2, V3, V4, S];

/// Size of one element; strings and other codes have none.
pub fn element_size(code: u16) -> Option<usize> {
    match code {
        B => Some(1),
        H => Some(2),
        I | F => Some(4),
        L | D | V2 => Some(8),
        V3 => Some(12),
        V4 => Some(16),
        _ => None,
    }
}

pub fn is_known(kind: u32) -> bool {
    KINDS.iter().any(|known| known.0 == kind)
}

/// The known kinds that may stand under `parent`.
pub fn children(parent: u32) -> &'static [u32] {
    match parent {
        ROOT => &[MODEL, ANIMATION, INSTANCE, METADATA],
        MODEL => &[MESH, BLEND_SHAPE, SKELETON, MATERIAL],
        SKELETON => &[BONE, IK_HANDLE, CONSTRAINT],
        ANIMATION => &[CURVE, CURVE_MODE_OVERRIDE, NOTIFICATION_TRACK],
        MATERIAL | INSTANCE => &[FILE],
        _ => &[],
    }
}

/// What a listed property may hold beyond its type.
#[derive(Clone, Copy, Debug, PartialEq, Eq)]
pub enum Holds {
    Any,
    /// 0 or 1.
    Flag,
    /// One of these strings.
    OneOf(&'static [&'static str]),
    /// The hash of a node of this kind.
    Link(u32),
}

/// A line of the table of listed properties.
#[derive(Clone, Copy, Debug)]
pub struct Rule {
    pub kind: u32,
    pub name: &'static str,
    /// One to three digits follow the name.
    pub numbered: bool,
    pub types: &'static [u16],
    pub array: bool,
    pub required: bool,
    pub holds: Holds,
}

impl Rule {
    const fn new(kind: u32, name: &'static str, types: &'static [u16]) -> Rule {
        Rule {
            kind,
            name,
            numbered: false,
            types,
            array: false,
            required: false,
            holds: Holds::Any,
        }
    }

    const fn array(mut self) -> Rule {
        self.array = true;
        self
    }

    const fn required(mut self) -> Rule {
        self.required = true;
        self
    }

    const fn numbered(mut self) -> Rule {
        self.numbered = true;
        self
    }

    const fn flag(mut self) -> Rule {
        self.holds = Holds::Flag;
        self
    }

    const fn one_of(mut self, strings: &'static [&'static str]) -> Rule {
        self.holds = Holds::OneOf(strings);
        self
    }

    const fn link(mut self, kind: u32) -> Rule {
        self.holds = Holds::Link(kind);
        self
    }

    fn matches(&self, name: &[u8]) -> bool {
        if !self.numbered {
            return self.name.as_bytes() == name;
        }
        match name.strip_prefix(self.name.as_bytes()) {
            Some([b'0']) => true,
            Some([b'0', ..]) | Some([]) | None => false,
            Some(digits) => digits.len() <= 3 && digits.iter().all(u8::is_ascii_digit),
        }
    }
}

const N: &[u16] = &[B, H, I];
const MODES: &[&str] = &["additive", "absolute", "relative"];

const fn rule(kind: u32, name: &'static str, types: &'static [u16]) -> Rule {
    Rule::new(kind, name, types)
}

const fn bone_link(kind: u32, name: &'static str) -> Rule {
    Rule::new(kind, name, &[L]).link(BONE)
}

const fn file_link(name: &'static str) -> Rule {
    Rule::new(MATERIAL, name, &[L]).link(FILE)
}

const fn flag(kind: u32, name: &'static str) -> Rule {
    Rule::new(kind, name, &[B]).flag()
}

/// Every listed property, a line per kind and name.
pub const RULES: &[Rule] = &[
    rule(MODEL, "n", &[S]),
    rule(MESH, "n", &[S]),
    rule(MESH, "vp", &[V3]).array().required(),
    rule(MESH, "vn", &[V3]).array(),
    rule(MESH, "vt", &[V3]).array(),
    rule(MESH, "c", &[I]).array().numbered(),
    rule(MESH, "u", &[V2]).array().numbered(),
    rule(MESH, "wb", N).array(),
    rule(MESH, "wv", &[F]).array(),
    rule(MESH, "f", N).array().required(),
    rule(MESH, "cl", N),
    rule(MESH, "ul", N),
    rule(MESH, "mi", N),
    rule(MESH, "sm", &[S]).one_of(&["linear", "quaternion"]),
    rule(MESH, "m", &[L]).link(MATERIAL),
    rule(BLEND_SHAPE, "n", &[S]).required(),
    rule(BLEND_SHAPE, "b", &[L]).link(MESH).required(),
    rule(BLEND_SHAPE, "vi", N).array().required(),
    rule(BLEND_SHAPE, "vp", &[V3]).array().required(),
    rule(BLEND_SHAPE, "ts", &[F]).array(),
    rule(BONE, "n", &[S]).required(),
    rule(BONE, "p", &[I]),
    flag(BONE, "ssc"),
    rule(BONE, "lp", &[V3]),
    rule(BONE, "wp", &[V3]),
    rule(BONE, "s", &[V3]),
    rule(BONE, "lr", &[V4]),
    rule(BONE, "wr", &[V4]),
    rule(IK_HANDLE, "n", &[S]),
    bone_link(IK_HANDLE, "sb").required(),
    bone_link(IK_HANDLE, "eb").required(),
    bone_link(IK_HANDLE, "tb"),
    bone_link(IK_HANDLE, "pv"),
    bone_link(IK_HANDLE, "pb"),
    flag(IK_HANDLE, "tr"),
    rule(CONSTRAINT, "n", &[S]),
    rule(CONSTRAINT, "ct", &[S])
        .one_of(&["pt", "or", "sc"])
        .required(),
    bone_link(CONSTRAINT, "cb").required(),
    bone_link(CONSTRAINT, "tb").required(),
    flag(CONSTRAINT, "mo"),
    flag(CONSTRAINT, "sx"),
    flag(CONSTRAINT, "sy"),
    flag(CONSTRAINT, "sz"),
    rule(MATERIAL, "n", &[S]).required(),
    rule(MATERIAL, "t", &[S]).required(),
    file_link("albedo"),
    file_link("diffuse"),
    file_link("normal"),
    file_link("specular"),
    file_link("emissive"),
    file_link("gloss"),
    file_link("roughness"),
    file_link("ao"),
    file_link("cavity"),
    file_link("aniso"),
    file_link("extra").numbered(),
    rule(FILE, "p", &[S]).required(),
    rule(ANIMATION, "n", &[S]),
    rule(ANIMATION, "fr", &[F]).required(),
    flag(ANIMATION, "lo"),
    rule(CURVE, "nn", &[S]).required(),
    rule(CURVE, "kp", &[S])
        .one_of(&["rq", "tx", "ty", "tz", "sx", "sy", "sz", "bs", "vb"])
        .required(),
    rule(CURVE, "kb", N).array().required(),
    rule(CURVE, "kv", &[B, H, I, F, V4]).array().required(),
    rule(CURVE, "m", &[S]).one_of(MODES).required(),
    rule(CURVE, "ab", &[F]),
    rule(CURVE_MODE_OVERRIDE, "nn", &[S]).required(),
    rule(CURVE_MODE_OVERRIDE, "m", &[S])
        .one_of(MODES)
        .required(),
    flag(CURVE_MODE_OVERRIDE, "ot"),
    flag(CURVE_MODE_OVERRIDE, "or"),
    flag(CURVE_MODE_OVERRIDE, "os"),
    rule(NOTIFICATION_TRACK, "n", &[S]).required(),
    rule(NOTIFICATION_TRACK, "kb", N).array().required(),
    rule(INSTANCE, "n", &[S]),
    rule(INSTANCE, "rf", &[L]).link(FILE).required(),
    rule(INSTANCE, "p", &[V3]).required(),
    rule(INSTANCE, "r", &[V4]).required(),
    rule(INSTANCE, "s", &[V3]).required(),
    rule(METADATA, "a", &[S]),
    rule(METADATA, "s", &[S]),
    rule(METADATA, "up", &[S]).one_of(&["x", "y", "z"]),
];

/// The lines of one kind.
pub fn rules(kind: u32) -> impl Iterator<Item = &'static Rule> {
    RULES.iter().filter(move |rule| rule.kind == kind)
}

/// The line that lists `name` on `kind`; free names have none.
pub fn rule_of(kind: u32, name: &[u8]) -> Option<&'static Rule> {
    rules(kind).find(|rule| rule.matches(name))
}

/// The types that a Curve's kv has under `kp`.
pub fn curve_types(kp: &[u8]) -> &'static [u16] {
    match kp {
        b"rq" => &[V4],
        b"vb" => N,
        _ => &[F],
    }
}
