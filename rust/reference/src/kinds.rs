//! Kinds of nodes and where each may stand.

pub const ROOT: u32 = 0x746F_6F72;
pub const MODEL: u32 = 0x6C64_6F6D;
pub const MESH: u32 = 0x6873_656D;
pub const BLEND_SHAPE: u32 = 0x6873_6C62;
pub const SKELETON: u32 = 0x6C65_6B73;
pub const BONE: u32 = 0x656E_6F62;
pub const IK_HANDLE: u32 = 0x6468_6B69;
pub const CONSTRAINT: u32 = 0x7473_6E63;
pub const ANIMATION: u32 = 0x6D69_6E61;
pub const CURVE: u32 = 0x7672_7563;
pub const CURVE_MODE_OVERRIDE: u32 = 0x564F_4D43;
pub const NOTIFICATION_TRACK: u32 = 0x6669_746E;
pub const MATERIAL: u32 = 0x6C74_616D;
pub const FILE: u32 = 0x656C_6966;
pub const INSTANCE: u32 = 0x7473_6E69;
pub const METADATA: u32 = 0x6174_656D;

/// All other kinds are unknown.
pub fn known(kind: u32) -> bool {
    matches!(
        kind,
        ROOT | MODEL
            | MESH
            | BLEND_SHAPE
            | SKELETON
            | BONE
            | IK_HANDLE
            | CONSTRAINT
            | ANIMATION
            | CURVE
            | CURVE_MODE_OVERRIDE
            | NOTIFICATION_TRACK
            | MATERIAL
            | FILE
            | INSTANCE
            | METADATA
    )
}

/// Whether a node of `kind` may stand below a known `parent`, or at the top.
pub fn may_stand(parent: Option<u32>, kind: u32) -> bool {
    let Some(parent) = parent else {
        return kind == ROOT;
    };
    match kind {
        ROOT => false,
        MODEL | ANIMATION | INSTANCE | METADATA => parent == ROOT,
        MESH | BLEND_SHAPE | SKELETON | MATERIAL => parent == MODEL,
        BONE | IK_HANDLE | CONSTRAINT => parent == SKELETON,
        CURVE | CURVE_MODE_OVERRIDE | NOTIFICATION_TRACK => parent == ANIMATION,
        FILE => parent == MATERIAL || parent == INSTANCE,
        _ => known(parent),
    }
}
