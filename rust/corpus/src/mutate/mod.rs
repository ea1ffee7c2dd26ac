//! Damage of a valid file.
//!
//! Most kinds edit the tree, so that everything but the fault stays
//! consistent. Where the fault alone decides the refusal, its number and place
//! are given along.

mod bytes;
mod headers;
mod nodes;
mod properties;
mod values;

use crate::format::MAX_FILE;
use crate::rng::Rng;
use crate::tree::{Encoded, File};

named! {
    /// A kind of damage.
    Damage:
    ByteChange "byte change",
    BitFlip "bit flip",
    FieldChange "header field",
    Cut "cut",
    Extension "extension",
    Splice "splice",
    RandomBytes "random bytes",
    RandomNodes "random after header",
    Magic "magic",
    Version "version",
    RootCount "root count",
    SizeLess "size less",
    SizeMore "size more",
    SizeUnder "size under 24",
    SizeHuge "size huge",
    PropertyCount "property count",
    ChildCount "child count",
    BytesAfter "bytes after children",
    CutProperty "end inside property",
    KindChange "kind change",
    WrongPlace "kind in wrong place",
    UnknownAtTop "unknown at the top",
    MeshAtTop "mesh at the top",
    ManyNodes "1,025 nodes",
    ManyProperties "65 properties",
    UnknownType "unknown type code",
    NameSize "name size",
    NameByte "name byte",
    StringLength "string array length",
    StringWithoutZero "string without zero",
    WrappingLength "wrapping length",
    NameTwice "name twice",
    WrongType "wrong type",
    WrongLength "single as array",
    MissingRequired "missing required",
    MissingPartner "missing partner",
    LayerLength "length unlike V",
    WeightLength "length unlike mi times V",
    FaceValue "face value",
    FaceLength "face length",
    FlagValue "flag value",
    StringValue "string not in set",
    CurveType "kv type unlike kp",
    ShapeLengths "unequal vi and vp",
    KeyLengths "unequal kb and kv",
    BoneParent "bone parent",
    DanglingLink "dangling link",
    DoubledTarget "doubled target",
    TwoFaults "two faults",
    ManyFaults "several faults",
}

/// Where a fault lies, before the tree is encoded.
#[derive(Clone, Copy, Debug, PartialEq, Eq)]
pub enum Place {
    At(usize),
    Node(usize),
    /// Row and index.
    Property(usize, usize),
    /// The first byte after the last child of a row.
    Rest(usize),
}

/// The answer that a fault leads to; `None` where that is left open.
type Fault = Option<(u32, Place)>;

/// An edit of the tree; `None` where the tree has no place for it.
type Edit = fn(&mut Rng, &mut File) -> Option<Fault>;

/// A damaged file.
#[derive(Clone, Debug)]
pub struct Damaged {
    pub bytes: Vec<u8>,
    /// Number and place of the refusal that must follow, where one fault
    /// decides it. Damage without it may even leave the file valid.
    pub answer: Option<(u32, u32)>,
}

/// Damages a valid file; `None` if it has no place for this kind of damage.
pub fn damage(rng: &mut Rng, file: &File, damage: Damage) -> Option<Damaged> {
    if let Some(edit) = edit(damage) {
        let mut file = file.clone();
        let fault = edit(rng, &mut file)?;
        return Some(finish(&file, fault));
    }
    let encoded = file.encode();
    let (bytes, answer) = match damage {
        Damage::ByteChange => (bytes::byte_change(rng, encoded.bytes), None),
        Damage::BitFlip => (bytes::bit_flip(rng, encoded.bytes), None),
        Damage::FieldChange => (bytes::field_change(rng, encoded)?, None),
        Damage::Cut => bytes::cut(rng, encoded),
        Damage::Splice => (bytes::splice(rng, encoded.bytes), None),
        Damage::RandomBytes => (bytes::random(rng), None),
        Damage::RandomNodes => (bytes::random_nodes(rng), None),
        Damage::ManyFaults => (many_faults(rng, file)?, None),
        _ => return two_faults(rng, file),
    };
    Some(Damaged { bytes, answer })
}

/// Damage of a kind drawn among those that the file has a place for.
pub fn any(rng: &mut Rng, file: &File) -> (Damage, Damaged) {
    loop {
        let kind = *rng.pick(ALL);
        // Files of 1,025 nodes are long; fewer of them will do.
        if kind == Damage::ManyNodes && !rng.chance(10) {
            continue;
        }
        if let Some(damaged) = damage(rng, file, kind) {
            return (kind, damaged);
        }
    }
}

/// A file one byte over the limit.
pub fn too_long(rng: &mut Rng) -> Vec<u8> {
    let mut bytes = crate::large::largest_file(rng).bytes();
    bytes.resize(MAX_FILE + 1, 0);
    bytes
}

/// Lengths of tables, some of them too short for the reader.
pub fn table_length(rng: &mut Rng) -> usize {
    *rng.pick(&[0, 1, 8, 8_184, 8_191, 8_192, 8_193, 9_000])
}

fn edit(damage: Damage) -> Option<Edit> {
    Some(match damage {
        Damage::Extension => headers::extension,
        Damage::Magic => headers::magic,
        Damage::Version => headers::version,
        Damage::RootCount => headers::root_count,
        Damage::SizeLess => headers::size_less,
        Damage::SizeMore => headers::size_more,
        Damage::SizeUnder => headers::size_under,
        Damage::SizeHuge => headers::size_huge,
        Damage::PropertyCount => headers::property_count,
        Damage::ChildCount => headers::child_count,
        Damage::BytesAfter => headers::bytes_after,
        Damage::CutProperty => headers::cut_property,
        Damage::KindChange => nodes::kind_change,
        Damage::WrongPlace => nodes::wrong_place,
        Damage::UnknownAtTop => nodes::unknown_at_top,
        Damage::MeshAtTop => nodes::mesh_at_top,
        Damage::ManyNodes => nodes::many_nodes,
        Damage::DanglingLink => nodes::dangling_link,
        Damage::DoubledTarget => nodes::doubled_target,
        Damage::ManyProperties => properties::many_properties,
        Damage::UnknownType => properties::unknown_type,
        Damage::NameSize => properties::name_size,
        Damage::NameByte => properties::name_byte,
        Damage::StringLength => properties::string_length,
        Damage::StringWithoutZero => properties::string_without_zero,
        Damage::WrappingLength => properties::wrapping_length,
        Damage::NameTwice => properties::name_twice,
        Damage::WrongType => properties::wrong_type,
        Damage::WrongLength => properties::wrong_length,
        Damage::MissingRequired => properties::missing_required,
        Damage::MissingPartner => values::missing_partner,
        Damage::LayerLength => values::layer_length,
        Damage::WeightLength => values::weight_length,
        Damage::FaceValue => values::face_value,
        Damage::FaceLength => values::face_length,
        Damage::FlagValue => values::flag_value,
        Damage::StringValue => values::string_value,
        Damage::CurveType => values::curve_type,
        Damage::ShapeLengths => values::shape_lengths,
        Damage::KeyLengths => values::key_lengths,
        Damage::BoneParent => values::bone_parent,
        Damage::ByteChange
        | Damage::BitFlip
        | Damage::FieldChange
        | Damage::Cut
        | Damage::Splice
        | Damage::RandomBytes
        | Damage::RandomNodes
        | Damage::TwoFaults
        | Damage::ManyFaults => return None,
    })
}

fn finish(file: &File, fault: Fault) -> Damaged {
    let encoded = file.encode();
    let answer = fault.map(|(number, place)| (number, resolve(&encoded, place) as u32));
    Damaged {
        bytes: encoded.bytes,
        answer,
    }
}

fn resolve(encoded: &Encoded, place: Place) -> usize {
    match place {
        Place::At(offset) => offset,
        Place::Node(row) => encoded.nodes[row].offset,
        Place::Property(row, index) => encoded.nodes[row].properties[index].offset,
        Place::Rest(row) => encoded.nodes[row].rest,
    }
}

/// Faults of 13 to 17, which all come after those of the walk.
fn is_rule(kind: Damage) -> bool {
    (Damage::NameTwice..=Damage::DoubledTarget).contains(&kind)
}

/// Edits the tree by some kind that `wanted` takes.
fn some_edit(rng: &mut Rng, file: &mut File, wanted: impl Fn(Damage) -> bool) -> Option<Fault> {
    for _ in 0..40 {
        let kind = *rng.pick(ALL);
        let wanted = wanted(kind) && kind != Damage::ManyNodes;
        let Some(edit) = edit(kind).filter(|_| wanted) else {
            continue;
        };
        let mut edited = file.clone();
        if let Some(fault) = edit(rng, &mut edited) {
            *file = edited;
            return Some(fault);
        }
    }
    None
}

/// Two edits of one tree: which of the faults speaks depends on the order of
/// the refusals.
fn two_faults(rng: &mut Rng, file: &File) -> Option<Damaged> {
    let mut file = file.clone();
    let first_is_rule = rng.chance(85);
    let second_is_rule = rng.chance(60);
    // A doubled target moves the rows after it.
    let is_fixed = |kind| kind != Damage::DoubledTarget;
    let first = some_edit(rng, &mut file, |kind| {
        is_rule(kind) == first_is_rule && is_fixed(kind)
    })?;
    let second = some_edit(rng, &mut file, |kind| {
        is_rule(kind) == second_is_rule && is_fixed(kind)
    })?;
    let fault = match (first_is_rule, second_is_rule) {
        (true, false) => second,
        (true, true) => earlier(first, second),
        _ => None,
    };
    Some(finish(&file, fault))
}

/// Of two faults of 13 to 17 in different rows, the one that speaks.
fn earlier(first: Fault, second: Fault) -> Fault {
    let key = |(number, place): (u32, Place)| match place {
        Place::Node(row) | Place::Property(row, _) => Some((number > 15, row)),
        _ => None,
    };
    let (first, second) = (first?, second?);
    let (first_key, second_key) = (key(first)?, key(second)?);
    match first_key.1 == second_key.1 {
        true => None,
        false if first_key < second_key => Some(first),
        false => Some(second),
    }
}

/// Three to six edits of one tree, now and then a byte on top.
fn many_faults(rng: &mut Rng, file: &File) -> Option<Vec<u8>> {
    let mut file = file.clone();
    let rules_only = rng.chance(65);
    for _ in 0..rng.range(3, 6) {
        some_edit(rng, &mut file, |kind| is_rule(kind) || !rules_only)?;
    }
    let bytes = file.bytes();
    match rng.chance(10) {
        true => Some(bytes::byte_change(rng, bytes)),
        false => Some(bytes),
    }
}
