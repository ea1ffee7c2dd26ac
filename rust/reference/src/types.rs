//! Type codes of properties.

pub(crate) const BYTE: u16 = 0x62;
pub(crate) const SHORT: u16 = 0x68;
pub(crate) const INTEGER: u16 = 0x69;
pub(crate) const LONG: u16 = 0x6C;
pub(crate) const FLOAT: u16 = 0x66;
pub(crate) const DOUBLE: u16 = 0x64;
pub(crate) const VECTOR2: u16 = 0x7632;
pub(crate) const VECTOR3: u16 = 0x7633;
pub(crate) const VECTOR4: u16 = 0x7634;
pub(crate) const STRING: u16 = 0x73;

/// Bytes of one element; `None` for a string, whose size is found in its data, and for no type.
pub fn element_size(type_code: u16) -> Option<u32> {
    match type_code {
        BYTE => Some(1),
        SHORT => Some(2),
        INTEGER | FLOAT => Some(4),
        LONG | DOUBLE | VECTOR2 => Some(8),
        VECTOR3 => Some(12),
        VECTOR4 => Some(16),
        _ => None,
    }
}

pub fn is_string(type_code: u16) -> bool {
    type_code == STRING
}
