//! Little-endian numbers and the search for a string's end.

pub(crate) fn u16_at(bytes: &[u8], at: usize) -> u16 {
    u16::from_le_bytes([bytes[at], bytes[at + 1]])
}

pub(crate) fn u32_at(bytes: &[u8], at: usize) -> u32 {
    u32::from_le_bytes([bytes[at], bytes[at + 1], bytes[at + 2], bytes[at + 3]])
}

/// The first eight bytes; 0 where there are fewer.
pub(crate) fn first_u64(bytes: &[u8]) -> u64 {
    bytes
        .first_chunk()
        .map_or(0, |first| u64::from_le_bytes(*first))
}

/// The offset of the first zero byte. Whole blocks are tested at once, so that a long string costs
/// little more than reading it.
pub(crate) fn find_zero(bytes: &[u8]) -> Option<usize> {
    const BLOCK: usize = 64;
    let blocks = bytes.chunks_exact(BLOCK);
    let without = blocks
        .take_while(|block| !block.iter().fold(false, |zero, &byte| zero | (byte == 0)))
        .count();
    let start = without * BLOCK;
    let offset = bytes[start..].iter().position(|&byte| byte == 0)?;
    Some(start + offset)
}
