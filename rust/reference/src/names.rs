//! Property names.

pub(crate) const MAX_NAME: usize = 32;

/// 1 to 32 bytes, none of them zero and none `A` to `Z`.
pub fn name_ok(name: &[u8]) -> bool {
    (1..=MAX_NAME).contains(&name.len()) && name_bytes_ok(name)
}

pub(crate) fn name_bytes_ok(name: &[u8]) -> bool {
    if name.len() >= 16 {
        return long_name_bytes_ok(name);
    }
    name.iter().all(|&b| b != 0 && !b.is_ascii_uppercase())
}

/// The same without an early way out, so that many bytes are tested at once. Apart, as few names are
/// long.
#[inline(never)]
fn long_name_bytes_ok(name: &[u8]) -> bool {
    let bad = |any, &byte: &u8| any | (byte == 0) | byte.is_ascii_uppercase();
    !name.iter().fold(false, bad)
}

/// The number in a name of the pattern `prefix%d`: one to three digits after the prefix, no leading
/// zero unless it is `0`.
pub fn numbered(prefix: &[u8], name: &[u8]) -> Option<u32> {
    let digits = name.strip_prefix(prefix)?;
    let shape = match digits {
        [b'0'] => true,
        [b'1'..=b'9', rest @ ..] => rest.len() <= 2 && rest.iter().all(u8::is_ascii_digit),
        _ => false,
    };
    let value = |n: u32, digit: &u8| n * 10 + u32::from(digit - b'0');
    shape.then(|| digits.iter().fold(0, value))
}

pub(crate) const KEY_BYTES: usize = 7;

/// A short stand-in for a name: its length, and its bytes or, of a name longer than seven, a mix of
/// them. Unequal keys are unequal names, and up to seven bytes equal keys are equal names.
pub(crate) const fn key(name: &[u8]) -> u64 {
    let mut mix: u64 = 0;
    let mut rest = name;
    while let Some((eight, after)) = rest.split_first_chunk::<8>() {
        mix = (mix ^ u64::from_le_bytes(*eight)).wrapping_mul(SPREAD);
        // The highest bits, which are cut off below, come down.
        mix ^= mix >> 32;
        rest = after;
    }
    let mut last = 0;
    while let Some((&byte, after)) = rest.split_first() {
        last = last << 8 | byte as u64;
        rest = after;
    }
    (mix ^ last) << 8 >> 8 | (name.len() as u64) << 56
}

/// An odd number whose bits are mixed, to multiply by.
pub(crate) const SPREAD: u64 = 0x9E37_79B9_7F4A_7C15;
