//! Little-endian numbers at any place, also where their bytes are not all there.

/// The most bytes a number has.
const WIDEST: usize = 8;

/// The little-endian number of `width` bytes (at most 8) at a place. A byte past the end counts as
/// zero.
pub fn number_at(bytes: &[u8], at: usize, width: usize) -> u64 {
    let there = bytes.get(at..).unwrap_or_default();
    let mut number = [0; WIDEST];
    for (digit, &byte) in number.iter_mut().zip(there).take(width) {
        *digit = byte;
    }
    u64::from_le_bytes(number)
}

/// Writes the lowest `width` bytes (at most 8) of a number at a place, little-endian. A byte whose
/// place is not there is not written; all else stays.
pub fn put_number(out: &mut [u8], at: usize, number: u64, width: usize) {
    let there = out.get_mut(at..).unwrap_or_default();
    for (byte, digit) in there.iter_mut().zip(number.to_le_bytes()).take(width) {
        *byte = digit;
    }
}
