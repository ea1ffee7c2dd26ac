//! Little-endian numbers at any place, read and written.

use crate::frame::{checksum, filled, Case, Cases};
use crate::function::{NUMBER_AT, PUT_U16, PUT_U32, PUT_U64, U16_AT, U32_AT, U64_AT};
use corpus::Rng;
use reference::{number_at, put_number};

/// Places in and about `len` bytes, and some that no sum with a width may pass.
fn place(rng: &mut Rng, len: usize) -> u64 {
    match rng.below(8) {
        0 => u64::MAX - rng.below(9) as u64,
        1 => rng.next_u64(),
        _ => rng.below(len + 10) as u64,
    }
}

pub fn add(cases: &mut Cases) {
    let mut rng = cases.rng(1);
    cases.sweep("numbers", 14);
    for _ in 0..cases.draws(300) {
        let len = rng.below(20);
        let bytes = rng.bytes(len);
        for (function, width) in [(U16_AT, 2), (U32_AT, 4), (U64_AT, 8)] {
            let x = place(&mut rng, len);
            let answer = number_at(&bytes, x as usize, width);
            let case = Case {
                function,
                first: &bytes,
                x,
                ..Case::default()
            };
            cases.add(&case, &[answer]);
        }
        for (function, width) in [(PUT_U16, 2), (PUT_U32, 4), (PUT_U64, 8)] {
            let (x, y, seed) = (place(&mut rng, len), rng.next_u64(), rng.next_u32());
            let mut out = filled(len, seed);
            put_number(&mut out, x as usize, y, width);
            let case = Case {
                function,
                first: &bytes,
                seed,
                x,
                y,
                ..Case::default()
            };
            cases.add(&case, &[checksum(&out)]);
        }
    }
    number_of_any_width(cases);
}

/// A width over four is taken as four.
fn number_of_any_width(cases: &mut Cases) {
    let mut rng = cases.rng(7);
    cases.sweep("any width", 20);
    for _ in 0..cases.draws(300) {
        let len = rng.below(20);
        let bytes = rng.bytes(len);
        let x = place(&mut rng, len);
        let y = match rng.below(8) {
            0 => *rng.pick(&[0x100, 0xFFFF, 0x1_0004, u32::MAX]),
            _ => rng.below(7) as u32,
        };
        let answer = number_at(&bytes, x as usize, y.min(4) as usize);
        let case = Case {
            function: NUMBER_AT,
            first: &bytes,
            x,
            y: y.into(),
            ..Case::default()
        };
        cases.add(&case, &[answer]);
    }
}
