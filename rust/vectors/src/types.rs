//! Element sizes by type code.

use crate::frame::{Case, Cases};
use crate::function::SIZE_OF;
use corpus::format::TYPES;
use reference::{element_size, is_string};

fn add_code(cases: &mut Cases, code: u16) {
    let case = Case {
        function: SIZE_OF,
        x: code.into(),
        ..Case::default()
    };
    let answer = match element_size(code) {
        Some(size) => [1, size.into()],
        None if is_string(code) => [2, 0],
        None => [0, 0],
    };
    cases.add(&case, &answer);
}

pub fn add(cases: &mut Cases) {
    let mut rng = cases.rng(10);
    cases.sweep("types", 60);
    for code in TYPES {
        for near in [code, code - 1, code + 1, code.swap_bytes()] {
            add_code(cases, near);
        }
        for bit in 0..u16::BITS {
            add_code(cases, code ^ 1 << bit);
        }
    }
    for code in [0, 0xFF, 0x100, 0x7600, 0x8000, u16::MAX] {
        add_code(cases, code);
    }
    cases.sweep("types: drawn", 4);
    for _ in 0..cases.draws(60) {
        add_code(cases, rng.next_u32() as u16);
    }
}
