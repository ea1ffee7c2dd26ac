//! The cases that the program `crates/vectors` runs, and the answers that it must print.
//!
//! A case is a frame on the program's standard input (the layout is in `crates/vectors/src/frame.rt`), and a line on its
//! standard output: the function's number, then the answer and a checksum of each lent buffer. The inputs come from
//! `corpus`, the answers from `reference`. The functions' numbers are listed in [`function`].
//!
//! [`samples`] makes the files of `samples/` likewise.

#![forbid(unsafe_code)]

mod frame;
mod keep;
mod kinds;
mod listings;
mod lookups;
mod names;
mod numbers;
mod properties;
mod reads;
pub mod samples;
mod table;
mod trims;
mod types;
mod walks;
mod writes;

use frame::Cases;
use keep::Wanted;

/// The functions by number, as `crates/vectors` knows them.
pub mod function {
    pub const U16_AT: u32 = 1;
    pub const U32_AT: u32 = 2;
    pub const U64_AT: u32 = 3;
    pub const PUT_U16: u32 = 4;
    pub const PUT_U32: u32 = 5;
    pub const PUT_U64: u32 = 6;
    pub const NUMBER_AT: u32 = 7;

    pub const SIZE_OF: u32 = 10;
    pub const NAME_OK: u32 = 11;
    pub const SAME: u32 = 12;
    pub const NUMBERED: u32 = 13;
    pub const KNOWN: u32 = 14;
    pub const MAY_STAND: u32 = 15;
    pub const STEP: u32 = 16;
    pub const INDEX: u32 = 17;
    pub const EXACT: u32 = 18;
    pub const TABLE: u32 = 19;
    pub const LOOKUP: u32 = 20;

    pub const WALK: u32 = 30;
    pub const READ: u32 = 31;
    pub const LIST: u32 = 32;
    pub const LINE: u32 = 33;
    pub const WRITE: u32 = 34;
    pub const WRITE_PARTS: u32 = 35;
    pub const TRIM: u32 = 36;

    pub const ALL: [u32; 25] = [
        U16_AT,
        U32_AT,
        U64_AT,
        PUT_U16,
        PUT_U32,
        PUT_U64,
        NUMBER_AT,
        SIZE_OF,
        NAME_OK,
        SAME,
        NUMBERED,
        KNOWN,
        MAY_STAND,
        STEP,
        INDEX,
        EXACT,
        TABLE,
        LOOKUP,
        WALK,
        READ,
        LIST,
        LINE,
        WRITE,
        WRITE_PARTS,
        TRIM,
    ];
}

/// The whole of standard input, the whole of standard output, and the number of cases.
#[derive(Default)]
pub struct Vectors {
    pub stdin: Vec<u8>,
    pub stdout: Vec<u8>,
    pub cases: usize,
}

/// The kept cases, the same at every call.
pub fn make() -> Vectors {
    make_wanted(Wanted {
        draws: 1,
        seed: 0,
        thinned: true,
    })
}

/// All cases, none left out, with `draws` times as many drawn ones as [`make`] takes its own from. With seed 0 and one
/// time as many draws they are the cases that it takes them from.
pub fn make_all(draws: usize, seed: u32) -> Vectors {
    make_wanted(Wanted {
        draws,
        seed,
        thinned: false,
    })
}

fn make_wanted(wanted: Wanted) -> Vectors {
    let mut cases = Cases::new(wanted);
    numbers::add(&mut cases);
    types::add(&mut cases);
    names::add(&mut cases);
    kinds::add(&mut cases);
    properties::add(&mut cases);
    table::add(&mut cases);
    lookups::add(&mut cases);
    walks::add(&mut cases);
    reads::add(&mut cases);
    listings::add(&mut cases);
    writes::add(&mut cases);
    trims::add(&mut cases);
    cases.finish()
}
