//! The Cast file format under the house's rules: reader, lookup, writer, trimmer, tally and listing.
//!
//! Every function answers for any bytes, tables and numbers. Answers carry the number of the refusal,
//! or 0, and its place.
#![forbid(unsafe_code)]

mod bytes;
mod check;
mod faces;
mod kinds;
mod links;
mod listing;
mod lookup;
mod names;
mod numbers;
mod property;
mod read;
mod rules;
mod table;
mod tally;
mod trimmer;
mod types;
mod walk;
mod writer;

pub use kinds::{known, may_stand};
pub use listing::listing;
pub use lookup::{lookup, Found};
pub use names::{name_ok, numbered};
pub use numbers::{number_at, put_number};
pub use property::{body_exact, index, step, Index, Step};
pub use read::{read, Reading};
pub use table::{clear, is_whole, put_row, row, NO_PARENT, TABLE_NUMBERS};
pub use tally::Tally;
pub use trimmer::trim;
pub use types::{element_size, is_string};
pub use walk::walk;
pub use writer::{write, Written};

/// Why bytes or rows are not taken.
#[derive(Clone, Copy)]
struct Refusal {
    number: u32,
    place: u32,
}
