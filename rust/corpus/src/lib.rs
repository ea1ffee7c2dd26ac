//! Seeded generators of Cast files and of the inputs built on them.
//!
//! * [`valid`] makes files that every rule accepts, [`large`] makes big ones.
//! * [`worked`] has the worked files of the rules, [`samples`] the files of
//!   `samples/`.
//! * [`mutate`] damages a valid file and, where one fault decides, says which
//!   refusal must follow.
//! * [`plans`], [`trims`] and [`lookups`] make inputs of the writer, the
//!   trimmer and the property lookup.
//!
//! Everything is a function of a seed: the same seed gives the same bytes on
//! every machine.

#![forbid(unsafe_code)]

/// An enum whose cases have names, with the list `ALL` of its cases.
macro_rules! named {
    ($(#[$doc:meta])* $enum:ident: $($variant:ident $name:literal),* $(,)?) => {
        $(#[$doc])*
        #[derive(Clone, Copy, Debug, PartialEq, Eq, PartialOrd, Ord, Hash)]
        pub enum $enum { $($variant),* }

        /// Every case, in order.
        pub const ALL: &[$enum] = &[$($enum::$variant),*];

        impl $enum {
            pub fn name(self) -> &'static str {
                match self { $($enum::$variant => $name),* }
            }
        }
    };
}

pub mod expect;
pub mod format;
pub mod large;
pub mod loads;
pub mod lookups;
pub mod mutate;
pub mod plans;
pub mod rng;
pub mod rows;
pub mod samples;
pub mod tree;
pub mod trims;
pub mod valid;
pub mod worked;

pub use rng::Rng;
