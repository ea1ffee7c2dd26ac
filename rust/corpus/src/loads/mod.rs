//! Inputs for measurements, beside those of [`crate::large`].
//!
//! * [`scenes`] has valid files of many nodes, of a number that is given.
//! * [`grown`] has valid files of few nodes, of a length that is given.
//! * [`drawn`] draws files that a reader may be slow on, valid ones and
//!   refused ones; [`slow`] has the slowest sorts that were found.

pub mod drawn;
mod faces;
pub mod grown;
mod hashes;
mod names;
pub mod scenes;
pub mod slow;
