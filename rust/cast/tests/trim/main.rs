//! The proved trimmer against the independent one, and lists of trimmings against the tally.

mod check;
mod edges;
mod lists;
