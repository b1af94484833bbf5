//! A plain implementation of the ISO 3561 track format, from index to index.
//!
//! It is written for comparison: short, direct and without any dependency.
//! A track is given as two byte slices of equal length, the bytes and the marks.
//! The tracks of a cylinder stand one after the other in such a pair of slices, with a list of their lengths.
#![forbid(unsafe_code)]

mod accept;
pub mod answer;
mod bit_cells;
pub mod check;
mod cylinder;
mod gap;
pub mod generate;
pub mod layout;
mod read;
mod tracklist;
mod write;

pub use accept::accept;
pub use answer::Answer;
pub use bit_cells::{from_cells, to_cells};
pub use cylinder::{read_cylinder, write_cylinder};
pub use gap::GapRule;
pub use layout::Address;
pub use read::{find, list, pair_find, walk_from, Candidate, Part, Sector, Walk};
pub use tracklist::tracklist;
pub use write::{add, blank, correct};
