//! Accept, Find, Walk, Add and Correct for ISO 3561 tracks, written for speed and without proof.
//!
//! It is what the times of the proved library are measured by: no allocation, no unsafe code, and every mark and every information byte is gone over once.
//! A track is given as two byte slices of equal length, the bytes and the marks.
#![forbid(unsafe_code)]
#![deny(missing_docs)]

mod accept;
mod add;
pub mod answer;
mod candidates;
mod correct;
mod find;
mod gap;
mod home;
mod image;
mod marks;
mod numbers;
mod opening;
mod openings;
mod sector;
mod sectors;
mod walk;
mod words;

pub use accept::accept;
pub use add::add;
pub use answer::Answer;
pub use correct::correct;
pub use find::{find, Part};
pub use gap::GapRule;
pub use walk::{Candidate, Walk};
