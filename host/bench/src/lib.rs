//! The packs that times are measured on: how their tracks are made, and the files they stand in.

pub mod first_written;
pub mod packs;

/// Bytes and marks of one track.
pub type Track = (Vec<u8>, Vec<u8>);
