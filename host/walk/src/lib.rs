//! A walk of the proved reader from its start, in one call, to be timed and compared with the reference.
//!
//! A step of Walk from any place is a call of the track library; no program that reads tracks needs this crate.
#![deny(missing_docs)]

use std::ffi::c_uchar;

extern "C" {
    fn walk_nth(
        track: *const c_uchar,
        track_length: usize,
        marks: *const c_uchar,
        marks_length: usize,
        n: u64,
    ) -> u64;
}

/// A count that the walk came to: its opening's place and its fields.
#[derive(Clone, Copy, PartialEq, Eq, Debug)]
pub struct Candidate {
    /// The place of its opening.
    pub place: usize,
    /// The flag byte.
    pub flag: u8,
    /// The sector's number.
    pub s: u8,
    /// The key's length.
    pub kl: u8,
    /// The data's length.
    pub dl: u16,
}

/// What a new reader gives at its step `n`, counted from 0: a candidate, or the number of the answer that refuses it.
///
/// ```
/// assert_eq!(walk::nth_candidate(&[], &[], 0), Err(1));
/// ```
pub fn nth_candidate(track: &[u8], marks: &[u8], n: usize) -> Result<Candidate, u8> {
    // SAFETY: the proved function reads these bytes, of any number and value, and keeps none.
    let word = unsafe {
        walk_nth(
            track.as_ptr(),
            track.len(),
            marks.as_ptr(),
            marks.len(),
            n as u64,
        )
    };
    let bits = |from: u32, to: u32| word >> from & ((1 << (to - from)) - 1);
    match bits(0, 8) as u8 {
        0 => Ok(Candidate {
            place: bits(16, 32) as usize,
            flag: bits(8, 16) as u8,
            s: bits(32, 40) as u8,
            kl: bits(40, 48) as u8,
            dl: bits(48, 64) as u16,
        }),
        number => Err(number),
    }
}
