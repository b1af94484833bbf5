//! The openings of home, counts and blocks.

use crate::marks::Marks;
use crate::words::{eight_at, first};

/// Length of the opening of home, sector 0's count, key and data block.
pub const SHORT: usize = 6;
/// Length of the opening of a later count.
pub const LONG: usize = 8;
/// From a later count's opening to its first mark.
pub const TO_MARK: usize = 5;

/// `00 00 00 00 FF 0E`
const SHORT_BYTES: u64 = 0x0EFF_0000_0000;
/// `00 00 00 00 FF FF FF 0E`
const LONG_BYTES: u64 = 0x0EFF_FFFF_0000_0000;
/// Marks on the second and third `FF`.
const LONG_MARKS: u64 = 0x0001_0100_0000_0000;

/// Whether the short opening's bytes stand at a place, whatever the marks.
#[inline(always)]
pub fn short_at(track: &[u8], place: usize) -> bool {
    eight_at(track, place) & first(SHORT) == SHORT_BYTES
}

/// Whether the short opening stands at a place without marks.
#[inline(always)]
pub fn unmarked_at(track: &[u8], marks: &Marks, place: usize) -> bool {
    short_at(track, place) && marks.eight_at(place) & first(SHORT) == 0
}

/// The place of the whole long opening whose first mark stands here.
#[inline(always)]
pub fn of_mark(track: &[u8], marks: &Marks, mark: usize) -> Option<usize> {
    let place = mark.checked_sub(TO_MARK)?;
    let whole = place + LONG <= track.len()
        && eight_at(track, place) == LONG_BYTES
        && marks.eight_at(place) == LONG_MARKS;
    whole.then_some(place)
}
