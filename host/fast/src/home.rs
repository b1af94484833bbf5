//! The home address.

use crate::answer::*;
use crate::marks::Marks;
use crate::opening::{unmarked_at, SHORT};
use crate::words::{eight_at, first, folded};

/// First and last place at which home may start.
const FIRST: usize = 23;
const LAST: usize = 37;
/// From home to the count of sector 0: 14 bytes and a gap of 11.
pub const TO_COUNT: usize = 25;
/// From home to the end of sector 0's count.
pub const TO_COUNT_END: usize = TO_COUNT + 18;
/// The closing byte of home, counts, keys and data blocks.
pub const CLOSING_BYTE: u8 = 0xCC;

/// Home as read: its place and its flag, cylinder and head as they are stored.
#[derive(Clone, Copy)]
pub struct Home {
    /// Where it opens.
    pub place: usize,
    /// Five bytes, the flag lowest.
    pub fields: u64,
}

/// Home's place: the first in its window where it opens.
#[inline(always)]
pub fn find_home(track: &[u8], marks: &Marks) -> Option<usize> {
    (FIRST..=LAST).find(|&place| unmarked_at(track, marks, place))
}

/// Whether cylinder and head, stored behind a flag, are in range.
pub fn address_in_range(fields: u64) -> bool {
    let stored = |shift: u32| ((fields >> shift) as u16).swap_bytes();
    stored(8) <= 202 && stored(24) <= 9
}

impl Home {
    /// Answers 2 to 4, or home.
    #[inline(always)]
    pub fn judge(track: &[u8], marks: &Marks) -> Result<Home, Answer> {
        let Some(place) = find_home(track, marks) else {
            return Err(Answer::new(NO_HOME, FIRST));
        };
        let stored = eight_at(track, place + SHORT);
        let closed = stored >> 56 == u64::from(CLOSING_BYTE);
        if folded(stored & first(7)) != 0xFFFF || !closed {
            return Err(Answer::new(HOME_CHECK, place));
        }
        let fields = stored & first(5);
        if fields & 0xFF > 3 || !address_in_range(fields) {
            return Err(Answer::new(HOME_FIELDS, place));
        }
        Ok(Home { place, fields })
    }

    /// The flag, 0 to 3.
    #[inline(always)]
    pub fn flag(&self) -> u8 {
        self.fields as u8
    }
}
