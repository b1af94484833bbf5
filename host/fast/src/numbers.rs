//! The numbers of a track's sectors.

use crate::answer::*;

/// The numbers of the sectors up to now.
#[derive(Default)]
pub struct Numbers {
    /// A bit for each.
    met: [u64; 4],
    /// The opening of the leftmost sector that repeats one.
    repeated: Option<usize>,
}

impl Numbers {
    /// Notes a sector's number.
    #[inline(always)]
    pub fn enter(&mut self, s: u8, place: usize) {
        let (word, bit) = (usize::from(s >> 6), 1 << (s & 63));
        if self.met[word] & bit != 0 {
            self.repeated.get_or_insert(place);
        }
        self.met[word] |= bit;
    }

    /// Answer 13.
    pub fn judge(&self) -> Result<(), Answer> {
        match self.repeated {
            Some(place) => Err(Answer::new(REPEATED, place)),
            None => Ok(()),
        }
    }
}
