//! The openings of the later counts of a track that is judged.

use crate::answer::*;
use crate::marks::{Marks, Places};
use crate::opening::{of_mark, TO_MARK};

/// The openings of the later counts, as long as every mark belongs to one.
pub struct Openings<'a> {
    track: &'a [u8],
    marks: &'a Marks<'a>,
    places: Places<'a>,
}

impl<'a> Openings<'a> {
    /// Before the first mark.
    #[inline(always)]
    pub fn of(track: &'a [u8], marks: &'a Marks<'a>) -> Openings<'a> {
        let places = marks.places();
        Openings {
            track,
            marks,
            places,
        }
    }

    /// Answer 5 for the first mark, or the opening it belongs to, which is not before a place.
    #[inline(always)]
    pub fn first(&mut self, least: usize) -> Result<Option<usize>, Answer> {
        match self.step()? {
            Some(place) if place < least => Err(stray(place + TO_MARK)),
            opening => Ok(opening),
        }
    }

    /// Answer 5 for the next mark, or the opening it belongs to, whose second mark is passed too.
    #[inline(always)]
    pub fn step(&mut self) -> Result<Option<usize>, Answer> {
        let Some(mark) = self.places.next() else {
            return Ok(None);
        };
        let Some(place) = of_mark(self.track, self.marks, mark) else {
            return Err(stray(mark));
        };
        self.places.next();
        Ok(Some(place))
    }

    /// Answer 5 for a mark further on, if there is one.
    #[cold]
    pub fn stray(&mut self) -> Option<Answer> {
        loop {
            match self.step() {
                Ok(None) => return None,
                Ok(Some(_)) => (),
                Err(refusal) => return Some(refusal),
            }
        }
    }
}

/// Answer 5 about a mark.
fn stray(mark: usize) -> Answer {
    Answer::new(STRAY_MARK, mark)
}
