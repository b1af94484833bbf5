//! Walk.

use crate::answer::*;
use crate::candidates::Candidates;

/// A candidate count: its opening's place and its fields.
#[derive(Clone, Copy, PartialEq, Eq, Debug)]
pub struct Candidate {
    /// The opening's place.
    pub place: usize,
    /// The flag.
    pub flag: u8,
    /// The sector's number.
    pub s: u8,
    /// The key's length.
    pub kl: u8,
    /// The data's length.
    pub dl: u16,
}

/// A reader that keeps the lent pair and steps from candidate to candidate.
#[derive(Clone, Debug)]
pub struct Walk<'a> {
    candidates: Option<Candidates<'a>>,
}

impl<'a> Walk<'a> {
    /// A walk that has taken no step; judges the pair and looks for home.
    pub fn new(track: &'a [u8], marks: &'a [u8]) -> Walk<'a> {
        Walk {
            candidates: Candidates::of(track, marks),
        }
    }

    /// The next candidate, or answer 1 or 12 at this and every later step.
    pub fn step(&mut self) -> Result<Candidate, Answer> {
        let Some(candidates) = &mut self.candidates else {
            return Err(Answer::new(BAD_INPUT, 0));
        };
        let Some((span, fields)) = candidates.next() else {
            return Err(Answer::new(NOT_FOUND, 0));
        };
        Ok(Candidate {
            place: span.place,
            flag: fields.flag(),
            s: fields.s(),
            kl: fields.kl() as u8,
            dl: fields.dl as u16,
        })
    }
}
