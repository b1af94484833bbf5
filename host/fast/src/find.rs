//! Find.

use crate::answer::*;
use crate::candidates::Candidates;
use crate::opening::SHORT;
use crate::sector::{Sector, Span};
use std::ops::Range;

/// The part of a sector that is asked for.
#[derive(Clone, Copy, PartialEq, Eq, Debug)]
pub enum Part {
    /// The key.
    Key,
    /// The data.
    Data,
}

/// Find: where the key or data of the one candidate with this number stands.
pub fn find(track: &[u8], marks: &[u8], s: u8, part: Part) -> (Answer, Range<usize>) {
    match find_part(track, marks, s, part) {
        Ok(range) => (Answer::OK, range),
        Err(refusal) => (refusal, 0..0),
    }
}

/// Find's answers in their order, or the part.
fn find_part(track: &[u8], marks: &[u8], s: u8, part: Part) -> Result<Range<usize>, Answer> {
    let candidates = Candidates::of(track, marks).ok_or(Answer::new(BAD_INPUT, 0))?;
    let sector = only_sector(track, candidates, s)?;
    let (place, length) = match part {
        Part::Key => {
            sector.judge_key(track)?;
            (sector.blocks.key, sector.fields.kl())
        }
        Part::Data => {
            sector.judge_data(track)?;
            (sector.blocks.data, sector.fields.dl)
        }
    };
    Ok(place + SHORT..place + SHORT + length)
}

/// Answers 12, 13 and 9, or the one sector with this number.
#[inline(always)]
fn only_sector(track: &[u8], mut candidates: Candidates, s: u8) -> Result<Sector, Answer> {
    let refused = |number, span: Span| Err(Answer::new(number, span.place));
    let Some((span, fields)) = candidates.find(|(_, fields)| fields.s() == s) else {
        return Err(Answer::new(NOT_FOUND, 0));
    };
    if let Some((second, _)) = candidates.find(|(_, fields)| fields.s() == s) {
        return refused(REPEATED, second);
    }
    let blocks = span.blocks(track, &fields);
    if !span.has_blocks(&blocks) {
        return refused(SPAN, span);
    }
    Ok(Sector {
        span,
        fields,
        blocks,
    })
}
