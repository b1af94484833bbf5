//! Judging a whole track.

use crate::answer::*;
use crate::home::{address_in_range, Home, TO_COUNT, TO_COUNT_END};
use crate::marks::Marks;
use crate::numbers::Numbers;
use crate::opening::{short_at, LONG, SHORT};
use crate::openings::Openings;
use crate::sector::{Sector, Span, BEFORE_INDEX, BEFORE_OPENING};

/// Accept: the first rule a track breaks, or 0.
pub fn accept(track: &[u8], marks: &[u8]) -> Answer {
    match judge(track, marks, |_| ()) {
        Ok(()) => Answer::OK,
        Err(refusal) => refusal,
    }
}

/// All rules of Accept in one pass from mark to mark; shows each sector as it is judged, also of a track that is refused later.
#[inline(always)]
pub fn judge(track: &[u8], marks: &[u8], mut show: impl FnMut(&Sector)) -> Result<(), Answer> {
    let marks = Marks::of(track, marks).ok_or(Answer::new(BAD_INPUT, 0))?;
    let home = Home::judge(track, &marks)?;
    let mut openings = Openings::of(track, &marks);
    let mut numbers = Numbers::default();
    let mut pass = |sector: Sector| {
        show(&sector);
        numbers.enter(sector.fields.s(), sector.span.place);
        sector.fields.flag_and_address() ^ B8
    };
    let mut next = openings.first(home.place + TO_COUNT_END)?;
    let span = span_between(home.place + TO_COUNT, SHORT, next, track.len());
    let mut wanted = match judge_first(track, span, &home) {
        Ok(sector) => pass(sector),
        Err(refusal) => return Err(openings.stray().unwrap_or(refusal)),
    };
    while let Some(place) = next {
        next = openings.step()?;
        let span = span_between(place, LONG, next, track.len());
        wanted = match judge_later(track, span, wanted) {
            Ok(sector) => pass(sector),
            Err(refusal) => return Err(openings.stray().unwrap_or(refusal)),
        };
    }
    numbers.judge()
}

/// B8 and B7 of a flag.
const B8: u64 = 0x80;
const B7: u64 = 0x40;

/// Answers 6 to 11 about sector 0, or what it has.
#[inline(never)]
fn judge_first(track: &[u8], span: Span, home: &Home) -> Result<Sector, Answer> {
    if !short_at(track, span.place) {
        return Err(Answer::new(NO_COUNT, span.place));
    }
    judge_sector(track, span, |stored| first_fields_right(home, stored))
}

/// Answers 7 to 11 about a later sector, which has the wanted flag, cylinder and head but for B7.
#[inline(always)]
fn judge_later(track: &[u8], span: Span, wanted: u64) -> Result<Sector, Answer> {
    judge_sector(track, span, |stored| (stored ^ wanted) & !B7 == 0)
}

/// Flag, cylinder and head of sector 0: home's, or with flags 01 and 10 another address in range.
fn first_fields_right(home: &Home, stored: u64) -> bool {
    match home.flag() {
        0 | 3 => stored == home.fields,
        flag => stored as u8 == flag && stored != home.fields && address_in_range(stored),
    }
}

/// Answers 7 to 11 about a sector, or what it has.
#[inline(always)]
fn judge_sector(track: &[u8], span: Span, right: impl Fn(u64) -> bool) -> Result<Sector, Answer> {
    let refused = |number| Err(Answer::new(number, span.place));
    if !span.has_count() {
        return refused(SPAN);
    }
    let Some(fields) = span.fields(track) else {
        return refused(COUNT_CHECK);
    };
    if !right(fields.flag_and_address()) {
        return refused(COUNT_FIELDS);
    }
    let blocks = span.blocks(track, &fields);
    if !span.has_blocks(&blocks) {
        return refused(SPAN);
    }
    let sector = Sector {
        span,
        fields,
        blocks,
    };
    sector.judge_key(track)?;
    sector.judge_data(track)?;
    Ok(sector)
}

/// The span of a count with an opening of a length, up to the next opening or to index.
#[inline(always)]
fn span_between(place: usize, opening: usize, next: Option<usize>, index: usize) -> Span {
    let (end, gap) = match next {
        Some(next) => (next, BEFORE_OPENING),
        None => (index, BEFORE_INDEX),
    };
    Span {
        place,
        information: place + opening,
        end,
        gap,
    }
}
