//! The reading calls: List, Find, Walk and Pair find.

use crate::accept::{judge, judge_first_count, judge_home, Judged, Placed};
use crate::answer::*;
use crate::layout::*;
use std::ops::Range;

/// A listed sector.
#[derive(Clone, Copy, PartialEq, Eq, Debug, Default)]
pub struct Sector {
    pub flag: u8,
    pub s: u8,
    pub kl: u8,
    pub dl: u16,
    pub key_place: usize,
    pub data_place: usize,
    /// The place after the data block's last byte.
    pub end: usize,
    /// How many bytes follow it up to the next count's opening, or up to index.
    pub gap: usize,
}

impl Sector {
    /// The record as eight numbers: flag, S, KL, DL, places of key and data, end and gap.
    pub fn row(&self) -> [u16; 8] {
        let places = [self.key_place, self.data_place, self.end, self.gap];
        let [key, data, end, gap] = places.map(|place| place as u16);
        let (flag, s, kl) = (self.flag.into(), self.s.into(), self.kl.into());
        [flag, s, kl, self.dl, key, data, end, gap]
    }
}

/// The part of a sector that is asked for.
#[derive(Clone, Copy, PartialEq, Eq, Debug)]
pub enum Part {
    Key,
    Data,
}

/// A count that can be read on a track of any quality.
#[derive(Clone, Copy, PartialEq, Eq, Debug)]
pub struct Candidate {
    pub place: usize,
    pub flag: u8,
    pub s: u8,
    pub kl: u8,
    pub dl: u16,
}

/// List: the sectors of an accepted track, and their number.
pub fn list(track: &[u8], marks: &[u8], out: &mut [Sector]) -> (Answer, usize) {
    if out.len() < MOST_SECTORS {
        return (Answer::new(BAD_INPUT, 0), 0);
    }
    match judge(track, marks) {
        Err(answer) => (answer, 0),
        Ok(judged) => {
            for (record, placed) in out.iter_mut().zip(&judged.sectors) {
                *record = sector_record(placed);
            }
            (Answer::OK, judged.sectors.len())
        }
    }
}

/// The record of one sector; information starts after a six-byte opening, and the span ends at the next one or at index.
fn sector_record(placed: &Placed) -> Sector {
    Sector {
        flag: placed.fields.flag,
        s: placed.fields.s,
        kl: placed.fields.kl,
        dl: placed.fields.dl,
        key_place: placed.blocks.key.map_or(0, |opening| opening + 6),
        data_place: placed.blocks.data + 6,
        end: placed.blocks.end,
        gap: placed.count.span.end - placed.blocks.end,
    }
}

/// Find: the key or data of the one readable count with this number.
pub fn find(track: &[u8], marks: &[u8], s: u8, part: Part) -> (Answer, Range<usize>) {
    match find_part(track, marks, s, part) {
        Ok(range) => (Answer::OK, range),
        Err(answer) => (answer, 0..0),
    }
}

/// Find's answers in their order: 1, 12, 13, 9, then 10 or 11.
fn find_part(track: &[u8], marks: &[u8], s: u8, part: Part) -> Result<Range<usize>, Answer> {
    if !readable(track, marks) {
        return Err(Answer::new(BAD_INPUT, 0));
    }
    let (count, fields) = only_count(track, marks, s)?;
    let blocks = count.blocks(track, &fields);
    if !count.blocks_fit(&blocks) {
        return Err(Answer::new(SPAN, count.place));
    }
    match part {
        Part::Key => key_part(track, &blocks, fields.kl),
        Part::Data => data_part(track, &blocks, fields.dl),
    }
}

/// Answers 12 and 13: exactly one candidate carries the number.
fn only_count(track: &[u8], marks: &[u8], s: u8) -> Result<(Count, Fields), Answer> {
    let first_place = first_count_place(track, marks);
    let mut carrying = (0..track.len())
        .filter_map(|place| candidate_at(track, marks, first_place, place))
        .filter(|(_, fields)| fields.s == s);
    let Some(found) = carrying.next() else {
        return Err(Answer::new(NOT_FOUND, 0));
    };
    match carrying.next() {
        Some((second, _)) => Err(Answer::new(REPEATED, second.place)),
        None => Ok(found),
    }
}

/// Answer 10, and the key's information.
fn key_part(track: &[u8], blocks: &Blocks, kl: u8) -> Result<Range<usize>, Answer> {
    let Some(opening) = blocks.key else {
        return Ok(0..0);
    };
    key_right(track, opening, kl).map_err(|fault| Answer::block(KEY, fault, opening))?;
    let start = opening + 6;
    Ok(start..start + usize::from(kl))
}

/// Answer 11, and the data's information.
fn data_part(track: &[u8], blocks: &Blocks, dl: u16) -> Result<Range<usize>, Answer> {
    let opening = blocks.data;
    data_right(track, opening, dl).map_err(|fault| Answer::block(DATA, fault, opening))?;
    let start = opening + 6;
    Ok(start..start + usize::from(dl))
}

/// Place of the first count: after the home opening, whatever home's check.
fn first_count_place(track: &[u8], marks: &[u8]) -> Option<usize> {
    let place = find_home(track, marks)? + HOME_TO_COUNT;
    unmarked_opening_at(track, marks, place).then_some(place)
}

/// A candidate: an opening whose count lies in its span and passes check and end byte.
fn candidate_at(
    track: &[u8],
    marks: &[u8],
    first_place: Option<usize>,
    place: usize,
) -> Option<(Count, Fields)> {
    let count = if first_place == Some(place) {
        first_count(marks, place)
    } else if marked_opening_at(track, marks, place) {
        later_count(marks, place)
    } else {
        return None;
    };
    (count.fits() && count.trailer_right(track)).then(|| (count, count.fields(track)))
}

/// The leftmost candidate from a place on, or answer 12.
fn next_candidate(track: &[u8], marks: &[u8], from: usize) -> Result<Candidate, Answer> {
    let first_place = first_count_place(track, marks);
    (from..track.len())
        .find_map(|place| candidate_at(track, marks, first_place, place))
        .map(|(count, fields)| Candidate {
            place: count.place,
            flag: fields.flag,
            s: fields.s,
            kl: fields.kl,
            dl: fields.dl,
        })
        .ok_or(Answer::new(NOT_FOUND, 0))
}

/// Walk without state: the first candidate whose opening stands at `from` or later.
pub fn walk_from(track: &[u8], marks: &[u8], from: usize) -> Result<Candidate, Answer> {
    if !readable(track, marks) {
        return Err(Answer::new(BAD_INPUT, 0));
    }
    next_candidate(track, marks, from)
}

/// Walk: steps over the candidates from left to right.
#[derive(Clone, Debug)]
pub struct Walk<'a> {
    track: &'a [u8],
    marks: &'a [u8],
    readable: bool,
    next: usize,
}

impl<'a> Walk<'a> {
    /// A walk that has taken no step yet.
    pub fn new(track: &'a [u8], marks: &'a [u8]) -> Walk<'a> {
        Walk {
            track,
            marks,
            readable: readable(track, marks),
            next: 0,
        }
    }

    /// The next candidate, or answer 1 or 12 at this and every later step.
    pub fn step(&mut self) -> Result<Candidate, Answer> {
        if !self.readable {
            return Err(Answer::new(BAD_INPUT, 0));
        }
        let found = next_candidate(self.track, self.marks, self.next);
        self.next = match &found {
            Ok(candidate) => candidate.place + 1,
            Err(_) => self.track.len(),
        };
        found
    }
}

/// Pair find: the part from the first track, or from its alternative; says which track it speaks of.
pub fn pair_find(
    first: (&[u8], &[u8]),
    second: (&[u8], &[u8]),
    s: u8,
    part: Part,
) -> (Answer, u8, Range<usize>) {
    match holder(first, second) {
        Err((answer, which)) => (answer, which, 0..0),
        Ok(0) => {
            let (answer, range) = find(first.0, first.1, s, part);
            (answer, 0, range)
        }
        Ok(which) => {
            let (answer, range) = find(second.0, second.1, s, part);
            (answer, which, range)
        }
    }
}

/// Which track holds the records, by the first one's flag; a refusal says which track it is about.
fn holder(first: (&[u8], &[u8]), second: (&[u8], &[u8])) -> Result<u8, (Answer, u8)> {
    let home = judge_home(first.0, first.1).map_err(|answer| (answer, 0))?;
    let (_, fields) = judge_first_count(first.0, first.1, &home).map_err(|answer| (answer, 0))?;
    match home.flag {
        0 | 1 => Ok(0),
        2 => {
            let other = judge(second.0, second.1).map_err(|answer| (answer, 1))?;
            if belong_together(&home, fields.address, &other) {
                Ok(1)
            } else {
                Err((Answer::new(PAIR, 0), 0))
            }
        }
        _ => Err((Answer::new(PAIR, 0), 0)),
    }
}

/// Rule of the pair: the second is an alternative, is the one named, and names the first.
fn belong_together(home: &Home, named: Address, other: &Judged) -> bool {
    other.home.flag == 1
        && other.home.address == named
        && other.sectors[0].fields.address == home.address
}
