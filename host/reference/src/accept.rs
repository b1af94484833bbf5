//! Judging a whole track.

use crate::answer::*;
use crate::layout::*;

/// A sector of an accepted track.
#[derive(Clone, Copy, Debug)]
pub struct Placed {
    pub count: Count,
    pub fields: Fields,
    pub blocks: Blocks,
}

/// An accepted track: its home address and its sectors from left to right.
#[derive(Clone, Debug)]
pub struct Judged {
    pub home: Home,
    pub sectors: Vec<Placed>,
}

/// Accept: the first rule a track breaks, or 0.
pub fn accept(track: &[u8], marks: &[u8]) -> Answer {
    match judge(track, marks) {
        Ok(_) => Answer::OK,
        Err(answer) => answer,
    }
}

/// All rules of Accept in their order.
pub fn judge(track: &[u8], marks: &[u8]) -> Result<Judged, Answer> {
    let home = judge_home(track, marks)?;
    judge_marks(track, marks, &home)?;
    let mut sectors = vec![judge_first_sector(track, marks, &home)?];
    for place in 0..track.len() {
        if marked_opening_at(track, marks, place) {
            let count = later_count(marks, place);
            let sector = judge_later_sector(track, &count, &home, &sectors)?;
            sectors.push(sector);
        }
    }
    judge_numbers(&sectors)?;
    Ok(Judged { home, sectors })
}

/// Answers 1 to 4: input, then place, check and fields of the home address.
pub fn judge_home(track: &[u8], marks: &[u8]) -> Result<Home, Answer> {
    if !readable(track, marks) {
        return Err(Answer::new(BAD_INPUT, 0));
    }
    let Some(place) = find_home(track, marks) else {
        return Err(Answer::new(NO_HOME, FIRST_HOME));
    };
    if !trailer_right(track, place + 6..place + 6 + HOME_INFORMATION) {
        return Err(Answer::new(HOME_CHECK, place));
    }
    let home = home_at(track, place);
    if home.flag > 3 || !home.address.in_range() {
        return Err(Answer::new(HOME_FIELDS, place));
    }
    Ok(home)
}

/// Answer 5: every mark belongs to a whole opening right of the first count.
fn judge_marks(track: &[u8], marks: &[u8], home: &Home) -> Result<(), Answer> {
    for place in 0..marks.len() {
        if marks[place] == 1 {
            let opening = opening_of_mark(track, marks, place);
            if opening.is_none_or(|start| start < home.place + HOME_TO_COUNT_END) {
                return Err(Answer::new(STRAY_MARK, place));
            }
        }
    }
    Ok(())
}

/// The whole opening of which a mark is the sixth or seventh byte.
fn opening_of_mark(track: &[u8], marks: &[u8], mark: usize) -> Option<usize> {
    [5, 6]
        .into_iter()
        .filter_map(|offset| mark.checked_sub(offset))
        .find(|&start| marked_opening_at(track, marks, start))
}

/// Sector 0: answer 6, then the rules of every sector.
fn judge_first_sector(track: &[u8], marks: &[u8], home: &Home) -> Result<Placed, Answer> {
    let (count, fields) = judge_first_count(track, marks, home)?;
    judge_blocks(track, &count, &fields)
}

/// Count of sector 0: answers 6, 9, 7 and 8.
pub fn judge_first_count(
    track: &[u8],
    marks: &[u8],
    home: &Home,
) -> Result<(Count, Fields), Answer> {
    let place = home.place + HOME_TO_COUNT;
    if !unmarked_opening_at(track, marks, place) {
        return Err(Answer::new(NO_COUNT, place));
    }
    let count = first_count(marks, place);
    let fields = judge_count(track, &count)?;
    if fields.flag != home.flag || !address_allowed(home, fields.address) {
        return Err(Answer::new(COUNT_FIELDS, place));
    }
    Ok((count, fields))
}

/// A sector after the first: answers 9, 7, 8, 9, 10 and 11.
fn judge_later_sector(
    track: &[u8],
    count: &Count,
    home: &Home,
    before: &[Placed],
) -> Result<Placed, Answer> {
    let fields = judge_count(track, count)?;
    let flag_right = later_flag_allowed(home.flag, before.len(), fields.flag);
    if !flag_right || fields.address != before[0].fields.address {
        return Err(Answer::new(COUNT_FIELDS, count.place));
    }
    judge_blocks(track, count, &fields)
}

/// Answers 9 and 7 of a count: within its span, then check and end byte.
fn judge_count(track: &[u8], count: &Count) -> Result<Fields, Answer> {
    if !count.fits() {
        return Err(Answer::new(SPAN, count.place));
    }
    if !count.trailer_right(track) {
        return Err(Answer::new(COUNT_CHECK, count.place));
    }
    Ok(count.fields(track))
}

/// Flag of a later count: B8 alternates from 1, B7 is free, B6 to B3 are zero, B2 B1 as in home.
fn later_flag_allowed(home_flag: u8, index: usize, flag: u8) -> bool {
    let b8 = if index % 2 == 1 { 0x80 } else { 0 };
    flag & !0x40 == b8 | home_flag
}

/// Cylinder and head of the first count: those of home, or a partner's for flags 01 and 10.
fn address_allowed(home: &Home, named: Address) -> bool {
    match home.flag {
        1 | 2 => named.in_range() && named != home.address,
        _ => named == home.address,
    }
}

/// Answers 9, 10 and 11: blocks within the span, then key, then data.
fn judge_blocks(track: &[u8], count: &Count, fields: &Fields) -> Result<Placed, Answer> {
    let blocks = count.blocks(track, fields);
    if !count.blocks_fit(&blocks) {
        return Err(Answer::new(SPAN, count.place));
    }
    if let Some(key) = blocks.key {
        let wrong = |fault| Answer::block(KEY, fault, key);
        key_right(track, key, fields.kl).map_err(wrong)?;
    }
    let wrong = |fault| Answer::block(DATA, fault, blocks.data);
    data_right(track, blocks.data, fields.dl).map_err(wrong)?;
    Ok(Placed {
        count: *count,
        fields: *fields,
        blocks,
    })
}

/// Answer 13: the leftmost sector whose number stands further left too.
fn judge_numbers(sectors: &[Placed]) -> Result<(), Answer> {
    let mut seen = [false; 256];
    for sector in sectors {
        let number = usize::from(sector.fields.s);
        if seen[number] {
            return Err(Answer::new(REPEATED, sector.count.place));
        }
        seen[number] = true;
    }
    Ok(())
}
