//! Correct.

use crate::add::wanted_right;
use crate::answer::*;
use crate::gap::GapRule;
use crate::image::{first_six, fits, sector_length, Image};
use crate::opening::LONG;
use crate::sectors::{Placed, Sectors};

/// Correct: one sector gets a new key and new data, and all from its count on is written anew, its gaps by the rule.
#[allow(clippy::too_many_arguments)]
pub fn correct(
    track: &[u8],
    marks: &[u8],
    new_track: &mut [u8],
    new_marks: &mut [u8],
    s: u8,
    key: &[u8],
    data: &[u8],
    rule: GapRule,
) -> Answer {
    let sectors = match Sectors::of(track, marks, [new_track.len(), new_marks.len()]) {
        Ok(sectors) => sectors,
        Err(refusal) => return refusal,
    };
    if !wanted_right(key, data, rule) {
        return Answer::new(WANTED, 0);
    }
    let Some(index) = sectors.index_of(s) else {
        return Answer::new(NOT_FOUND, 0);
    };
    let (old, later) = (sectors.all()[index], &sectors.all()[index + 1..]);
    let opening = old.information() - old.place();
    let end = old.place() + sector_length(opening, key.len(), data.len());
    let length = key.len() + data.len();
    if !fits(end_behind(end, length, later, rule), track.len()) {
        return Answer::new(FULL, 0);
    }
    let mut image = Image::copied((track, marks), old.place(), new_track, new_marks);
    match opening {
        LONG => image.put_long_opening(),
        _ => image.put_short_opening(),
    }
    image.put_sector(first_six(track, old.information()), key, data);
    put_later(&mut image, track, length, later, rule);
    image.finish();
    Answer::OK
}

/// Where the last block ends, with these sectors behind a block that ends at a place and has so many bytes of key and data.
fn end_behind(end: usize, length: usize, later: &[Placed], rule: GapRule) -> usize {
    let (mut end, mut length) = (end, length);
    for old in later {
        end += rule.gap(length) + sector_length(LONG, old.kl(), old.dl());
        length = old.kl() + old.dl();
    }
    end
}

/// These sectors again, each behind the gap that the rule sets.
fn put_later(image: &mut Image, track: &[u8], length: usize, later: &[Placed], rule: GapRule) {
    let mut length = length;
    for old in later {
        image.put_gap(rule.gap(length));
        image.put_again(track, old);
        length = old.kl() + old.dl();
    }
}
