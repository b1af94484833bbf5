//! Add.

use crate::answer::*;
use crate::gap::GapRule;
use crate::image::{first_six, fits, sector_length, Image};
use crate::opening::LONG;
use crate::sectors::Sectors;

/// Add: one more sector after the last, behind the gap that the rule sets.
#[allow(clippy::too_many_arguments)]
pub fn add(
    track: &[u8],
    marks: &[u8],
    new_track: &mut [u8],
    new_marks: &mut [u8],
    b7: u8,
    s: u8,
    key: &[u8],
    data: &[u8],
    rule: GapRule,
) -> Answer {
    let sectors = match Sectors::of(track, marks, [new_track.len(), new_marks.len()]) {
        Ok(sectors) => sectors,
        Err(refusal) => return refusal,
    };
    if b7 > 1 || !wanted_right(key, data, rule) {
        return Answer::new(WANTED, 0);
    }
    if let Some(present) = sectors.index_of(s) {
        return Answer::new(REPEATED, sectors.all()[present].place());
    }
    let last = sectors.all()[sectors.all().len() - 1];
    let gap = rule.gap(last.kl() + last.dl());
    if !fits(
        last.end() + gap + sector_length(LONG, key.len(), data.len()),
        track.len(),
    ) {
        return Answer::new(FULL, 0);
    }
    let mut image = Image::copied((track, marks), last.end(), new_track, new_marks);
    image.put_gap(gap);
    image.put_long_opening();
    let mut count = first_six(track, last.information());
    count[0] = (count[0] ^ 0x80) & 0x83 | b7 << 6;
    count[5] = s;
    image.put_sector(count, key, data);
    image.finish();
    Answer::OK
}

/// Whether key and data are not too long, and the rule is in range.
pub fn wanted_right(key: &[u8], data: &[u8], rule: GapRule) -> bool {
    key.len() <= 255 && data.len() <= 65_535 && rule.in_range()
}
