//! The writing calls: Blank, Add and Correct.

use crate::accept::{judge, Judged, Placed};
use crate::answer::*;
use crate::check::check;
use crate::gap::GapRule;
use crate::layout::*;

/// A track under construction, from index to its present end.
struct Image {
    track: Vec<u8>,
    marks: Vec<u8>,
}

impl Image {
    /// A copy of the beginning of a track.
    fn copy_of(track: &[u8], marks: &[u8]) -> Image {
        Image {
            track: track.to_vec(),
            marks: marks.to_vec(),
        }
    }

    /// Bytes without marks.
    fn put(&mut self, bytes: &[u8]) {
        self.track.extend_from_slice(bytes);
        self.marks.resize(self.track.len(), 0);
    }

    /// One byte repeated.
    fn fill(&mut self, byte: u8, times: usize) {
        self.put(&vec![byte; times]);
    }

    /// The opening of a later count with its marks.
    fn put_long_opening(&mut self) {
        self.track.extend_from_slice(&LONG_OPENING);
        self.marks.extend_from_slice(&LONG_MARKS);
    }

    /// Information, its check and the end byte.
    fn put_information(&mut self, information: &[u8]) {
        self.put(information);
        self.put(&check(information));
        self.put(&[END_BYTE]);
    }

    /// First-written home address.
    fn put_home(&mut self, flag: u8, address: Address) {
        self.put(&SHORT_OPENING);
        let [c1, c2] = address.cylinder.to_be_bytes();
        let [h1, h2] = address.head.to_be_bytes();
        self.put_information(&[flag, c1, c2, h1, h2]);
    }

    /// First-written sector up to its data block's end; only sector 0 has the short opening.
    fn put_sector(&mut self, is_first: bool, sector: &NewSector) {
        if is_first {
            self.put(&SHORT_OPENING);
        } else {
            self.put_long_opening();
        }
        self.put_information(&sector.count_information());
        self.put_gap();
        if !sector.key.is_empty() {
            self.put(&SHORT_OPENING);
            self.put_information(sector.key);
            self.put_gap();
        }
        self.put(&SHORT_OPENING);
        if sector.data.is_empty() {
            self.put(&[0]);
        } else {
            self.put_information(sector.data);
        }
    }

    /// First-written gap after a count or a key.
    fn put_gap(&mut self) {
        self.fill(0xFF, 9);
        self.fill(0x00, 2);
    }

    /// First-written gap between a data block and the next opening.
    fn put_block_gap(&mut self, rule: GapRule, kl: usize, dl: usize) {
        self.fill(0xFF, rule.gap(kl, dl));
    }

    /// Answer 15, or the bytes to index and the whole result handed over.
    fn finish(mut self, track: &mut [u8], marks: &mut [u8]) -> Answer {
        let length = track.len();
        if self.track.len() > length - GAP_BEFORE_INDEX {
            return Answer::new(FULL, 0);
        }
        self.fill(0xFF, length - self.track.len());
        track.copy_from_slice(&self.track);
        marks.copy_from_slice(&self.marks);
        Answer::OK
    }
}

/// A sector to be written.
struct NewSector<'a> {
    flag: u8,
    address: Address,
    s: u8,
    key: &'a [u8],
    data: &'a [u8],
}

impl NewSector<'_> {
    /// The nine information bytes of the count.
    fn count_information(&self) -> [u8; COUNT_INFORMATION] {
        let [c1, c2] = self.address.cylinder.to_be_bytes();
        let [h1, h2] = self.address.head.to_be_bytes();
        let [d1, d2] = (self.data.len() as u16).to_be_bytes();
        let kl = self.key.len() as u8;
        [self.flag, c1, c2, h1, h2, self.s, kl, d1, d2]
    }
}

/// Answer 14 for key and data: both lengths can be stored.
fn sizes_allowed(key: &[u8], data: &[u8]) -> bool {
    key.len() <= 255 && data.len() <= 65_535
}

/// Blank: home address and sector 0 of a new track.
#[allow(clippy::too_many_arguments)]
pub fn blank(
    track: &mut [u8],
    marks: &mut [u8],
    address: Address,
    flag: u8,
    partner: Address,
    s: u8,
    key: &[u8],
    data: &[u8],
) -> Answer {
    if !length_allowed(track.len()) || marks.len() != track.len() {
        return Answer::new(BAD_INPUT, 0);
    }
    if !blank_fields_allowed(address, flag, partner) || !sizes_allowed(key, data) {
        return Answer::new(WANTED, 0);
    }
    let mut image = Image::copy_of(&[], &[]);
    image.fill(0x00, 30);
    image.put_home(flag, address);
    image.fill(0x00, GAP);
    let sector = NewSector {
        flag,
        address: if has_partner(flag) { partner } else { address },
        s,
        key,
        data,
    };
    image.put_sector(true, &sector);
    image.finish(track, marks)
}

/// Flags 01 and 10 name a partner track.
fn has_partner(flag: u8) -> bool {
    flag == 1 || flag == 2
}

/// Answer 14 for Blank: address and flag in range, a named partner in range and another track.
fn blank_fields_allowed(address: Address, flag: u8, partner: Address) -> bool {
    let partner_allowed = !has_partner(flag) || partner.in_range() && partner != address;
    address.in_range() && flag <= 3 && partner_allowed
}

/// Answer 1 of Add and Correct, then the read track's own answer.
fn judge_old(
    track: &[u8],
    marks: &[u8],
    new_track: &[u8],
    new_marks: &[u8],
) -> Result<Judged, Answer> {
    if new_track.len() != track.len() || new_marks.len() != track.len() {
        return Err(Answer::new(BAD_INPUT, 0));
    }
    judge(track, marks)
}

/// Add: one more sector after the last, behind the gap that the rule sets.
#[allow(clippy::too_many_arguments)]
pub fn add(
    track: &[u8],
    marks: &[u8],
    new_track: &mut [u8],
    new_marks: &mut [u8],
    b7: u8,
    s: u8,
    key: &[u8],
    data: &[u8],
    rule: GapRule,
) -> Answer {
    let sectors = match judge_old(track, marks, new_track, new_marks) {
        Ok(judged) => judged.sectors,
        Err(answer) => return answer,
    };
    if b7 > 1 || !sizes_allowed(key, data) || !rule.in_range() {
        return Answer::new(WANTED, 0);
    }
    if let Some(present) = sectors.iter().find(|sector| sector.fields.s == s) {
        return Answer::new(REPEATED, present.count.place);
    }
    let last = sectors[sectors.len() - 1];
    let mut image = Image::copy_of(&track[..last.blocks.end], &marks[..last.blocks.end]);
    image.put_block_gap(rule, last.fields.kl.into(), last.fields.dl.into());
    let sector = NewSector {
        flag: added_flag(last.fields.flag, b7),
        address: last.fields.address,
        s,
        key,
        data,
    };
    image.put_sector(false, &sector);
    image.finish(new_track, new_marks)
}

/// Flag of an added sector: B8 opposite to the last one's, B7 as wanted, B2 B1 unchanged.
fn added_flag(last: u8, b7: u8) -> u8 {
    (last ^ 0x80) & 0x80 | b7 << 6 | last & 0x03
}

/// Correct: one sector gets a new key and new data, and all from its count on is written anew, its gaps by the rule.
#[allow(clippy::too_many_arguments)]
pub fn correct(
    track: &[u8],
    marks: &[u8],
    new_track: &mut [u8],
    new_marks: &mut [u8],
    s: u8,
    key: &[u8],
    data: &[u8],
    rule: GapRule,
) -> Answer {
    let sectors = match judge_old(track, marks, new_track, new_marks) {
        Ok(judged) => judged.sectors,
        Err(answer) => return answer,
    };
    if !sizes_allowed(key, data) || !rule.in_range() {
        return Answer::new(WANTED, 0);
    }
    let Some(index) = sectors.iter().position(|sector| sector.fields.s == s) else {
        return Answer::new(NOT_FOUND, 0);
    };
    let place = sectors[index].count.place;
    let mut image = Image::copy_of(&track[..place], &marks[..place]);
    let corrected = kept(&sectors[index], key, data);
    image.put_sector(index == 0, &corrected);
    let mut sizes = (key.len(), data.len());
    for later in &sectors[index + 1..] {
        image.put_block_gap(rule, sizes.0, sizes.1);
        let same = kept(later, old_key(track, later), old_data(track, later));
        image.put_sector(false, &same);
        sizes = (same.key.len(), same.data.len());
    }
    image.finish(new_track, new_marks)
}

/// A sector with its flag, address and number kept.
fn kept<'a>(old: &Placed, key: &'a [u8], data: &'a [u8]) -> NewSector<'a> {
    NewSector {
        flag: old.fields.flag,
        address: old.fields.address,
        s: old.fields.s,
        key,
        data,
    }
}

/// Key of a sector on the read track.
fn old_key<'a>(track: &'a [u8], sector: &Placed) -> &'a [u8] {
    match sector.blocks.key {
        None => &[],
        Some(opening) => &track[opening + 6..][..sector.fields.kl.into()],
    }
}

/// Data of a sector on the read track.
fn old_data<'a>(track: &'a [u8], sector: &Placed) -> &'a [u8] {
    &track[sector.blocks.data + 6..][..sector.fields.dl.into()]
}
