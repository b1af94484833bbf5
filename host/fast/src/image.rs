//! A track in first-written form, put down from left to right.

use crate::home::CLOSING_BYTE;
use crate::opening::SHORT;
use crate::sector::{BEFORE_INDEX, COUNT, GAP, TRAILER};
use crate::sectors::Placed;
use crate::words::sum_at;

/// The opening of home, sector 0's count, key and data block.
const SHORT_OPENING: [u8; SHORT] = [0, 0, 0, 0, 0xFF, 0x0E];
/// The gap behind a count or a key.
const INNER_GAP: [u8; GAP] = [255, 255, 255, 255, 255, 255, 255, 255, 255, 0, 0];

/// The lent buffers, and the place up to which they are written.
pub struct Image<'a> {
    track: &'a mut [u8],
    marks: &'a mut [u8],
    place: usize,
}

/// Bytes of a first-written key with the gap behind it.
fn key_length(kl: usize) -> usize {
    match kl {
        0 => 0,
        _ => SHORT + kl + TRAILER + GAP,
    }
}

/// Bytes of a first-written data block.
fn data_length(dl: usize) -> usize {
    match dl {
        0 => SHORT + 1,
        _ => SHORT + dl + TRAILER,
    }
}

/// Bytes of a first-written sector, whose count's opening has a length.
pub fn sector_length(opening: usize, kl: usize, dl: usize) -> usize {
    opening + COUNT + GAP + key_length(kl) + data_length(dl)
}

/// Whether the last block of a track may end here.
pub fn fits(end: usize, length: usize) -> bool {
    end + BEFORE_INDEX <= length
}

impl<'a> Image<'a> {
    /// The old track up to a place, and no marks behind it.
    pub fn copied(
        (track, marks): (&[u8], &[u8]),
        place: usize,
        new_track: &'a mut [u8],
        new_marks: &'a mut [u8],
    ) -> Image<'a> {
        new_track[..place].copy_from_slice(&track[..place]);
        new_marks[..place].copy_from_slice(&marks[..place]);
        new_marks[place..].fill(0);
        Image {
            track: new_track,
            marks: new_marks,
            place,
        }
    }

    /// Bytes without marks.
    #[inline(always)]
    fn put(&mut self, bytes: &[u8]) {
        let end = self.place + bytes.len();
        self.track[self.place..end].copy_from_slice(bytes);
        self.place = end;
    }

    /// The opening of a later count.
    pub fn put_long_opening(&mut self) {
        self.marks[self.place + 5..self.place + 7].fill(1);
        self.put(&[0, 0, 0, 0, 0xFF, 0xFF, 0xFF, 0x0E]);
    }

    /// The opening of sector 0's count and of a block.
    pub fn put_short_opening(&mut self) {
        self.put(&SHORT_OPENING);
    }

    /// Information, its check and the closing byte.
    fn put_information(&mut self, information: &[u8]) {
        self.put(information);
        let sum = sum_at(
            self.track,
            self.place - information.len(),
            information.len(),
        );
        let [high, low] = (!sum).to_le_bytes();
        self.put(&[high, low, CLOSING_BYTE]);
    }

    /// A sector behind its count's opening: the first six of the count's bytes, key and data.
    pub fn put_sector(&mut self, first_six: [u8; 6], key: &[u8], data: &[u8]) {
        let [flag, c1, c2, h1, h2, s] = first_six;
        let [d1, d2] = (data.len() as u16).to_be_bytes();
        self.put_information(&[flag, c1, c2, h1, h2, s, key.len() as u8, d1, d2]);
        self.put(&INNER_GAP);
        if !key.is_empty() {
            self.put_short_opening();
            self.put_information(key);
            self.put(&INNER_GAP);
        }
        self.put_short_opening();
        match data.is_empty() {
            true => self.put(&[0]),
            false => self.put_information(data),
        }
    }

    /// A later sector of the old track: its count and its blocks are copied, its inner gaps made anew.
    pub fn put_again(&mut self, track: &[u8], old: &Placed) {
        self.put_long_opening();
        self.put(&track[old.information()..old.information() + COUNT]);
        self.put(&INNER_GAP);
        let mut place = old.information() + COUNT + GAP;
        if old.kl() > 0 {
            self.put(&track[place..place + SHORT + old.kl() + TRAILER]);
            self.put(&INNER_GAP);
            place += key_length(old.kl());
        }
        self.put(&track[place..place + data_length(old.dl())]);
    }

    /// So many bytes `FF`.
    pub fn put_gap(&mut self, length: usize) {
        self.track[self.place..self.place + length].fill(0xFF);
        self.place += length;
    }

    /// `FF` to index.
    pub fn finish(self) {
        self.track[self.place..].fill(0xFF);
    }
}

/// The first six bytes of a count's information: flag, cylinder, head and S.
pub fn first_six(track: &[u8], place: usize) -> [u8; 6] {
    let mut six = [0; 6];
    six.copy_from_slice(&track[place..place + 6]);
    six
}
