//! One file for a cylinder: its tracks and marks from the file, and the way back.
//!
//! The file is a header with the number of tracks, a table with the length and the offset of each, and then the tracks.
//! A track is stored as its bytes and, right after them, its marks, eight to a byte.
//! In memory one slice has the bytes of all tracks, one after the other, a second one their marks, and a list the lengths.
//! All numbers of the file have their most significant byte first.

use crate::answer::*;
use crate::layout::*;

/// Greatest number of tracks in a file.
const MOST_TRACKS: usize = 10;
/// The header: the number of tracks and the zero field, two bytes each.
const HEADER_LENGTH: usize = 4;
/// An entry of the table: a length of two bytes and an offset of four.
const ENTRY_LENGTH: usize = 6;

/// A track of a file: how many bytes it has, and where they start.
struct Stored {
    length: usize,
    offset: usize,
}

impl Stored {
    /// Where the marks start: right after the bytes.
    fn marks_offset(&self) -> usize {
        self.offset + self.length
    }

    /// How many bytes the marks take; the last one may have spare bits.
    fn packed_length(&self) -> usize {
        self.length.div_ceil(8)
    }

    /// The place after the marks.
    fn end(&self) -> usize {
        self.marks_offset() + self.packed_length()
    }

    /// The track's bytes in the file.
    fn bytes_in<'a>(&self, file: &'a [u8]) -> &'a [u8] {
        &file[self.offset..self.marks_offset()]
    }

    /// The track's marks in the file, eight to a byte.
    fn packed_in<'a>(&self, file: &'a [u8]) -> &'a [u8] {
        &file[self.marks_offset()..self.end()]
    }

    /// Whether a bit behind the last mark is set.
    fn has_spare_bits(&self, file: &[u8]) -> bool {
        let packed = self.packed_in(file);
        (self.length..8 * packed.len()).any(|place| mark_in(packed, place) == 1)
    }
}

/// Read cylinder: the tracks, the marks and the lengths that a file holds, and how many tracks these are.
pub fn read_cylinder(
    file: &[u8],
    tracks: &mut [u8],
    marks: &mut [u8],
    lengths: &mut [u16],
) -> (Answer, usize) {
    match judge_reading(file, tracks.len(), marks.len(), lengths.len()) {
        Err(number) => (Answer::new(number, 0), 0),
        Ok(stored) => {
            unpack(file, &stored, tracks, marks, lengths);
            (Answer::OK, stored.len())
        }
    }
}

/// Write cylinder: the file that holds these tracks and marks, and how many bytes it has.
pub fn write_cylinder(
    tracks: &[u8],
    marks: &[u8],
    lengths: &[u16],
    file: &mut [u8],
) -> (Answer, usize) {
    match judge_writing(tracks, marks, lengths, file.len()) {
        Err(number) => (Answer::new(number, 0), 0),
        Ok(stored) => {
            let length = file_length(&stored);
            pack(tracks, marks, &stored, &mut file[..length]);
            (Answer::OK, length)
        }
    }
}

/// The tracks that a file holds, if it is in rule and they have room; else the number that refuses it.
fn judge_reading(
    file: &[u8],
    tracks_length: usize,
    marks_length: usize,
    lengths_count: usize,
) -> Result<Vec<Stored>, u8> {
    let stored = stored_in(file)?;
    let sum = sum_of_lengths(&stored);
    if tracks_length < sum || marks_length < sum || lengths_count < stored.len() {
        return Err(SHORT_BUFFER);
    }
    Ok(stored)
}

/// The tracks that a file holds, if it is in rule.
fn stored_in(file: &[u8]) -> Result<Vec<Stored>, u8> {
    if file.len() < HEADER_LENGTH {
        return Err(FILE_LENGTH);
    }
    let (header, rest) = file.split_at(HEADER_LENGTH);
    let count = number_in(&header[..2]);
    if !(1..=MOST_TRACKS).contains(&count) || header[2..] != [0, 0] {
        return Err(FILE_HEADER);
    }
    if rest.len() < ENTRY_LENGTH * count {
        return Err(FILE_LENGTH);
    }
    let table: Vec<&[u8]> = rest.chunks_exact(ENTRY_LENGTH).take(count).collect();
    let lengths: Vec<usize> = table.iter().map(|entry| number_in(&entry[..2])).collect();
    if !lengths.iter().all(|&length| length_allowed(length)) {
        return Err(BAD_INPUT);
    }
    let stored = laid_out(&lengths);
    let mut entries = table.iter().zip(&stored);
    if entries.any(|(entry, track)| number_in(&entry[2..]) != track.offset) {
        return Err(FILE_OFFSET);
    }
    if file.len() != file_length(&stored) {
        return Err(FILE_LENGTH);
    }
    if stored.iter().any(|track| track.has_spare_bits(file)) {
        return Err(SPARE_BITS);
    }
    Ok(stored)
}

/// Where the tracks will be stored, if they can be and the file has room; else the number that refuses them.
fn judge_writing(
    tracks: &[u8],
    marks: &[u8],
    lengths: &[u16],
    room: usize,
) -> Result<Vec<Stored>, u8> {
    if !(1..=MOST_TRACKS).contains(&lengths.len()) {
        return Err(FILE_HEADER);
    }
    let lengths: Vec<usize> = lengths.iter().map(|&length| length.into()).collect();
    let sum: usize = lengths.iter().sum();
    let in_range = lengths.iter().all(|&length| length_allowed(length));
    let agree = tracks.len() == sum && marks.len() == sum;
    if !in_range || !agree || marks.iter().any(|&mark| mark > 1) {
        return Err(BAD_INPUT);
    }
    let stored = laid_out(&lengths);
    if room < file_length(&stored) {
        return Err(SHORT_BUFFER);
    }
    Ok(stored)
}

/// Tracks of these lengths without holes, the first one right after the table.
fn laid_out(lengths: &[usize]) -> Vec<Stored> {
    let mut offset = HEADER_LENGTH + ENTRY_LENGTH * lengths.len();
    let mut stored = Vec::new();
    for &length in lengths {
        let track = Stored { length, offset };
        offset = track.end();
        stored.push(track);
    }
    stored
}

/// How many bytes a file of these tracks has.
fn file_length(stored: &[Stored]) -> usize {
    stored.last().map_or(HEADER_LENGTH, Stored::end)
}

/// How many bytes these tracks have in memory.
fn sum_of_lengths(stored: &[Stored]) -> usize {
    stored.iter().map(|track| track.length).sum()
}

/// The tracks, marks and lengths of a file, to the start of each slice.
fn unpack(
    file: &[u8],
    stored: &[Stored],
    tracks: &mut [u8],
    marks: &mut [u8],
    lengths: &mut [u16],
) {
    let mut start = 0;
    for (track, length) in stored.iter().zip(lengths) {
        let part = start..start + track.length;
        let packed = track.packed_in(file);
        tracks[part.clone()].copy_from_slice(track.bytes_in(file));
        for (place, mark) in marks[part.clone()].iter_mut().enumerate() {
            *mark = mark_in(packed, place);
        }
        *length = track.length as u16;
        start = part.end;
    }
}

/// The whole file.
fn pack(tracks: &[u8], marks: &[u8], stored: &[Stored], file: &mut [u8]) {
    file[..2].copy_from_slice(&(stored.len() as u16).to_be_bytes());
    file[2..HEADER_LENGTH].fill(0);
    let mut start = 0;
    for (index, track) in stored.iter().enumerate() {
        let entry = HEADER_LENGTH + ENTRY_LENGTH * index;
        file[entry..entry + 2].copy_from_slice(&(track.length as u16).to_be_bytes());
        file[entry + 2..entry + 6].copy_from_slice(&(track.offset as u32).to_be_bytes());
        let part = start..start + track.length;
        file[track.offset..track.marks_offset()].copy_from_slice(&tracks[part.clone()]);
        let packed = file[track.marks_offset()..track.end()].iter_mut();
        for (byte, eight) in packed.zip(marks[part.clone()].chunks(8)) {
            *byte = packed_byte(eight);
        }
        start = part.end;
    }
}

/// A number of two or four bytes.
fn number_in(bytes: &[u8]) -> usize {
    let append = |number, &byte| number << 8 | usize::from(byte);
    bytes.iter().fold(0, append)
}

/// The mark at a place, of marks that stand eight to a byte.
fn mark_in(packed: &[u8], place: usize) -> u8 {
    packed[place / 8] >> (7 - place % 8) & 1
}

/// Eight marks or fewer as a byte, the first in the top bit.
fn packed_byte(marks: &[u8]) -> u8 {
    let bit = |(place, mark): (usize, &u8)| mark << (7 - place);
    marks.iter().enumerate().map(bit).sum()
}
