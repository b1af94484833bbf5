//! The drive's bit cells: from them to a track and its marks, and the way back.
//!
//! A track byte is sixteen bit cells: for every bit, B8 first, a clock and then the data.
//! Eight bit cells are a cell byte, the first one in its top bit, so that a track byte is two cell bytes.
//! Here those two are taken as one number, the pattern, with the first bit cell as its top bit.

use crate::answer::*;
use crate::layout::*;

/// The clocks of a pattern, and those left when the first five are missing.
const CLOCKS: u16 = 0xAAAA;
const LAST_CLOCKS: u16 = 0x002A;
/// The data of a pattern.
const DATA_BITS: u16 = 0x5555;
/// The pattern of a marked byte: `FF` without its first five clocks.
const MARKED: u16 = 0x557F;
/// The only value that can carry a mark.
const MARKED_BYTE: u8 = 0xFF;

/// From cells: the track and the marks that a string of bit cells stands for.
pub fn from_cells(bit_cells: &[u8], track: &mut [u8], marks: &mut [u8]) -> Answer {
    let length = track.len();
    if !length_allowed(length) || marks.len() != length || bit_cells.len() != 2 * length {
        return Answer::new(BAD_INPUT, 0);
    }
    let mut patterns = bit_cells.chunks_exact(2);
    if let Some(place) = patterns.position(|two| !is_legal(pattern_in(two))) {
        return Answer::new(BIT_CELLS, place);
    }
    for ((two, byte), mark) in bit_cells.chunks_exact(2).zip(track).zip(marks) {
        let pattern = pattern_in(two);
        *byte = byte_of(pattern);
        *mark = u8::from(pattern == MARKED);
    }
    Answer::OK
}

/// To cells: the bit cells that a track and its marks are recorded with.
pub fn to_cells(track: &[u8], marks: &[u8], bit_cells: &mut [u8]) -> Answer {
    if bit_cells.len() != 2 * track.len() || !readable(track, marks) {
        return Answer::new(BAD_INPUT, 0);
    }
    let mut cells = track.iter().zip(marks);
    if let Some(place) = cells.position(|(&byte, &mark)| mark == 1 && byte != MARKED_BYTE) {
        return Answer::new(BIT_CELLS, place);
    }
    for ((&byte, &mark), two) in track.iter().zip(marks).zip(bit_cells.chunks_exact_mut(2)) {
        two.copy_from_slice(&pattern_of(byte, mark).to_be_bytes());
    }
    Answer::OK
}

/// Two cell bytes as a pattern.
fn pattern_in(two: &[u8]) -> u16 {
    u16::from_be_bytes([two[0], two[1]])
}

/// A pattern with all its clocks, or that of a marked byte.
fn is_legal(pattern: u16) -> bool {
    pattern & CLOCKS == CLOCKS || pattern == MARKED
}

/// The data of a pattern put together; those of the marked pattern make `FF`.
fn byte_of(pattern: u16) -> u8 {
    let ones = pattern & DATA_BITS;
    let twos = (ones | ones >> 1) & 0x3333;
    let fours = (twos | twos >> 2) & 0x0F0F;
    (fours | fours >> 4) as u8
}

/// The pattern of a byte: its bits between the clocks that its mark leaves.
fn pattern_of(byte: u8, mark: u8) -> u16 {
    let clocks = match mark {
        0 => CLOCKS,
        _ => LAST_CLOCKS,
    };
    clocks | spread(byte)
}

/// The bits of a byte, each at its data's place.
fn spread(byte: u8) -> u16 {
    let eights = u16::from(byte);
    let fours = (eights | eights << 4) & 0x0F0F;
    let twos = (fours | fours << 2) & 0x3333;
    (twos | twos << 1) & DATA_BITS
}
