//! Bit cells to be read and tracks to be sent to bit cells: mostly in rule, often not.
//!
//! The bit cells are laid out here one after the other and never by the calls themselves.

use super::damage::damaged;
use super::jumble::jumbled;
use super::pairs::Track;
use super::rng::Rng;
use super::sound::{random_length, sound};
use crate::layout::*;

/// Arguments of From cells, with the lengths of the two buffers.
#[derive(Clone, Debug)]
pub struct WantedFromCells {
    pub bit_cells: Vec<u8>,
    pub length: usize,
    pub marks_length: usize,
}

/// Arguments of To cells, with the length of the buffer.
#[derive(Clone, Debug)]
pub struct WantedToCells {
    pub track: Vec<u8>,
    pub marks: Vec<u8>,
    pub bit_cells_length: usize,
}

/// Lengths of tracks next to the range, far from it, and in it but for higher bits.
const WRONG_LENGTHS: [usize; 8] = [0, 1, 1_907, 3_814, 4_003, 7_812, 8_004, 65_536 + 3_906];
/// Values that are nearly `FF`, or nothing like it.
const UNMARKABLE: [u8; 8] = [0xFE, 0x7F, 0xEF, 0xF7, 0x1F, 0x0E, 0x00, 0x55];

/// The bit cells of any bytes and marks; a marked byte loses its first five clocks whatever its value.
pub fn bit_cells_of(track: &[u8], marks: &[u8]) -> Vec<u8> {
    let mut bits = Vec::with_capacity(16 * track.len());
    for (&byte, &mark) in track.iter().zip(marks) {
        for bit in 0..8 {
            bits.push(mark == 0 || bit >= 5);
            bits.push(byte & 0x80 >> bit != 0);
        }
    }
    packed(&bits)
}

/// Bits eight to a byte, the first in the top bit.
fn packed(bits: &[bool]) -> Vec<u8> {
    let byte_of = |eight: &[bool]| {
        let append = |byte, &bit| byte << 1 | u8::from(bit);
        eight.iter().fold(0, append)
    };
    bits.chunks(8).map(byte_of).collect()
}

/// Random arguments of From cells.
pub fn wanted_from_cells(seed: u64) -> WantedFromCells {
    let mut rng = Rng::new(seed ^ 0xF40B_CE11);
    let (track, marks) = markable(any_track(&mut rng, seed));
    let mut bit_cells = bit_cells_of(&track, &marks);
    if rng.chance(40) {
        for _ in 0..rng.pick(&[1, 1, 1, 2, 3, 8]) {
            put_fault(&mut rng, &mut bit_cells);
        }
    }
    let mut wanted = WantedFromCells {
        bit_cells,
        length: track.len(),
        marks_length: track.len(),
    };
    if rng.chance(15) {
        misfit_buffers(&mut rng, &mut wanted);
    }
    wanted
}

/// Random arguments of To cells.
pub fn wanted_to_cells(seed: u64) -> WantedToCells {
    let mut rng = Rng::new(seed ^ 0x70CE_1150);
    let (track, marks) = match rng.chance(15) {
        true => damaged(seed),
        false => markable(any_track(&mut rng, seed)),
    };
    let mut wanted = WantedToCells {
        bit_cells_length: 2 * track.len(),
        track,
        marks,
    };
    if rng.chance(35) {
        mark_other_values(&mut rng, &mut wanted);
    }
    if rng.chance(8) {
        let place = any_place(&mut rng, wanted.marks.len());
        wanted.marks[place] = rng.pick(&[2, 3, 128, 254, 255]);
    }
    if rng.chance(12) {
        misfit_track(&mut rng, &mut wanted);
    }
    wanted
}

/// A track of noise, or from one of the other generators, of lengths in rule.
fn any_track(rng: &mut Rng, seed: u64) -> Track {
    let (mut track, mut marks) = match rng.below(8) {
        0 | 1 => noise(rng, 2),
        2 => noise(rng, 50),
        3 => noise(rng, 100),
        4 | 5 => sound(seed),
        6 => damaged(seed),
        _ => jumbled(seed),
    };
    let length = track.len().clamp(SHORTEST, LONGEST);
    track.resize(length, 0xFF);
    marks.resize(length, 1);
    (track, marks)
}

/// Any bytes, of which so many of a hundred are `FF`, and half of these marked.
fn noise(rng: &mut Rng, percent: usize) -> Track {
    let length = random_length(rng);
    let (mut track, mut marks) = (rng.bytes(length), vec![0; length]);
    for place in 0..length {
        if rng.chance(percent) {
            track[place] = 0xFF;
            marks[place] = rng.below(2) as u8;
        }
    }
    (track, marks)
}

/// The track with marks of 0 and 1 only, and on no other value than `FF`.
fn markable((track, mut marks): Track) -> Track {
    for (&byte, mark) in track.iter().zip(&mut marks) {
        *mark = u8::from(*mark != 0 && byte == 0xFF);
    }
    (track, marks)
}

/// A place, often the first or the last; 0 where there is none.
fn any_place(rng: &mut Rng, length: usize) -> usize {
    match rng.below(12) {
        0 => 0,
        1 => length.saturating_sub(1),
        _ => rng.below(length.max(1)),
    }
}

/// The two cell bytes of one track byte.
fn any_pattern<'a>(rng: &mut Rng, bit_cells: &'a mut [u8]) -> &'a mut [u8] {
    let place = any_place(rng, bit_cells.len() / 2);
    &mut bit_cells[2 * place..2 * place + 2]
}

/// One fault; a changed data bit alone gives another legal pattern.
fn put_fault(rng: &mut Rng, bit_cells: &mut Vec<u8>) {
    match rng.below(10) {
        0..=2 => flip_clock(rng, bit_cells),
        3 => any_pattern(rng, bit_cells)[rng.below(2)] ^= 0x40 >> (2 * rng.below(4)),
        4 => any_pattern(rng, bit_cells)[rng.below(2)] = rng.byte(),
        5 => any_pattern(rng, bit_cells).copy_from_slice(&rng.bytes(2)),
        6 => any_pattern(rng, bit_cells).swap(0, 1),
        7 => lose_clocks(rng, bit_cells),
        8 => spoil_mark(rng, bit_cells),
        _ => slip(rng, bit_cells),
    }
}

/// A clock lost or gained.
fn flip_clock(rng: &mut Rng, bit_cells: &mut [u8]) {
    any_pattern(rng, bit_cells)[rng.below(2)] ^= 0x80 >> (2 * rng.below(4));
}

/// A byte without its first clocks, few or many: `FF`, nearly `FF`, or what stands there.
fn lose_clocks(rng: &mut Rng, bit_cells: &mut [u8]) {
    let lost = rng.below(9);
    let old = any_pattern(rng, bit_cells);
    let data = match rng.below(3) {
        0 => [0xFF, 0xFF],
        1 => rng.pick(&[[0xFF, 0xFE], [0xBF, 0xFF], [0xFF, 0xBF], [0xFE, 0xFF]]),
        _ => [old[0], old[1]],
    };
    let clocks: Vec<bool> = (0..16)
        .map(|cell| cell % 2 == 1 || cell / 2 >= lost)
        .collect();
    for (byte, (data, clocks)) in old.iter_mut().zip(data.iter().zip(packed(&clocks))) {
        *byte = data & clocks;
    }
}

/// The cells of a marked byte with one of them changed.
fn spoil_mark(rng: &mut Rng, bit_cells: &mut [u8]) {
    let two = any_pattern(rng, bit_cells);
    two.copy_from_slice(&[0x55, 0x7F]);
    two[rng.below(2)] ^= 0x80 >> rng.below(8);
}

/// One bit cell or one cell byte lost or gained, everything after it shifted, the length kept.
fn slip(rng: &mut Rng, bit_cells: &mut Vec<u8>) {
    let place = any_place(rng, bit_cells.len());
    match rng.below(3) {
        0 => {
            bit_cells.remove(place);
            bit_cells.push(rng.byte());
        }
        1 => {
            bit_cells.insert(place, rng.byte());
            bit_cells.pop();
        }
        _ => {
            let mut carry = 0;
            for byte in &mut bit_cells[place..] {
                (*byte, carry) = (carry << 7 | *byte >> 1, *byte & 1);
            }
        }
    }
}

/// One or several marks on other values, of which one is at times put there.
fn mark_other_values(rng: &mut Rng, wanted: &mut WantedToCells) {
    for _ in 0..rng.pick(&[1, 1, 2, 5, 50]) {
        let place = any_place(rng, wanted.track.len().min(wanted.marks.len()));
        if wanted.track[place] == 0xFF || rng.chance(20) {
            wanted.track[place] = rng.pick(&UNMARKABLE);
        }
        wanted.marks[place] = 1;
    }
}

/// Buffers or bit cells of another length than the others ask for.
fn misfit_buffers(rng: &mut Rng, wanted: &mut WantedFromCells) {
    let length = wanted.length;
    match rng.below(6) {
        0 => {
            let length = rng.pick(&WRONG_LENGTHS);
            wanted.bit_cells.resize(2 * length, 0xAA);
            (wanted.length, wanted.marks_length) = (length, length);
        }
        1 => wanted.marks_length = other_length(rng, length),
        2 => wanted.length = other_length(rng, length),
        3 => {
            let other = other_length(rng, length);
            (wanted.length, wanted.marks_length) = (other, other);
        }
        4 => wanted.bit_cells.resize(2 * other_length(rng, length), 0xAA),
        _ => {
            let other = other_cell_length(rng, length);
            wanted.bit_cells.resize(other, 0xAA);
        }
    }
}

/// A track, marks or a buffer of another length than the others ask for.
fn misfit_track(rng: &mut Rng, wanted: &mut WantedToCells) {
    let length = wanted.track.len();
    match rng.below(5) {
        0 => {
            let length = rng.pick(&WRONG_LENGTHS);
            wanted.track.resize(length, 0xFF);
            wanted.marks.resize(length, 1);
            wanted.bit_cells_length = 2 * length;
        }
        1 => wanted.marks.resize(other_length(rng, length), 0),
        2 => wanted.track.resize(other_length(rng, length), 0xFF),
        3 => wanted.bit_cells_length = 2 * other_length(rng, length),
        _ => wanted.bit_cells_length = other_cell_length(rng, length),
    }
}

/// A length that is not this one: next to it, another track's, or none at all.
fn other_length(rng: &mut Rng, length: usize) -> usize {
    let near = [length + 1, length.saturating_sub(1)];
    let other = match rng.below(6) {
        0 => rng.pick(&WRONG_LENGTHS),
        1 => random_length(rng),
        2 => 2 * length,
        _ => rng.pick(&near),
    };
    match other == length {
        true => length + 1,
        false => other,
    }
}

/// A number of cell bytes that is not twice this length, at times odd.
fn other_cell_length(rng: &mut Rng, length: usize) -> usize {
    let right = 2 * length;
    let near = [
        right + 1,
        right + 2,
        right.saturating_sub(1),
        right.saturating_sub(2),
    ];
    match rng.below(6) {
        0 => length + 1,
        1 => right + 65_536,
        _ => rng.pick(&near),
    }
}
