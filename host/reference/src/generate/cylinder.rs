//! Files of cylinders to be read, and tracks to be written to such files: often in rule, often not.

use super::cylinder_file::{
    cylinder_file, cylinder_of, first_offset, noisy_track, spare_bits, stored_length, Cylinder,
};
use super::damage::damaged;
use super::jumble::jumbled;
use super::pairs::Track;
use super::rng::Rng;
use super::sound::{random_length, sound};

/// Arguments of Read cylinder, with the lengths of the two buffers and of the list.
#[derive(Clone, Debug)]
pub struct WantedReadCylinder {
    pub file: Vec<u8>,
    pub tracks_length: usize,
    pub marks_length: usize,
    pub lengths_count: usize,
}

/// Arguments of Write cylinder, with the length of the buffer.
#[derive(Clone, Debug)]
pub struct WantedWriteCylinder {
    pub cylinder: Cylinder,
    pub file_length: usize,
}

/// Greatest number of tracks in a file.
const MOST: usize = 10;
/// Lengths of tracks next to the range and far from it, and 3,906 with its bytes exchanged.
const WRONG_LENGTHS: [usize; 8] = [0, 1, 3_814, 4_003, 0x42_0F, 7_812, 32_768, 65_535];

/// Random arguments of Read cylinder.
pub fn wanted_read_cylinder(seed: u64) -> WantedReadCylinder {
    let mut rng = Rng::new(seed ^ 0xC711_4EAD);
    if rng.chance(6) {
        return short_noise(&mut rng);
    }
    let tracks = any_tracks(&mut rng, seed);
    let mut file = cylinder_file(&tracks);
    if rng.chance(60) {
        let lengths: Vec<usize> = tracks.iter().map(|(bytes, _)| bytes.len()).collect();
        for _ in 0..rng.pick(&[1, 1, 1, 1, 2, 2, 3]) {
            put_fault(&mut rng, &lengths, &mut file);
        }
    }
    let sum = tracks.iter().map(|(bytes, _)| bytes.len()).sum();
    let mut wanted = WantedReadCylinder {
        file,
        tracks_length: sum,
        marks_length: sum,
        lengths_count: tracks.len(),
    };
    if rng.chance(40) {
        lengthen_buffers(&mut rng, &mut wanted);
    }
    if rng.chance(20) {
        shorten_buffers(&mut rng, &mut wanted);
    }
    wanted
}

/// Random arguments of Write cylinder.
pub fn wanted_write_cylinder(seed: u64) -> WantedWriteCylinder {
    let mut rng = Rng::new(seed ^ 0xC711_3417);
    let tracks = any_tracks(&mut rng, seed);
    let stored = tracks.iter().map(|(bytes, _)| stored_length(bytes.len()));
    let right = first_offset(tracks.len()) + stored.sum::<usize>();
    let mut wanted = WantedWriteCylinder {
        cylinder: cylinder_of(&tracks),
        file_length: right,
    };
    if rng.chance(35) {
        for _ in 0..rng.pick(&[1, 1, 1, 2]) {
            misfit_cylinder(&mut rng, &mut wanted.cylinder);
        }
    }
    match rng.below(20) {
        0..=5 => wanted.file_length += rng.pick(&[1, 2, 8, 500, 4_503]),
        6..=8 => wanted.file_length = shorter(&mut rng, right),
        _ => {}
    }
    wanted
}

/// Up to twelve tracks, mostly one to ten and of lengths in rule.
fn any_tracks(rng: &mut Rng, seed: u64) -> Vec<Track> {
    let count = match rng.below(40) {
        0 => rng.pick(&[0, 11, 11, 12]),
        1..=3 => MOST,
        4..=12 => 1,
        13..=27 => rng.between(2, 3),
        _ => rng.between(2, MOST),
    };
    let number = |place| seed.wrapping_mul(MOST as u64).wrapping_add(place);
    let mut tracks: Vec<Track> = (0..count as u64)
        .map(|place| any_track(rng, number(place)))
        .collect();
    if rng.chance(6) && count > 0 {
        let (length, place) = (rng.pick(&WRONG_LENGTHS), rng.below(count));
        resize(&mut tracks[place], length);
    }
    tracks
}

/// A track of noise, or from one of the other generators; its length is in rule, and of each remainder by eight.
fn any_track(rng: &mut Rng, seed: u64) -> Track {
    let mut track = match rng.below(12) {
        0 => sound(seed),
        1 => damaged(seed),
        2 => jumbled(seed),
        3 => (vec![0xFF; 3_815], vec![1; 3_815]),
        _ => {
            let length = random_length(rng);
            noisy_track(rng, length)
        }
    };
    for mark in &mut track.1 {
        *mark = u8::from(*mark != 0);
    }
    let length = match track.0.len() == track.1.len() {
        true => track.0.len().clamp(3_815, 4_002),
        false => random_length(rng),
    };
    resize(&mut track, length);
    track
}

/// The track with another length; bytes that it gains are marked.
fn resize((bytes, marks): &mut Track, length: usize) {
    bytes.resize(length, 0x5A);
    marks.resize(length, 1);
}

/// A few bytes of noise, often behind a number of tracks in rule.
fn short_noise(rng: &mut Rng) -> WantedReadCylinder {
    let length = match rng.below(4) {
        0 => rng.below(5),
        1 => rng.below(12),
        _ => rng.below(90),
    };
    let mut file = rng.bytes(length);
    if rng.chance(70) {
        put(&mut file, 0, &[0, rng.between(0, 11) as u8]);
    }
    if rng.chance(80) {
        put(&mut file, 2, &[0, 0]);
    }
    let sum = rng.pick(&[0, 1, 3_815, 40_020]);
    WantedReadCylinder {
        file,
        tracks_length: sum,
        marks_length: sum,
        lengths_count: rng.below(12),
    }
}

/// Bytes at a place, as far as the file goes.
fn put(file: &mut [u8], place: usize, bytes: &[u8]) {
    for (old, new) in file.iter_mut().skip(place).zip(bytes) {
        *old = *new;
    }
}

/// One fault of a file that was laid out for tracks of these lengths.
fn put_fault(rng: &mut Rng, lengths: &[usize], file: &mut Vec<u8>) {
    match rng.below(16) {
        0 | 1 => cut(rng, lengths.len(), file),
        2 | 3 => flip_bit(rng, lengths.len(), file),
        4 => alter_count(rng, lengths.len(), file),
        5 => put(file, 2, &rng.pick(&[[0, 1], [1, 0], [0x80, 0], [0xFF; 2]])),
        6 | 7 => alter_length(rng, lengths, file),
        8..=10 => alter_offset(rng, lengths, file),
        11 => file.push(rng.byte()),
        12 => drop(file.pop()),
        13 => slip(rng, lengths, file),
        _ => set_spare_bits(rng, lengths, file),
    }
}

/// The file cut short: before the header's end, in the table or at its edge, or anywhere.
fn cut(rng: &mut Rng, count: usize, file: &mut Vec<u8>) {
    let table_end = first_offset(count);
    let length = match rng.below(6) {
        0 => rng.below(5),
        1 | 2 => rng.between(4, table_end),
        3 => rng.pick(&[table_end - 1, table_end, table_end + 1]),
        _ => rng.below(file.len() + 1),
    };
    file.truncate(length);
}

/// One bit flipped anywhere, or in the header or the table.
fn flip_bit(rng: &mut Rng, count: usize, file: &mut [u8]) {
    let within = match rng.below(3) {
        0 => file.len(),
        1 => file.len().min(4),
        _ => file.len().min(first_offset(count)),
    };
    if within > 0 {
        file[rng.below(within)] ^= 1 << rng.below(8);
    }
}

/// Another number of tracks: out of rule, in rule but for the table, or with its bytes exchanged.
fn alter_count(rng: &mut Rng, count: usize, file: &mut [u8]) {
    let count = count as u16;
    let other = match rng.below(6) {
        0 => rng.pick(&[0, 11, 12, 255, 256, 0x7FFF, 0xFFFF]),
        1 => count.swap_bytes(),
        2 => count | 0x0100,
        3 => count + 1,
        4 => count.saturating_sub(1),
        _ => rng.between(1, MOST) as u16,
    };
    put(file, 0, &other.to_be_bytes());
}

/// One of the table's entries, at times the first or the last; 0 where there is none.
fn any_entry(rng: &mut Rng, count: usize) -> usize {
    match rng.below(4) {
        0 => 0,
        1 => count.saturating_sub(1),
        _ => rng.below(count.max(1)),
    }
}

/// Another length in the table: out of range, or in range, with the offsets as they were or moved with it.
fn alter_length(rng: &mut Rng, lengths: &[usize], file: &mut [u8]) {
    let mut lengths = lengths.to_vec();
    let entry = any_entry(rng, lengths.len());
    let Some(length) = lengths.get_mut(entry) else {
        return;
    };
    *length = match rng.below(4) {
        0 => rng.pick(&WRONG_LENGTHS),
        1 => *length + 1,
        2 => length.saturating_sub(1),
        _ => random_length(rng),
    };
    put(file, 4 + 6 * entry, &(*length as u16).to_be_bytes());
    if rng.chance(40) {
        let offsets = offsets_of(&lengths, first_offset(lengths.len()), stored_length);
        put_offsets(&offsets, file);
    }
}

/// The offsets of tracks that follow each other from a first one on, each with what it takes.
fn offsets_of(lengths: &[usize], first: usize, taken: fn(usize) -> usize) -> Vec<usize> {
    let mut next = first;
    let mut offset = |&length: &usize| {
        let this = next;
        next += taken(length);
        this
    };
    lengths.iter().map(&mut offset).collect()
}

/// All offsets of the table.
fn put_offsets(offsets: &[usize], file: &mut [u8]) {
    for (entry, &offset) in offsets.iter().enumerate() {
        put(file, 6 + 6 * entry, &(offset as u32).to_be_bytes());
    }
}

/// Offsets by another rule, or one of them altered: near to it, another track's, with a higher bit, or its bytes exchanged.
fn alter_offset(rng: &mut Rng, lengths: &[usize], file: &mut [u8]) {
    let first = first_offset(lengths.len());
    let mut offsets = offsets_of(lengths, first, stored_length);
    match rng.below(8) {
        // Counted from the first track or from the table, without the marks, or with a byte of spare bits alone.
        0 => offsets = offsets_of(lengths, 0, stored_length),
        1 => offsets = offsets_of(lengths, first - 4, stored_length),
        2 => offsets = offsets_of(lengths, first, |length| length),
        3 => offsets = offsets_of(lengths, first, |length| length + length / 8 + 1),
        _ => {
            let entry = any_entry(rng, lengths.len());
            let Some(offset) = offsets.get_mut(entry) else {
                return;
            };
            *offset = match rng.below(6) {
                0 => *offset + 1,
                1 => *offset - 1,
                2 => first,
                3 => *offset ^ 1 << rng.below(32),
                4 => (*offset as u32).swap_bytes() as usize,
                _ => *offset ^ rng.pick(&[1 << 16, 1 << 31, 0xFFFF_0000]),
            };
        }
    }
    put_offsets(&offsets, file);
}

/// A byte lost or gained between two tracks or anywhere, everything behind it moved, the length kept or not.
fn slip(rng: &mut Rng, lengths: &[usize], file: &mut Vec<u8>) {
    let offsets = offsets_of(lengths, first_offset(lengths.len()), stored_length);
    let place = match rng.chance(60) && !offsets.is_empty() {
        true => rng.pick(&offsets).min(file.len()),
        false => rng.below(file.len() + 1),
    };
    let kept = rng.chance(50);
    match rng.chance(50) || place == file.len() {
        true => {
            file.insert(place, 0);
            file.truncate(file.len() - usize::from(kept));
        }
        false => {
            file.remove(place);
            file.extend(vec![0; usize::from(kept)]);
        }
    }
}

/// One or all spare bits behind the marks of a track; a length without them has its last mark altered.
fn set_spare_bits(rng: &mut Rng, lengths: &[usize], file: &mut [u8]) {
    let offsets = offsets_of(lengths, first_offset(lengths.len()), stored_length);
    let entry = any_entry(rng, lengths.len());
    let Some((offset, length)) = offsets.get(entry).zip(lengths.get(entry)) else {
        return;
    };
    let spare = spare_bits(*length);
    let bits = match rng.chance(70) {
        true => 1 << rng.below(spare.clamp(1, 7)),
        false => (1 << spare.clamp(1, 7)) - 1,
    };
    if let Some(last) = file.get_mut((offset + stored_length(*length)).wrapping_sub(1)) {
        *last |= bits;
    }
}

/// One, two or three of the buffers longer than they need be.
fn lengthen_buffers(rng: &mut Rng, wanted: &mut WantedReadCylinder) {
    let more = [0, 1, 2, 8, 600, 4_002];
    wanted.tracks_length += rng.pick(&more);
    wanted.marks_length += rng.pick(&more);
    wanted.lengths_count += rng.pick(&[0, 0, 1, 2, 9, 300]);
}

/// One of the buffers, or both of a track, shorter.
fn shorten_buffers(rng: &mut Rng, wanted: &mut WantedReadCylinder) {
    match rng.below(4) {
        0 => wanted.tracks_length = shorter(rng, wanted.tracks_length),
        1 => wanted.marks_length = shorter(rng, wanted.marks_length),
        2 => {
            let length = shorter(rng, wanted.tracks_length);
            (wanted.tracks_length, wanted.marks_length) = (length, length);
        }
        _ => {
            let count = wanted.lengths_count;
            wanted.lengths_count = rng.pick(&[count.saturating_sub(1), count / 2, 0]);
        }
    }
}

/// A shorter length: by one or a few, by a track, by its marks, or nothing.
fn shorter(rng: &mut Rng, length: usize) -> usize {
    let less = match rng.below(8) {
        0..=3 => 1,
        4 => rng.below(600),
        5 => 4_002,
        6 => length / 9,
        _ => length,
    };
    length.saturating_sub(less)
}

/// One thing of the tracks in memory that does not fit the others, or a mark out of rule.
fn misfit_cylinder(rng: &mut Rng, cylinder: &mut Cylinder) {
    match rng.below(10) {
        0 | 1 => alter_list(rng, &mut cylinder.lengths),
        2 => exchange_bytes(rng, &mut cylinder.lengths),
        3 => alter_in_list(rng, &mut cylinder.lengths),
        4 => resize_near(rng, &mut cylinder.tracks),
        5 => resize_near(rng, &mut cylinder.marks),
        6 => {
            let length = cylinder.tracks.len().saturating_sub(1) + 2 * rng.below(2);
            cylinder.tracks.resize(length, 0x5A);
            cylinder.marks.resize(length, 0);
        }
        _ => put_wrong_mark(rng, &mut cylinder.marks),
    }
}

/// Lengths lost or gained: none left, one more than the most, or far more.
fn alter_list(rng: &mut Rng, lengths: &mut Vec<u16>) {
    let count = lengths.len();
    let other = match rng.below(6) {
        0 => 0,
        1 => MOST + 1,
        2 => count + 1,
        3 => count.saturating_sub(1),
        4 => 256 + count,
        _ => rng.pick(&[10, 12, 20, 255, 65_536 + count]),
    };
    lengths.resize(other, 3_906);
}

/// One byte moved from a track to another one: the sum stays, and so does the answer where both are in range.
fn exchange_bytes(rng: &mut Rng, lengths: &mut [u16]) {
    if lengths.len() > 1 {
        let from = rng.below(lengths.len() - 1);
        lengths[from] = lengths[from].wrapping_sub(1);
        lengths[from + 1] = lengths[from + 1].wrapping_add(1);
    }
}

/// One length of the list altered alone.
fn alter_in_list(rng: &mut Rng, lengths: &mut [u16]) {
    let entry = any_entry(rng, lengths.len());
    if let Some(length) = lengths.get_mut(entry) {
        *length = match rng.below(3) {
            0 => rng.pick(&WRONG_LENGTHS) as u16,
            1 => length.swap_bytes(),
            _ => random_length(rng) as u16,
        };
    }
}

/// A slice with a byte more or less, or with none.
fn resize_near(rng: &mut Rng, slice: &mut Vec<u8>) {
    let length = slice.len();
    let near = [length + 1, length.saturating_sub(1), length + 3_906, 0];
    slice.resize(rng.pick(&near), 0);
}

/// A mark that is not 0 or 1: the first, the last, or any.
fn put_wrong_mark(rng: &mut Rng, marks: &mut [u8]) {
    let place = match rng.below(6) {
        0 => 0,
        1 => marks.len().saturating_sub(1),
        _ => rng.below(marks.len().max(1)),
    };
    if let Some(mark) = marks.get_mut(place) {
        *mark = rng.pick(&[2, 3, 128, 254, 255]);
    }
}
