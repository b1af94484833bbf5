//! Tracks of a cylinder in memory and in a file.
//!
//! The files are laid out here one track after the other and never by the calls themselves.

use super::pairs::Track;
use super::rng::Rng;

/// The tracks of a cylinder in memory: all their bytes, all their marks, and how long each of them is.
#[derive(Clone, PartialEq, Eq, Debug)]
pub struct Cylinder {
    pub tracks: Vec<u8>,
    pub marks: Vec<u8>,
    pub lengths: Vec<u16>,
}

/// The tracks one after the other, as they stand in memory.
pub fn cylinder_of(tracks: &[Track]) -> Cylinder {
    Cylinder {
        tracks: tracks.iter().flat_map(|(bytes, _)| bytes.clone()).collect(),
        marks: tracks.iter().flat_map(|(_, marks)| marks.clone()).collect(),
        lengths: tracks.iter().map(|(bytes, _)| bytes.len() as u16).collect(),
    }
}

/// The file of any tracks, however many and however long; a mark that is not 0 counts as 1.
pub fn cylinder_file(tracks: &[Track]) -> Vec<u8> {
    let mut file = vec![0, tracks.len() as u8, 0, 0];
    let mut offset = first_offset(tracks.len());
    for (bytes, _) in tracks {
        file.extend((bytes.len() as u16).to_be_bytes());
        file.extend((offset as u32).to_be_bytes());
        offset += stored_length(bytes.len());
    }
    for (bytes, marks) in tracks {
        file.extend(bytes);
        file.extend(marks.chunks(8).map(eight_marks));
    }
    file
}

/// Where the first of so many tracks is stored.
pub(super) fn first_offset(count: usize) -> usize {
    4 + 6 * count
}

/// How many bytes a track of this length takes in a file.
pub(super) fn stored_length(length: usize) -> usize {
    length + length.div_ceil(8)
}

/// Eight marks or fewer in a byte, from its top bit on.
fn eight_marks(marks: &[u8]) -> u8 {
    let mut byte = 0;
    for place in 0..8 {
        let mark = marks.get(place).copied().unwrap_or(0);
        byte = byte << 1 | u8::from(mark != 0);
    }
    byte
}

/// How many bits behind the last mark of a track of this length are spare.
pub fn spare_bits(length: usize) -> usize {
    8 * length.div_ceil(8) - length
}

/// The sum of the lengths.
pub fn sum_of(lengths: &[u16]) -> usize {
    lengths.iter().map(|&length| usize::from(length)).sum()
}

/// Any bytes, any of them marked.
pub(super) fn noisy_track(rng: &mut Rng, length: usize) -> Track {
    let bits = rng.bytes(length / 8 + 1);
    let marks = (0..length).map(|place| bits[place / 8] >> (place % 8) & 1);
    (rng.bytes(length), marks.collect())
}

/// Tracks of these lengths with any bytes and any marks, of which the last one is set.
pub fn tracks_of(lengths: &[usize]) -> Vec<Track> {
    let mut rng = Rng::new(0xC711_7AC5);
    let track = |&length: &usize| {
        let mut track = noisy_track(&mut rng, length);
        track.1.last_mut().into_iter().for_each(|mark| *mark = 1);
        track
    };
    lengths.iter().map(track).collect()
}

/// Buffers for tracks and marks and a list, full of noise, of these lengths.
pub fn noisy_cylinder(seed: u64, [tracks, marks, lengths]: [usize; 3]) -> Cylinder {
    let mut rng = Rng::new(seed ^ 0xC711_0000);
    Cylinder {
        tracks: rng.bytes(tracks),
        marks: rng.bytes(marks),
        lengths: (0..lengths).map(|_| rng.bits() as u16).collect(),
    }
}

/// A buffer for a file, full of noise.
pub fn noisy_file(seed: u64, length: usize) -> Vec<u8> {
    Rng::new(seed ^ 0xC711_F11E).bytes(length)
}
