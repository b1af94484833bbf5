//! Tracks in first-written form by gap rule one, laid out by the reference: home, sector 0, and sectors behind it.

use crate::Track;
use reference::generate::Rng;
use reference::{Address, Answer, GapRule};

/// A track with home and sector 0, which has S 0, no key and this data; the flag is 00.
pub fn with_first(length: usize, address: Address, data: &[u8]) -> Track {
    let (mut track, mut marks) = (vec![0; length], vec![0; length]);
    let done = reference::blank(&mut track, &mut marks, address, 0, address, 0, &[], data);
    assert_eq!(done, Answer::OK, "sector 0 does not fit");
    (track, marks)
}

/// The track with one more sector without a key, if it fits.
pub fn with_next(old: &Track, s: u8, data: &[u8]) -> Option<Track> {
    let (mut track, mut marks) = (vec![0; old.0.len()], vec![0; old.1.len()]);
    let rule = GapRule::One;
    let done = reference::add(
        &old.0,
        &old.1,
        &mut track,
        &mut marks,
        0,
        s,
        &[],
        data,
        rule,
    );
    (done == Answer::OK).then_some((track, marks))
}

/// So many bytes of seven bits.
pub fn seven_bits(rng: &mut Rng, count: usize) -> Vec<u8> {
    let mut bytes = rng.bytes(count);
    bytes.iter_mut().for_each(|byte| *byte &= 0x7F);
    bytes
}

/// The track with sectors 1, 2, 3 and on, each with so many bytes of data, until one does not fit or there are so many sectors with sector 0.
pub fn with_more(first: Track, rng: &mut Rng, dl: usize, most: usize) -> Track {
    let mut track = first;
    for s in 1..most {
        match with_next(&track, s as u8, &seven_bits(rng, dl)) {
            Some(longer) => track = longer,
            None => return track,
        }
    }
    track
}
