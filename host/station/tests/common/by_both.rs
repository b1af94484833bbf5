//! The writing calls by the proved library and by the reference, into equal noise.

use super::{alike, expected, lent, new_body, new_sector, new_track, noise, same_buffers, Track};
use reference::generate::{damaged, sound, WantedAdd, WantedBlank, WantedCorrect};
use station::{Answer, Lent};

/// Numbers that Add can give.
pub const ADD: [u8; 15] = [0, 1, 2, 3, 4, 5, 6, 7, 8, 9, 10, 11, 13, 14, 15];
/// Numbers that Correct can give.
pub const CORRECT: [u8; 16] = [0, 1, 2, 3, 4, 5, 6, 7, 8, 9, 10, 11, 12, 13, 14, 15];

/// Four of five tracks are sound.
pub fn track_of(seed: u64) -> Track {
    match seed % 5 {
        0 => damaged(seed),
        _ => sound(seed),
    }
}

/// Buffers for a copy of a track, at times of another length.
pub fn buffers(seed: u64, length: usize) -> Track {
    match seed % 40 {
        7 => noise(seed, length + 1, length),
        17 => noise(seed, length, length - 1),
        27 => noise(seed, length - 1, length - 1),
        37 => noise(seed, 0, length),
        _ => noise(seed, length, length),
    }
}

/// Blank by both, into buffers of equal noise; gives the answer and what was written.
pub fn blank_by_both(buffers: Track, w: &WantedBlank, note: &str) -> (Answer, Track) {
    let (mut ours, mut theirs) = (buffers.clone(), buffers);
    let done = station::blank(&mut ours.0, &mut ours.1, &new_track(w));
    let same = reference::blank(
        &mut theirs.0,
        &mut theirs.1,
        w.address,
        w.flag,
        w.partner,
        w.s,
        &w.key,
        &w.data,
    );
    assert_eq!(done, expected(same), "{note}");
    same_buffers(&ours, &theirs, note);
    (done, ours)
}

/// Add by both, into buffers of equal noise.
pub fn add_by_both(old: Lent, buffers: Track, w: &WantedAdd, note: &str) -> (Answer, Track) {
    let (mut ours, mut theirs) = (buffers.clone(), buffers);
    let done = alike::add(old, &mut ours.0, &mut ours.1, &new_sector(w));
    let same = reference::add(
        old.0,
        old.1,
        &mut theirs.0,
        &mut theirs.1,
        w.b7,
        w.s,
        &w.key,
        &w.data,
        w.rule,
    );
    assert_eq!(done, expected(same), "{note}");
    same_buffers(&ours, &theirs, note);
    (done, ours)
}

/// Correct by both, into buffers of equal noise.
pub fn correct_by_both(
    old: Lent,
    buffers: Track,
    w: &WantedCorrect,
    note: &str,
) -> (Answer, Track) {
    let (mut ours, mut theirs) = (buffers.clone(), buffers);
    let done = alike::correct(old, &mut ours.0, &mut ours.1, &new_body(w));
    let same = reference::correct(
        old.0,
        old.1,
        &mut theirs.0,
        &mut theirs.1,
        w.s,
        &w.key,
        &w.data,
        w.rule,
    );
    assert_eq!(done, expected(same), "{note}");
    same_buffers(&ours, &theirs, note);
    (done, ours)
}

/// One correction into fresh noise.
pub fn corrected(seed: u64, old: &Track, w: &WantedCorrect, note: &str) -> (Answer, Track) {
    let length = old.0.len();
    correct_by_both(lent(old), noise(seed, length, length), w, note)
}
