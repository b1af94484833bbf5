//! Tracks put together from pieces, without regard to any rule but length and mark values.

use super::pairs::Track;
use super::rng::Rng;
use super::sound::random_length;
use crate::check::check;
use crate::layout::*;

/// Bytes and marks of a track of random pieces, mostly with a home address in its window.
pub fn jumbled(seed: u64) -> Track {
    let mut rng = Rng::new(seed ^ 0x0001_0B1E);
    let length = random_length(&mut rng);
    let mut built = Track::default();
    if rng.chance(80) {
        let before = rng.between(FIRST_HOME - 1, LAST_HOME + 1);
        put(&mut built, &vec![0x55; before]);
        put_home(&mut rng, &mut built);
    }
    let loose = rng.chance(50);
    let mut b8 = 0;
    while built.0.len() < length {
        match loose && rng.chance(20) {
            true => put_loose_piece(&mut rng, &mut built),
            false => {
                b8 ^= if rng.chance(98) { 0x80 } else { 0 };
                put_marked_opening(&mut built);
                put_count(&mut rng, &mut built, b8);
            }
        }
    }
    built.0.truncate(length);
    built.1.truncate(length);
    built
}

/// Bytes without marks.
fn put(built: &mut Track, bytes: &[u8]) {
    built.0.extend_from_slice(bytes);
    built.1.resize(built.0.len(), 0);
}

/// Information with its check and end byte.
fn put_information(built: &mut Track, information: &[u8]) {
    put(built, information);
    put(built, &check(information));
    put(built, &[END_BYTE]);
}

/// Home address of cylinder 0, head 0, with sector 0's count at times.
fn put_home(rng: &mut Rng, built: &mut Track) {
    put(built, &SHORT_OPENING);
    put_information(built, &[0; HOME_INFORMATION]);
    put(built, &[0x55; GAP]);
    if rng.chance(90) {
        put(built, &SHORT_OPENING);
        put_count(rng, built, 0);
    }
}

/// A count's information with few numbers and small lengths, often with its blocks.
fn put_count(rng: &mut Rng, built: &mut Track, flag: u8) {
    let s = rng.byte() & rng.pick(&[0x0F, 0xFF, 0xFF]);
    let (kl, dl) = (rng.pick(&[0, 0, 3]), rng.pick(&[0, 1, 2, 30]));
    put_information(built, &[flag, 0, 0, 0, 0, s, kl, 0, dl]);
    if kl > 0 && rng.chance(96) {
        put_block(rng, built, kl.into());
    }
    if rng.chance(96) {
        put_block(rng, built, dl.into());
    }
    let gap = match rng.chance(5) {
        true => rng.pick(&[0, 12, 13, 18, 20]),
        false => rng.pick(&[21, 22, 40]),
    };
    put(built, &vec![0xFF; gap]);
}

/// A gap, an opening and a block of this length; an empty one at times goes on with check and end byte.
fn put_block(rng: &mut Rng, built: &mut Track, length: usize) {
    put(built, &[0x55; GAP]);
    put(built, &SHORT_OPENING);
    match length {
        0 if rng.chance(30) => put_information(built, &[0]),
        0 => put(built, &[0]),
        _ => put_information(built, &rng.bytes(length)),
    }
}

/// The opening of a later count with its marks.
fn put_marked_opening(built: &mut Track) {
    built.0.extend_from_slice(&LONG_OPENING);
    built.1.extend_from_slice(&LONG_MARKS);
}

/// An opening that nothing follows, with marks or without, or noise.
fn put_loose_piece(rng: &mut Rng, built: &mut Track) {
    match rng.below(4) {
        0 => put(built, &SHORT_OPENING),
        1 => put_marked_opening(built),
        2 => {
            put(built, &LONG_OPENING);
            let place = built.1.len() - 1 - rng.below(8);
            built.1[place] = 1;
        }
        _ => {
            let length = rng.between(1, 30);
            put(built, &rng.bytes(length));
        }
    }
}
