//! Wanted fields for Blank, Add and Correct: mostly in rule, at times not, at times too long.

use super::rng::Rng;
use super::rules::any_rule;
use super::sound::{other_address, random_address};
use crate::gap::GapRule;
use crate::layout::*;
use crate::read::{list, Sector};

/// Arguments of Blank, with the lengths of the two buffers.
#[derive(Clone, Debug)]
pub struct WantedBlank {
    pub length: usize,
    pub marks_length: usize,
    pub address: Address,
    pub flag: u8,
    pub partner: Address,
    pub s: u8,
    pub key: Vec<u8>,
    pub data: Vec<u8>,
}

/// Arguments of Add besides the tracks.
#[derive(Clone, Debug)]
pub struct WantedAdd {
    pub b7: u8,
    pub s: u8,
    pub key: Vec<u8>,
    pub data: Vec<u8>,
    pub rule: GapRule,
}

/// Arguments of Correct besides the tracks.
#[derive(Clone, Debug)]
pub struct WantedCorrect {
    pub s: u8,
    pub key: Vec<u8>,
    pub data: Vec<u8>,
    pub rule: GapRule,
}

/// Random arguments of Blank.
pub fn wanted_blank(seed: u64) -> WantedBlank {
    let mut rng = Rng::new(seed ^ 0xB1A2_4B00);
    let length = match rng.below(20) {
        0 => rng.pick(&[0, SHORTEST - 1, LONGEST + 1]),
        1..=4 => rng.pick(&[SHORTEST, 3_906, LONGEST]),
        _ => rng.between(SHORTEST, LONGEST),
    };
    let marks_length = match rng.chance(4) {
        true => length + 1,
        false => length,
    };
    let address = blank_address(&mut rng);
    let partner = match rng.below(10) {
        0 => address,
        1 => blank_address(&mut rng),
        _ => other_address(&mut rng, address),
    };
    let key = wanted_key(&mut rng);
    let used = 93 + if key.is_empty() { 0 } else { 20 + key.len() };
    let room = length.saturating_sub(GAP_BEFORE_INDEX + used);
    WantedBlank {
        length,
        marks_length,
        address,
        flag: match rng.chance(5) {
            true => rng.pick(&[4, 0x40, 0x80, 0xFF]),
            false => rng.below(4) as u8,
        },
        partner,
        s: rng.byte(),
        key,
        data: wanted_data(&mut rng, room),
    }
}

/// An address, at times just out of range.
fn blank_address(rng: &mut Rng) -> Address {
    let mut address = random_address(rng);
    match rng.below(30) {
        0 => address.cylinder = rng.pick(&[203, 255, 256, 65_535]),
        1 => address.head = rng.pick(&[10, 255, 256, 65_535]),
        _ => {}
    }
    address
}

/// A key, at times one byte too long.
fn wanted_key(rng: &mut Rng) -> Vec<u8> {
    let length = match rng.below(40) {
        0 => 256,
        1 | 2 => 255,
        3..=18 => 0,
        19..=30 => rng.between(1, 16),
        _ => rng.between(1, 200),
    };
    rng.bytes(length)
}

/// Data around the room there is, at times too long for any count.
fn wanted_data(rng: &mut Rng, room: usize) -> Vec<u8> {
    let length = match rng.below(40) {
        0 => 65_536,
        1 => 65_535,
        2..=5 => room + rng.between(1, 3),
        6..=9 => room.saturating_sub(rng.below(3)),
        10..=13 => 0,
        14..=19 => rng.between(0, room),
        _ => rng.between(0, room.min(200)),
    };
    rng.bytes(length)
}

/// The sectors of a track, none if it is not accepted.
fn sectors_of(track: &[u8], marks: &[u8]) -> Vec<Sector> {
    let mut records = [Sector::default(); MOST_SECTORS];
    let (_, number) = list(track, marks, &mut records);
    records[..number].to_vec()
}

/// Bytes of a first-written sector from its count's opening to its data block's end.
fn sector_length(index: usize, kl: usize, dl: usize) -> usize {
    let count = if index == 0 { 18 } else { 20 };
    let key = if kl == 0 { 0 } else { GAP + 9 + kl };
    let data = if dl == 0 { 7 } else { 9 + dl };
    count + key + GAP + data
}

/// A gap rule drawn apart from the other arguments, which a given rule leaves as they are but for what fits.
fn wanted_rule(seed: u64) -> GapRule {
    any_rule(&mut Rng::new(seed ^ 0x6A90_0B1E))
}

/// The rule's gap after a listed sector; a rule out of range is taken for rule one.
fn gap_after(rule: GapRule, kl: usize, dl: usize) -> usize {
    match rule.in_range() {
        true => rule.gap(kl, dl),
        false => GapRule::One.gap(kl, dl),
    }
}

/// Random arguments of Add for this track, by any gap rule.
pub fn wanted_add(seed: u64, track: &[u8], marks: &[u8]) -> WantedAdd {
    wanted_add_by(wanted_rule(seed), seed, track, marks)
}

/// Random arguments of Add for this track, by the given gap rule.
pub fn wanted_add_by(rule: GapRule, seed: u64, track: &[u8], marks: &[u8]) -> WantedAdd {
    let mut rng = Rng::new(seed ^ 0xADD0_0ADD);
    let sectors = sectors_of(track, marks);
    let key = wanted_key(&mut rng);
    let used = sectors.last().map_or(0, |last| {
        let but_for_data = sector_length(1, key.len(), 1) - 1;
        last.end + gap_after(rule, last.kl.into(), last.dl.into()) + but_for_data
    });
    let room = track.len().saturating_sub(GAP_BEFORE_INDEX + used);
    let absent = |s: &u8| sectors.iter().all(|sector| sector.s != *s);
    let s = match sectors.is_empty() || rng.chance(8) {
        true => rng.byte(),
        false => rng.shuffled_numbers().into_iter().find(absent).unwrap_or(0),
    };
    let s = match sectors.is_empty() || rng.chance(92) {
        true => s,
        false => rng.pick(&sectors).s,
    };
    WantedAdd {
        b7: match rng.chance(4) {
            true => rng.pick(&[2, 255]),
            false => rng.below(2) as u8,
        },
        s,
        key,
        data: wanted_data(&mut rng, room),
        rule,
    }
}

/// Random arguments of Correct for this track, by any gap rule.
pub fn wanted_correct(seed: u64, track: &[u8], marks: &[u8]) -> WantedCorrect {
    wanted_correct_by(wanted_rule(seed), seed, track, marks)
}

/// Random arguments of Correct for this track, by the given gap rule.
pub fn wanted_correct_by(rule: GapRule, seed: u64, track: &[u8], marks: &[u8]) -> WantedCorrect {
    let mut rng = Rng::new(seed ^ 0xC044_EC70);
    let sectors = sectors_of(track, marks);
    if sectors.is_empty() || rng.chance(8) {
        let (s, key) = (rng.byte(), wanted_key(&mut rng));
        let data = wanted_data(&mut rng, 300);
        return WantedCorrect { s, key, data, rule };
    }
    let index = rng.below(sectors.len());
    let key = wanted_key(&mut rng);
    let fits = |dl| {
        let end = corrected_end(rule, &sectors, index, (key.len(), dl));
        end + GAP_BEFORE_INDEX <= track.len()
    };
    let room = greatest(fits);
    WantedCorrect {
        s: sectors[index].s,
        key,
        data: wanted_data(&mut rng, room),
        rule,
    }
}

/// Greatest data length that still fits, or 0; every lesser one fits too.
fn greatest(fits: impl Fn(usize) -> bool) -> usize {
    let (mut room, mut step) = (0, 4_096);
    while step > 0 {
        room += if fits(room + step) { step } else { 0 };
        step /= 2;
    }
    room
}

/// Where the last block ends with these lengths of key and data in one sector, and first-written form from its count on.
fn corrected_end(
    rule: GapRule,
    sectors: &[Sector],
    index: usize,
    (kl, dl): (usize, usize),
) -> usize {
    let old = &sectors[index];
    let opening = old.data_place + 1 - sector_length(index, old.kl.into(), 0);
    let mut end = opening + sector_length(index, kl, dl);
    let mut before = (kl, dl);
    for later in &sectors[index + 1..] {
        let (kl, dl) = (usize::from(later.kl), usize::from(later.dl));
        end += gap_after(rule, before.0, before.1) + sector_length(1, kl, dl);
        before = (kl, dl);
    }
    end
}
