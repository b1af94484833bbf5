//! Random tracks that obey every rule.

use super::plan::{Built, Plan, PlannedSector};
use super::rng::Rng;
use super::rules::rule_two;
use crate::gap::GapRule;
use crate::layout::*;

/// A sound track with what was put in it.
#[derive(Clone, Debug)]
pub struct Sound {
    pub plan: Plan,
    pub built: Built,
}

/// How the sectors of a track are sized.
#[derive(Clone, Copy, PartialEq, Eq)]
enum Style {
    /// Empty sectors with least gaps, as many as fit.
    Dense,
    /// One sector only.
    Single,
    /// A few sectors, with much room after the last.
    Roomy,
    /// Sectors up to the least gap before index.
    Filled,
    /// Sizes and numbers of any kind.
    Mixed,
}

/// Bytes and marks of a random accepted track.
pub fn sound(seed: u64) -> (Vec<u8>, Vec<u8>) {
    let sound = sound_plan(seed);
    (sound.built.track, sound.built.marks)
}

/// A random accepted track with its contents.
pub fn sound_plan(seed: u64) -> Sound {
    let mut rng = Rng::new(seed);
    let flag = rng.pick(&[0, 0, 0, 1, 2, 3]);
    let address = random_address(&mut rng);
    let other = other_address(&mut rng, address);
    sound_with(&mut rng, flag, address, other)
}

/// A random accepted track with a given flag, address and partner.
pub(super) fn sound_with(rng: &mut Rng, flag: u8, address: Address, partner: Address) -> Sound {
    let named = match flag {
        1 | 2 => partner,
        _ => address,
    };
    let style = random_style(rng);
    let longest = style == Style::Dense && rng.chance(40);
    let mut plan = Plan {
        length: match longest {
            true => LONGEST,
            false => random_length(rng),
        },
        home: match longest {
            true => FIRST_HOME,
            false => random_home(rng),
        },
        flag,
        address,
        named,
        sectors: Vec::new(),
    };
    let rule = rng.chance(15).then(|| rule_two(rng));
    plan.sectors = random_sectors(rng, &plan, style, rule);
    if rng.chance(20) {
        push_last_sector(rng, &mut plan);
    }
    let built = build_with_noise(rng, &plan);
    Sound { plan, built }
}

/// A track length, often at an end of its range.
pub(super) fn random_length(rng: &mut Rng) -> usize {
    match rng.below(6) {
        0 => SHORTEST,
        1 => LONGEST,
        2 => 3_906,
        _ => rng.between(SHORTEST, LONGEST),
    }
}

/// A start of the home address, often at an end of its window.
fn random_home(rng: &mut Rng) -> usize {
    match rng.below(6) {
        0 => FIRST_HOME,
        1 => LAST_HOME,
        2 => 30,
        _ => rng.between(FIRST_HOME, LAST_HOME),
    }
}

/// A cylinder and head in range.
pub(super) fn random_address(rng: &mut Rng) -> Address {
    let cylinder = match rng.below(8) {
        0 => 0,
        1 => LAST_CYLINDER,
        _ => rng.between(0, usize::from(LAST_CYLINDER)) as u16,
    };
    let head = rng.between(0, usize::from(LAST_HEAD)) as u16;
    Address { cylinder, head }
}

/// Another cylinder and head in range; often only one of the two differs.
pub(super) fn other_address(rng: &mut Rng, address: Address) -> Address {
    loop {
        let mut other = random_address(rng);
        match rng.below(4) {
            0 => other.cylinder = address.cylinder,
            1 => other.head = address.head,
            _ => {}
        }
        if other != address {
            return other;
        }
    }
}

/// One of the styles.
fn random_style(rng: &mut Rng) -> Style {
    match rng.below(10) {
        0 => Style::Dense,
        1 => Style::Single,
        2..=4 => Style::Roomy,
        5 => Style::Filled,
        _ => Style::Mixed,
    }
}

/// Sectors that fit, with distinct numbers and alternating B8, their gaps by the rule if there is one.
fn random_sectors(
    rng: &mut Rng,
    plan: &Plan,
    style: Style,
    rule: Option<GapRule>,
) -> Vec<PlannedSector> {
    let wanted = match style {
        Style::Dense => MOST_SECTORS,
        Style::Single => 1,
        Style::Roomy => rng.between(1, 6),
        Style::Filled => rng.between(1, 12),
        Style::Mixed => rng.between(2, 40),
    };
    let numbers = match rng.chance(25) {
        true => (0..=255).collect(),
        false => rng.shuffled_numbers(),
    };
    let closed = match style {
        Style::Dense => rng.pick(&[0, 4, 50, 100]),
        _ => 50,
    };
    let mut sectors = Vec::new();
    let mut place = plan.home + HOME_TO_COUNT;
    for (index, &s) in numbers.iter().take(wanted).enumerate() {
        let count_end = place + if index == 0 { 18 } else { 20 };
        let room = (plan.length - GAP_BEFORE_INDEX).saturating_sub(count_end);
        if room < GAP + 7 {
            break;
        }
        let (kl, dl) = random_sizes(rng, style, room, index + 1 == wanted);
        let mut sector = PlannedSector {
            flag: random_flag(rng, plan.flag, index),
            s,
            key: rng.bytes(kl),
            data: random_data(rng, dl),
            closed: dl == 0 && rng.chance(closed),
            gap: match rule {
                Some(rule) => rule.gap(kl, dl),
                None => random_gap(rng, style),
            },
        };
        sector.closed &= sector.blocks_length() <= room;
        place = count_end + sector.blocks_length() + sector.gap;
        sectors.push(sector);
    }
    sectors
}

/// The last sector, at times emptied, moved right until its block ends where it may at the latest, or up to three bytes before.
fn push_last_sector(rng: &mut Rng, plan: &mut Plan) {
    if let [_, .., last] = &mut plan.sectors[..] {
        if !last.data.is_empty() && rng.chance(60) {
            last.data.clear();
            last.closed = rng.chance(50);
        }
    }
    let left = plan.length - GAP_BEFORE_INDEX - plan.end();
    if let [.., before, _] = &mut plan.sectors[..] {
        before.gap += left.saturating_sub(rng.below(4));
    }
}

/// Flag of a sector: B2 B1 of home, B8 alternating, B7 at times.
fn random_flag(rng: &mut Rng, home_flag: u8, index: usize) -> u8 {
    if index == 0 {
        return home_flag;
    }
    let b8 = if index % 2 == 1 { 0x80 } else { 0 };
    let b7 = if rng.chance(20) { 0x40 } else { 0 };
    b8 | b7 | home_flag
}

/// Key and data lengths that fit in the room left after a count.
fn random_sizes(rng: &mut Rng, style: Style, room: usize, last: bool) -> (usize, usize) {
    if style == Style::Dense && rng.chance(99) {
        return (0, 0);
    }
    let most_key = room.saturating_sub(GAP + 9 + GAP + 7).min(255);
    let kl = match rng.below(6) {
        0..=2 => 0,
        3 => rng.between(0, most_key),
        _ => rng.between(0, most_key.min(16)),
    };
    let key = if kl == 0 { 0 } else { GAP + 9 + kl };
    let most_data = room.saturating_sub(key + GAP + 9);
    let dl = match (style, rng.below(8)) {
        (Style::Filled, _) if last => most_data,
        (_, 0) => 0,
        (Style::Roomy, 1 | 2) if last => 0,
        (Style::Filled | Style::Single, 1) => most_data,
        (Style::Roomy, _) => rng.between(0, most_data.min(300)),
        (Style::Single, _) => rng.between(0, most_data),
        (_, 1) => rng.between(0, most_data.min(1_500)),
        _ => rng.between(0, most_data.min(120)),
    };
    (kl, dl)
}

/// Gap after a block: the least one, or more.
fn random_gap(rng: &mut Rng, style: Style) -> usize {
    match (style, rng.below(4)) {
        (Style::Dense, _) | (_, 0) => GAP_BEFORE_OPENING,
        (_, 1) => GAP_BEFORE_OPENING + 1,
        _ => GAP_BEFORE_OPENING + rng.below(60),
    }
}

/// Data of any content, at times with the bytes of an unmarked long opening.
fn random_data(rng: &mut Rng, length: usize) -> Vec<u8> {
    let mut data = rng.bytes(length);
    if length >= 8 && rng.chance(15) {
        let place = rng.below(length - 7);
        data[place..place + 8].copy_from_slice(&LONG_OPENING);
    }
    data
}

/// Gap contents of one kind, at times with the bytes of an unmarked opening, or with the check and end byte of an empty block.
fn random_gap_bytes(rng: &mut Rng, kind: usize, length: usize) -> Vec<u8> {
    let mut gap = match kind {
        0 => vec![0x00; length],
        1 => vec![0xFF; length],
        2 => (0..length)
            .map(|_| rng.pick(&[0, 0, 0, 0xFF, 0x0E]))
            .collect(),
        _ => rng.bytes(length),
    };
    if length >= 8 && rng.chance(10) {
        let place = rng.below(length - 7);
        match rng.chance(50) {
            true => gap[place..place + 8].copy_from_slice(&LONG_OPENING),
            false => gap[place..place + 6].copy_from_slice(&SHORT_OPENING),
        }
    }
    if length >= 3 && rng.chance(15) {
        let place = match rng.chance(60) {
            true => 0,
            false => rng.below(length - 2),
        };
        gap[place..place + 3].copy_from_slice(&EMPTY_TRAILER);
    }
    gap
}

/// A built plan with random gaps and no opening in the window left of home.
fn build_with_noise(rng: &mut Rng, plan: &Plan) -> Built {
    let kind = rng.below(5);
    let mut built = plan.build(&mut |length| random_gap_bytes(rng, kind, length));
    for place in FIRST_HOME..plan.home {
        if short_opening_at(&built.track, place) {
            built.track[place + 5] = 0x0F;
        }
    }
    keep_least_gaps(rng, &mut built);
    built
}

/// Where an empty block goes on only by its gap's contents and the rest is less than the least gap, one bit of these reversed.
fn keep_least_gaps(rng: &mut Rng, built: &mut Built) {
    for index in 0..built.places.len() {
        let least = match index + 1 < built.places.len() {
            true => GAP_BEFORE_OPENING,
            false => GAP_BEFORE_INDEX,
        };
        if built.gap_after(index) < least {
            let place = built.places[index].data + 1 + rng.below(3);
            built.track[place] ^= 1 << rng.below(8);
        }
    }
    built.measure_empty_blocks();
}
