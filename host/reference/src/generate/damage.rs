//! Faults put on sound tracks.

use super::block::spoil_block;
use super::plan::{Built, Places, Plan};
use super::rng::Rng;
use super::sound::{sound_plan, Sound};
use crate::check::check;
use crate::layout::*;

/// Bytes and marks of a track with one or several faults.
pub fn damaged(seed: u64) -> (Vec<u8>, Vec<u8>) {
    let sound = sound_plan(seed);
    let mut rng = Rng::new(seed ^ 0x0DA3_A6ED);
    damage(&mut rng, sound)
}

/// One or several faults on a sound track.
pub fn damage(rng: &mut Rng, sound: Sound) -> (Vec<u8>, Vec<u8>) {
    let Sound { plan, mut built } = sound;
    let faults = match rng.below(10) {
        0..=6 => 1,
        7 | 8 => 2,
        _ => rng.between(3, 5),
    };
    for _ in 0..faults {
        put_fault(rng, &plan, &mut built);
    }
    if rng.chance(4) {
        spoil_input(rng, &mut built);
    }
    (built.track, built.marks)
}

/// One fault that keeps lengths and mark values in rule.
fn put_fault(rng: &mut Rng, plan: &Plan, built: &mut Built) {
    match rng.below(25) {
        0 => flip_bit(rng, built),
        1 | 2 => change_structure(rng, plan, built),
        3 => change_block(rng, built),
        4 => lose_marks(rng, built),
        5 | 6 => gain_mark(rng, plan, built),
        7 => plant_plain_opening(rng, plan, built),
        8 => plant_marked_opening(rng, plan, built),
        9 => plant_count(rng, plan, built),
        10 => repeat_number(rng, built),
        11 => slip(rng, built),
        12 => alter_home(rng, plan, built),
        13 => alter_length(rng, built),
        14 | 15 => alter_count(rng, built),
        16 | 17 => close_empty_block(rng, built),
        18 | 19 => cut_empty_block(rng, built),
        20 => break_ten_byte_block(rng, built),
        21 => plant_last_sector(rng, built),
        _ => drop(spoil_block(rng, built)),
    }
}

/// A random place on the track.
fn any_place(rng: &mut Rng, built: &Built) -> usize {
    rng.below(built.track.len())
}

/// A random sector's index.
fn any_sector(rng: &mut Rng, built: &Built) -> usize {
    rng.below(built.places.len())
}

/// Place of a sector's count information.
fn count_information(built: &Built, index: usize) -> usize {
    built.places[index].count + if index == 0 { 6 } else { 8 }
}

/// Check bytes written anew after changed information.
pub fn recheck(track: &mut [u8], information: usize, length: usize) {
    let end = information + length;
    let bytes = check(&track[information..end]);
    track[end..end + 2].copy_from_slice(&bytes);
}

/// A bit reversed anywhere.
fn flip_bit(rng: &mut Rng, built: &mut Built) {
    let place = any_place(rng, built);
    built.track[place] ^= 1 << rng.below(8);
}

/// A byte of the home address or of a count changed.
fn change_structure(rng: &mut Rng, plan: &Plan, built: &mut Built) {
    let place = match rng.below(3) {
        0 => plan.home + rng.below(HOME_LENGTH),
        1 => built.places[0].count + rng.below(18),
        _ => built.places[any_sector(rng, built)].count + rng.below(18),
    };
    built.track[place] ^= rng.pick(&[0x01, 0x80, 0xFF, 0x24]);
}

/// A byte of a key or data block changed, near its ends or within.
fn change_block(rng: &mut Rng, built: &mut Built) {
    let places = built.places[any_sector(rng, built)];
    let start = match places.key {
        0 => places.data,
        key => rng.pick(&[key, places.data]),
    };
    let place = match rng.below(4) {
        0 => start - 1 - rng.below(6),
        1 => places.end - 1 - rng.below(3),
        _ => rng.between(start, places.end - 1),
    };
    built.track[place] ^= 1 << rng.below(8);
}

/// One mark or both marks of an opening lost.
fn lose_marks(rng: &mut Rng, built: &mut Built) {
    let index = any_sector(rng, built);
    if index > 0 {
        let opening = built.places[index].count;
        let (from, to) = rng.pick(&[(5, 6), (6, 7), (5, 7)]);
        built.marks[opening + from..opening + to].fill(0);
    }
}

/// A mark gained anywhere, near home, near a count or near a span's end.
fn gain_mark(rng: &mut Rng, plan: &Plan, built: &mut Built) {
    let places = built.places[any_sector(rng, built)];
    let place = match rng.below(5) {
        0 => any_place(rng, built),
        1 => plan.home.saturating_sub(3) + rng.below(50),
        2 => places.count + rng.below(26),
        3 => places.end + 15 + rng.below(14),
        _ => places.end + rng.below(30),
    };
    put_mark(built, place);
}

/// A mark, if the track has the place.
fn put_mark(built: &mut Built, place: usize) {
    if let Some(mark) = built.marks.get_mut(place) {
        *mark = 1;
    }
}

/// A place for a planted opening: left of home, across it, in its window, or anywhere.
fn plant_place(rng: &mut Rng, plan: &Plan, built: &Built, length: usize) -> usize {
    match rng.below(6) {
        0 => rng.below(plan.home.saturating_sub(length) + 1),
        1 => plan.home - rng.below(length),
        2 => rng.between(FIRST_HOME - 1, LAST_HOME + 1),
        3 => built.places[0].count - 8 + rng.below(40),
        4 => built.track.len() - length - rng.below(40),
        _ => rng.below(built.track.len() - length),
    }
}

/// An unmarked opening of either length.
fn plant_plain_opening(rng: &mut Rng, plan: &Plan, built: &mut Built) {
    let opening: &[u8] = match rng.chance(60) {
        true => &SHORT_OPENING,
        false => &LONG_OPENING,
    };
    let place = plant_place(rng, plan, built, opening.len());
    let range = place..place + opening.len();
    built.track[range.clone()].copy_from_slice(opening);
    if rng.chance(70) {
        built.marks[range].fill(0);
    }
}

/// A marked opening, with nothing sensible after it.
fn plant_marked_opening(rng: &mut Rng, plan: &Plan, built: &mut Built) {
    let place = plant_place(rng, plan, built, 8);
    put_marked_opening(built, place);
}

/// The bytes and marks of a long opening.
fn put_marked_opening(built: &mut Built, place: usize) {
    built.track[place..place + 8].copy_from_slice(&LONG_OPENING);
    built.marks[place..place + 8].copy_from_slice(&LONG_MARKS);
}

/// A marked opening followed by a count that passes its check, often with a number already present.
fn plant_count(rng: &mut Rng, plan: &Plan, built: &mut Built) {
    let place = plant_place(rng, plan, built, 20);
    put_marked_opening(built, place);
    let copied = count_information(built, any_sector(rng, built));
    let mut information = built.track[copied..copied + COUNT_INFORMATION].to_vec();
    if rng.chance(50) {
        information[5] = rng.byte();
    }
    if rng.chance(50) {
        information[6..9].fill(0);
    }
    put_count_information(built, place + 8, &information);
}

/// A count's information with its check and end byte.
fn put_count_information(built: &mut Built, start: usize, information: &[u8]) {
    built.track[start..start + COUNT_INFORMATION].copy_from_slice(information);
    recheck(&mut built.track, start, COUNT_INFORMATION);
    built.track[start + 11] = END_BYTE;
}

/// A sector's number replaced by another sector's, with the right check.
fn repeat_number(rng: &mut Rng, built: &mut Built) {
    let target = count_information(built, any_sector(rng, built));
    let source = count_information(built, any_sector(rng, built));
    built.track[target + 5] = built.track[source + 5];
    recheck(&mut built.track, target, COUNT_INFORMATION);
}

/// One byte lost or gained, with its mark, everything after it shifted, the length kept.
fn slip(rng: &mut Rng, built: &mut Built) {
    let place = any_place(rng, built);
    let (byte, track_only) = (rng.byte(), rng.chance(15));
    if rng.chance(50) {
        built.track.remove(place);
        built.track.push(byte);
        if !track_only {
            built.marks.remove(place);
            built.marks.push(0);
        }
    } else {
        built.track.insert(place, byte);
        built.track.pop();
        if !track_only {
            built.marks.insert(place, 0);
            built.marks.pop();
        }
    }
}

/// A field of the home address altered, with the right check.
fn alter_home(rng: &mut Rng, plan: &Plan, built: &mut Built) {
    let start = plan.home + 6;
    alter_field(rng, &mut built.track[start..start + 5]);
    recheck(&mut built.track, start, HOME_INFORMATION);
}

/// Flag, cylinder or head altered, often to a value next to a limit.
fn alter_field(rng: &mut Rng, information: &mut [u8]) {
    match rng.below(4) {
        0 => information[0] ^= 1 << rng.below(8),
        1 => {
            let cylinder = rng.pick(&[0u16, 100, 202, 203, 256]);
            information[1..3].copy_from_slice(&cylinder.to_be_bytes());
        }
        2 => {
            let head = rng.pick(&[0u16, 9, 10, 256]);
            information[3..5].copy_from_slice(&head.to_be_bytes());
        }
        _ => information[rng.below(5)] = rng.byte(),
    }
}

/// A field of a count altered, with the right check.
fn alter_count(rng: &mut Rng, built: &mut Built) {
    let start = count_information(built, any_sector(rng, built));
    match rng.below(3) {
        0 => built.track[start + 5] = rng.byte(),
        _ => alter_field(rng, &mut built.track[start..start + 5]),
    }
    recheck(&mut built.track, start, COUNT_INFORMATION);
}

/// Key or data length of a count altered, mostly by little, with the right check.
fn alter_length(rng: &mut Rng, built: &mut Built) {
    let start = count_information(built, any_sector(rng, built));
    let step = rng.pick(&[1u8, 2, 255, 254, 20, 0]);
    let (kl, dl) = (built.track[start + 6], number_at(&built.track, start + 7));
    if rng.chance(40) {
        built.track[start + 6] = if step == 0 { 0 } else { kl.wrapping_add(step) };
    } else {
        let signed = i16::from(step as i8);
        let new = if step == 0 {
            0
        } else {
            dl.wrapping_add_signed(signed)
        };
        built.track[start + 7..start + 9].copy_from_slice(&new.to_be_bytes());
    }
    recheck(&mut built.track, start, COUNT_INFORMATION);
}

/// A random one of the sectors of this kind, if there is any.
fn some_sector(rng: &mut Rng, built: &Built, kind: fn(&Places) -> bool) -> Option<Places> {
    let places = built.places.iter().copied();
    let of_kind: Vec<Places> = places.filter(kind).collect();
    (!of_kind.is_empty()).then(|| rng.pick(&of_kind))
}

/// The check and end byte of an empty block, as far as the track goes.
fn put_empty_trailer(built: &mut Built, place: usize) {
    for (byte, value) in built.track[place..].iter_mut().zip(EMPTY_TRAILER) {
        *byte = value;
    }
}

/// Check and end byte right behind a block of seven bytes, whatever its gap, at times with a wrong zero byte or opening.
fn close_empty_block(rng: &mut Rng, built: &mut Built) {
    if let Some(places) = some_sector(rng, built, Places::is_seven) {
        put_empty_trailer(built, places.data + 1);
        let wrong = match rng.below(6) {
            0 | 1 => places.data,
            2 | 3 => places.data - 1 - rng.below(6),
            _ => return,
        };
        built.track[wrong] ^= rng.between(1, 255) as u8;
    }
}

/// Check and end byte behind an empty block's zero byte, and a mark or an opening that ends the span within them or near the least gap.
fn cut_empty_block(rng: &mut Rng, built: &mut Built) {
    let Some(places) = some_sector(rng, built, |places| places.dl == 0) else {
        return;
    };
    let behind = places.data + 1;
    put_empty_trailer(built, behind);
    let span_end = match rng.chance(60) {
        true => behind + rng.below(4),
        false => behind + rng.between(18, 27),
    };
    match rng.chance(50) && span_end + 8 <= built.track.len() {
        true => put_marked_opening(built, span_end),
        false => put_mark(built, span_end + 5),
    }
}

/// A byte of check and end byte of a block of ten bytes changed, so that it has seven.
fn break_ten_byte_block(rng: &mut Rng, built: &mut Built) {
    if let Some(places) = some_sector(rng, built, Places::is_ten) {
        let place = places.data + 1 + rng.below(3);
        built.track[place] ^= rng.pick(&[0x01, 0x80, 0xFF, 0x33, 0xCC]);
    }
}

/// A sector without key and data whose zero byte stands close to index, with check and end byte as far as the track goes.
fn plant_last_sector(rng: &mut Rng, built: &mut Built) {
    let length = built.track.len();
    let left = rng.pick(&[0, 1, 2, 3, 12, 13, 14, 15, 16, 17]);
    let place = length - left - (20 + GAP + 7);
    let copied = count_information(built, built.places.len() - 1);
    let mut information = built.track[copied..copied + COUNT_INFORMATION].to_vec();
    information[0] ^= 0x80;
    information[5] = rng.byte();
    information[6..9].fill(0);
    built.track[place..].fill(0xFF);
    built.marks[place..].fill(0);
    put_marked_opening(built, place);
    put_count_information(built, place + 8, &information);
    let block = place + 20 + GAP;
    built.track[block..block + 6].copy_from_slice(&SHORT_OPENING);
    built.track[block + 6] = 0;
    if rng.chance(80) {
        put_empty_trailer(built, block + 7);
    }
}

/// A length out of rule, or a mark value of 2.
fn spoil_input(rng: &mut Rng, built: &mut Built) {
    let length = built.track.len();
    match rng.below(5) {
        0 => resize(built, SHORTEST - 1),
        1 => resize(built, LONGEST + 1),
        2 => built.marks.truncate(length - 1),
        3 => built.marks.push(0),
        _ => {
            let place = rng.pick(&[0, length - 1, length / 2]);
            built.marks[place] = 2;
        }
    }
}

/// Both slices brought to one length.
fn resize(built: &mut Built, length: usize) {
    built.track.resize(length, 0);
    built.marks.resize(length, 0);
}
