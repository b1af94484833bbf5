//! Accept, answer by answer.

use crate::alike::*;
use crate::common::*;
use reference::generate::{recheck, Built, Plan};

/// Accept after one change to the three-sector track.
fn after(change: impl FnOnce(&mut Built)) -> Answer {
    let mut built = build(&plan());
    change(&mut built);
    accepted(&built)
}

/// Accept after one change to the plan.
fn planned(change: impl FnOnce(&mut Plan)) -> Answer {
    let mut plan = plan();
    change(&mut plan);
    accepted(&build(&plan))
}

// Places on the three-sector track.
const COUNT_0: usize = 55;
const DATA_0: usize = 84;
const COUNT_1: usize = 141;
const KEY_1: usize = 172;
const DATA_1: usize = 195;
const COUNT_2: usize = 324;
const DATA_2: usize = 355;

#[test]
fn the_plain_track_is_accepted() {
    let built = build(&plan());
    assert_eq!(accepted(&built), answer(0, 0));
    let places: Vec<usize> = built.places.iter().map(|places| places.count).collect();
    assert_eq!(places, [COUNT_0, COUNT_1, COUNT_2]);
    assert_eq!(built.places[1].key, KEY_1 + 6);
    assert_eq!(built.places[1].data, DATA_1 + 6);
    assert_eq!(built.places[2].data, DATA_2 + 6);
}

#[test]
fn answer_1() {
    assert_eq!(after(|b| b.marks.push(0)), answer(1, 0));
    assert_eq!(after(|b| b.marks.truncate(3_905)), answer(1, 0));
    assert_eq!(after(|b| b.track.truncate(3_905)), answer(1, 0));
    for place in [0, 30, COUNT_1 + 5, 3_905] {
        assert_eq!(after(|b| b.marks[place] = 2), answer(1, 0));
        assert_eq!(after(|b| b.marks[place] = 255), answer(1, 0));
    }
    assert_eq!(accept(&[], &[]), answer(1, 0));
}

#[test]
fn answer_2() {
    for offset in 0..6 {
        assert_eq!(after(|b| b.track[30 + offset] ^= 1), answer(2, 23));
        assert_eq!(after(|b| b.marks[30 + offset] = 1), answer(2, 23));
    }
}

#[test]
fn home_is_the_leftmost_opening_in_the_window() {
    let plant_at = |place: usize| after(|b| b.track[place..place + 6].copy_from_slice(&SHORT));
    assert_eq!(plant_at(22), answer(0, 0));
    assert_eq!(plant_at(23), answer(3, 23));
    assert_eq!(plant_at(24), answer(3, 24));
    // An opening whose bytes carry a mark does not count; the mark itself is then stray.
    let marked = after(|b| {
        b.track[23..29].copy_from_slice(&SHORT);
        b.marks[28] = 1;
    });
    assert_eq!(marked, answer(5, 28));
    let right =
        |place: usize| planned_with(23, |b| b.track[place..place + 6].copy_from_slice(&SHORT));
    assert_eq!(right(37), answer(0, 0));
}

/// Accept after a change to the track with its home address elsewhere.
fn planned_with(home: usize, change: impl FnOnce(&mut Built)) -> Answer {
    let mut plan = plan();
    plan.home = home;
    let mut built = build(&plan);
    change(&mut built);
    accepted(&built)
}

#[test]
fn answer_3() {
    for place in 36..44 {
        assert_eq!(after(|b| b.track[place] ^= 0x10), answer(3, 30));
    }
    let swapped = after(|b| b.track.swap(41, 42));
    assert_eq!(swapped, answer(3, 30));
}

#[test]
fn answer_4() {
    for flag in [0x04, 0x08, 0x10, 0x20, 0x40, 0x80, 0xFF] {
        assert_eq!(planned(|p| p.flag = flag), answer(4, 30));
    }
    let high = after(|b| {
        b.track[39] = 10;
        recheck(&mut b.track, 36, 5);
    });
    assert_eq!(high, answer(4, 30));
}

#[test]
fn answer_5_marks_outside_openings() {
    for place in [
        0,
        22,
        36,
        43,
        44,
        54,
        COUNT_0,
        72,
        73,
        90,
        COUNT_1 - 1,
        3_905,
    ] {
        assert_eq!(after(|b| b.marks[place] = 1), answer(5, place));
    }
    // The lowest of several is named.
    let two = after(|b| {
        b.marks[3_000] = 1;
        b.marks[1_000] = 1;
    });
    assert_eq!(two, answer(5, 1_000));
}

#[test]
fn answer_5_marks_of_broken_openings() {
    for offset in [0, 1, 2, 3, 4, 7] {
        let lowest = COUNT_1 + offset.min(5);
        assert_eq!(after(|b| b.marks[COUNT_1 + offset] = 1), answer(5, lowest));
    }
    assert_eq!(after(|b| b.marks[COUNT_1 + 5] = 0), answer(5, COUNT_1 + 6));
    assert_eq!(after(|b| b.marks[COUNT_1 + 6] = 0), answer(5, COUNT_1 + 5));
    for offset in 0..8 {
        let broken = after(|b| b.track[COUNT_1 + offset] ^= 1);
        assert_eq!(broken, answer(5, COUNT_1 + 5));
    }
    // A mark just before or after the opening is not in it, though the opening stays whole.
    assert_eq!(after(|b| b.marks[COUNT_1 - 1] = 1), answer(5, COUNT_1 - 1));
    assert_eq!(after(|b| b.marks[COUNT_1 + 8] = 1), answer(5, COUNT_1 + 8));
}

#[test]
fn answer_5_openings_too_far_left_or_cut_off() {
    for place in [0, 10, 22, 46, 60, 72] {
        assert_eq!(after(|b| plant(b, place)), answer(5, place + 5));
    }
    // At home + 43 the opening is in place, and leaves sector 0 no room.
    assert_eq!(after(|b| plant(b, 73)), answer(9, COUNT_0));
    assert_eq!(after(|b| plant(b, 3_906 - 8)), answer(9, 3_906 - 8));
    let cut = after(|b| {
        b.track[3_899..].copy_from_slice(&LONG[..7]);
        b.marks[3_904..].copy_from_slice(&[1, 1]);
    });
    assert_eq!(cut, answer(5, 3_904));
}

#[test]
fn answer_6() {
    for offset in 0..6 {
        let broken = after(|b| b.track[COUNT_0 + offset] ^= 0x80);
        assert_eq!(broken, answer(6, COUNT_0));
    }
}

#[test]
fn answer_7() {
    for place in 61..73 {
        assert_eq!(after(|b| b.track[place] ^= 2), answer(7, COUNT_0));
    }
    for place in COUNT_1 + 8..COUNT_1 + 20 {
        assert_eq!(after(|b| b.track[place] ^= 2), answer(7, COUNT_1));
    }
}

#[test]
fn answer_8_flags() {
    for flag in [0x80, 0x40, 0x20, 0x10, 0x08, 0x04, 0x02, 0x01] {
        assert_eq!(planned(|p| p.sectors[0].flag = flag), answer(8, COUNT_0));
    }
    for flag in [0x00, 0x40, 0x81, 0x82, 0x83, 0xA0, 0x90, 0x88, 0x84] {
        assert_eq!(planned(|p| p.sectors[1].flag = flag), answer(8, COUNT_1));
    }
    for flag in [0x80, 0xC0, 0x01] {
        assert_eq!(planned(|p| p.sectors[2].flag = flag), answer(8, COUNT_2));
    }
    assert_eq!(planned(|p| p.sectors[1].flag = 0xC0), answer(0, 0));
    assert_eq!(planned(|p| p.sectors[2].flag = 0x40), answer(0, 0));
}

#[test]
fn answer_8_addresses() {
    for flag in [0, 3] {
        assert_eq!(accepted(&build(&flagged(flag, HERE))), answer(0, 0));
        let named = accepted(&build(&flagged(flag, THERE)));
        assert_eq!(named, answer(8, COUNT_0));
    }
    let at = |cylinder, head| Address { cylinder, head };
    for flag in [1, 2] {
        for named in [THERE, at(100, 6), at(99, 7), at(202, 9), at(0, 0)] {
            assert_eq!(accepted(&build(&flagged(flag, named))), answer(0, 0));
        }
        for named in [HERE, at(203, 0), at(0, 10), at(356, 7), at(100, 263)] {
            let refused = accepted(&build(&flagged(flag, named)));
            assert_eq!(refused, answer(8, COUNT_0));
        }
    }
}

#[test]
fn answer_8_counts_that_differ() {
    for flag in [0, 1, 2, 3] {
        let named = if flag == 1 || flag == 2 { THERE } else { HERE };
        for (index, count) in [COUNT_1, COUNT_2].into_iter().enumerate() {
            for offset in 1..5 {
                let mut built = build(&flagged(flag, named));
                built.track[count + 8 + offset] ^= 1;
                recheck(&mut built.track, count + 8, 9);
                assert_eq!(accepted(&built), answer(8, count), "{flag} {index}");
            }
        }
    }
}

#[test]
fn answer_9_for_counts() {
    // Nineteen bytes are too few for a count, twenty are enough and fail later.
    assert_eq!(after(|b| plant(b, 3_906 - 19)), answer(9, 3_887));
    assert_eq!(after(|b| plant(b, 3_906 - 20)), answer(7, 3_886));
    let two = |distance: usize| {
        after(|b| {
            plant(b, 1_000);
            plant(b, 1_000 + distance);
        })
    };
    assert_eq!(two(8), answer(9, 1_000));
    assert_eq!(two(19), answer(9, 1_000));
    assert_eq!(two(20), answer(7, 1_000));
    // Even a checked count is refused for its blocks when only the count fits.
    let checked = after(|b| {
        plant_count(b, 1_000, [0x80, 0, 100, 0, 7, 9, 0, 0, 0]);
        plant(b, 1_020);
    });
    assert_eq!(checked, answer(9, 1_000));
}

#[test]
fn answer_9_for_blocks() {
    for index in 0..2 {
        assert_eq!(planned(|p| p.sectors[index].gap = 21), answer(0, 0));
        let place = [COUNT_0, COUNT_1][index];
        assert_eq!(planned(|p| p.sectors[index].gap = 20), answer(9, place));
    }
    // The last block ends 13 or 12 bytes before index.
    let last = |dl: usize| planned(|p| p.sectors[1].data = vec![9; dl]);
    assert_eq!(last(80 + 3_531), answer(0, 0));
    assert_eq!(last(80 + 3_532), answer(9, COUNT_2 + 3_532));
    assert_eq!(
        after(|b| set_lengths(b, COUNT_1 + 8, 3, 65_535)),
        answer(9, COUNT_1)
    );
    assert_eq!(
        after(|b| set_lengths(b, COUNT_1 + 8, 255, 80)),
        answer(9, COUNT_1)
    );
}

/// Other key and data lengths in a count, with the right check.
fn set_lengths(built: &mut Built, information: usize, kl: u8, dl: u16) {
    built.track[information + 6] = kl;
    built.track[information + 7..information + 9].copy_from_slice(&dl.to_be_bytes());
    recheck(&mut built.track, information, 9);
}

/// The key, and the two data blocks that are not empty: the number that refuses each, its opening and its length.
const BLOCKS: [(u8, usize, usize); 3] = [(10, KEY_1, 3), (11, DATA_0, 8), (11, DATA_1, 80)];

#[test]
fn answer_10() {
    let faults = [1, 1, 1, 1, 1, 1, 2, 2, 2, 2, 2, 3];
    for (place, fault) in (KEY_1..).zip(faults) {
        let changed = after(|b| b.track[place] ^= 4);
        assert_eq!(changed, faulty(10, fault, KEY_1));
    }
    // A key length that is wrong by one misses its end.
    for kl in [2, 4] {
        assert_eq!(
            after(|b| set_lengths(b, COUNT_1 + 8, kl, 80)),
            faulty(10, 2, KEY_1)
        );
    }
}

#[test]
fn answer_11() {
    let faults = [(0, 1), (5, 1), (6, 2), (13, 2), (14, 2), (15, 2), (16, 3)];
    for (offset, fault) in faults {
        let changed = after(|b| b.track[DATA_0 + offset] ^= 4);
        assert_eq!(changed, faulty(11, fault, DATA_0));
    }
    let faults = [(0, 1), (5, 1), (6, 2), (45, 2), (86, 2), (87, 2), (88, 3)];
    for (offset, fault) in faults {
        let changed = after(|b| b.track[DATA_1 + offset] ^= 4);
        assert_eq!(changed, faulty(11, fault, DATA_1));
    }
    // Without its key a sector's data is looked for at the key's place, which opens but fails.
    assert_eq!(
        after(|b| set_lengths(b, COUNT_1 + 8, 0, 80)),
        faulty(11, 2, KEY_1)
    );
}

/// The block of DL = 0: its opening is 1, its zero byte 2, and nothing is 3.
#[test]
fn answer_11_of_an_empty_block() {
    for offset in 0..6 {
        for bit in 0..8 {
            let changed = after(|b| b.track[DATA_2 + offset] ^= 1 << bit);
            assert_eq!(changed, faulty(11, 1, DATA_2));
        }
    }
    for byte in 1..=255 {
        let changed = after(|b| b.track[DATA_2 + 6] = byte);
        assert_eq!(changed, faulty(11, 2, DATA_2));
        let both = after(|b| {
            b.track[DATA_2 + 6] = byte;
            b.track[DATA_2] = byte;
        });
        assert_eq!(both, faulty(11, 1, DATA_2));
    }
    // After the single zero byte nothing is looked at, also where check and end byte would stand.
    assert_eq!(after(|b| b.track[DATA_2 + 7..].fill(0xE7)), answer(0, 0));
    for offset in 7..10 {
        assert_eq!(after(|b| b.track[DATA_2 + offset] = 0xCC), answer(0, 0));
    }
}

#[test]
fn every_bit_of_an_opening() {
    for (number, opening, _) in BLOCKS {
        for (offset, bit) in (0..6).flat_map(|offset| (0..8).map(move |bit| (offset, bit))) {
            let changed = after(|b| b.track[opening + offset] ^= 1 << bit);
            assert_eq!(changed, faulty(number, 1, opening), "{offset} {bit}");
        }
    }
}

#[test]
fn every_bit_of_information_and_check() {
    for (number, opening, length) in BLOCKS {
        for bit in 0..8 * (length + 2) {
            let place = opening + 6 + bit / 8;
            let changed = after(|b| b.track[place] ^= 1 << (bit % 8));
            assert_eq!(changed, faulty(number, 2, opening), "{bit}");
        }
        // The check's two bytes are not one another.
        let swapped = after(|b| {
            let end = opening + 6 + length;
            assert_ne!(b.track[end], b.track[end + 1]);
            b.track.swap(end, end + 1);
        });
        assert_eq!(swapped, faulty(number, 2, opening));
    }
}

#[test]
fn every_other_end_byte() {
    for (number, opening, length) in BLOCKS {
        for byte in (0..=255).filter(|&byte| byte != 0xCC) {
            let changed = after(|b| b.track[opening + 6 + length + 2] = byte);
            assert_eq!(changed, faulty(number, 3, opening), "{byte}");
        }
        // Information that goes with its check is no fault, and leaves the end byte the first one.
        let renewed = |end_byte: u8| {
            after(|b| {
                b.track[opening + 6] ^= 0x3C;
                recheck(&mut b.track, opening + 6, length);
                b.track[opening + 6 + length + 2] = end_byte;
            })
        };
        assert_eq!(renewed(0xCC), answer(0, 0));
        assert_eq!(renewed(0xCD), faulty(number, 3, opening));
    }
}

#[test]
fn the_first_of_several_faults_in_a_block() {
    for (number, opening, length) in BLOCKS {
        for (set, first) in SETS {
            let changed = after(|b| spoil(b, opening, length, set));
            assert_eq!(changed, faulty(number, first, opening), "{set:?}");
        }
    }
}

/// With both blocks of a sector wrong the key is named, with its own fault.
#[test]
fn the_key_comes_before_the_data() {
    for (key_set, first) in SETS {
        for (data_set, _) in SETS {
            let changed = after(|b| {
                spoil(b, KEY_1, 3, key_set);
                spoil(b, DATA_1, 80, data_set);
            });
            assert_eq!(changed, faulty(10, first, KEY_1));
        }
    }
}

/// Every new fault of a block comes before those already there.
#[test]
fn order_of_the_faults() {
    let mut b = build(&plan());
    b.track[DATA_2 + 6] = 1;
    assert_eq!(accepted(&b), faulty(11, 2, DATA_2));
    b.track[DATA_2] = 1;
    assert_eq!(accepted(&b), faulty(11, 1, DATA_2));
    for (number, opening, length) in [(11, DATA_1, 80), (10, KEY_1, 3), (11, DATA_0, 8)] {
        b.track[opening + 6 + length + 2] = 0;
        assert_eq!(accepted(&b), faulty(number, 3, opening));
        b.track[opening + 6 + length] ^= 1;
        assert_eq!(accepted(&b), faulty(number, 2, opening));
        b.track[opening + 5] = 0;
        assert_eq!(accepted(&b), faulty(number, 1, opening));
    }
    b.track[COUNT_0 + 17] = 0;
    assert_eq!(accepted(&b), answer(7, COUNT_0));
}

#[test]
fn answer_13() {
    assert_eq!(planned(|p| p.sectors[1].s = 5), answer(13, COUNT_1));
    assert_eq!(planned(|p| p.sectors[2].s = 5), answer(13, COUNT_2));
    assert_eq!(planned(|p| p.sectors[2].s = 6), answer(13, COUNT_2));
    // The leftmost repeating sector is named, not the leftmost number that is repeated.
    let nested = [1, 2, 2, 1].map(|s| sector(0, s, 0, 0));
    let built = build(&alternating(nested.to_vec()));
    assert_eq!(accepted(&built), answer(13, built.places[2].count));
}

/// A plan with these sectors and the right flags.
fn alternating(sectors: Vec<reference::generate::PlannedSector>) -> Plan {
    let mut plan = plan();
    plan.sectors = sectors;
    for (index, sector) in plan.sectors.iter_mut().enumerate() {
        sector.flag = if index % 2 == 1 { 0x80 } else { 0 };
    }
    plan
}

/// Every new fault comes before those already there, so the answer changes with each.
#[test]
fn order_of_the_answers() {
    let mut plan = plan();
    plan.sectors[2].s = 5;
    let mut b = build(&plan);
    assert_eq!(accepted(&b), answer(13, COUNT_2));
    b.track[DATA_2 + 6] = 1;
    assert_eq!(accepted(&b), faulty(11, 2, DATA_2));
    b.track[DATA_1 + 6] ^= 1;
    assert_eq!(accepted(&b), faulty(11, 2, DATA_1));
    b.track[KEY_1 + 6] ^= 1;
    assert_eq!(accepted(&b), faulty(10, 2, KEY_1));
    set_lengths(&mut b, COUNT_1 + 8, 3, 200);
    assert_eq!(accepted(&b), answer(9, COUNT_1));
    b.track[COUNT_1 + 8] = 0;
    recheck(&mut b.track, COUNT_1 + 8, 9);
    assert_eq!(accepted(&b), answer(8, COUNT_1));
    b.track[COUNT_1 + 19] = 0;
    assert_eq!(accepted(&b), answer(7, COUNT_1));
    plant(&mut b, COUNT_1 + 19);
    assert_eq!(accepted(&b), answer(9, COUNT_1));
    b.track[DATA_0 + 6] ^= 1;
    assert_eq!(accepted(&b), faulty(11, 2, DATA_0));
    b.track[72] = 0;
    assert_eq!(accepted(&b), answer(7, COUNT_0));
    b.track[COUNT_0] = 1;
    assert_eq!(accepted(&b), answer(6, COUNT_0));
    b.marks[2_000] = 1;
    assert_eq!(accepted(&b), answer(5, 2_000));
    b.track[36] = 4;
    recheck(&mut b.track, 36, 5);
    assert_eq!(accepted(&b), answer(4, 30));
    b.track[43] = 0;
    assert_eq!(accepted(&b), answer(3, 30));
    b.track[35] = 0;
    assert_eq!(accepted(&b), answer(2, 23));
    b.marks[3_905] = 3;
    assert_eq!(accepted(&b), answer(1, 0));
}

#[test]
fn sixty_seven_sectors() {
    let sectors = (0..67).map(|s| {
        let mut empty = sector(0, s, 0, 0);
        empty.gap = 21;
        empty
    });
    let mut plan = alternating(sectors.collect());
    (plan.length, plan.home) = (4_002, 23);
    let built = build(&plan);
    assert_eq!(accepted(&built), answer(0, 0));
    // Any further opening takes the least gap of the 67th sector.
    let mut more = built.clone();
    plant(&mut more, 4_002 - 8);
    assert_eq!(accepted(&more), answer(9, built.places[66].count));
    // One byte less of track is too little for the last gap only where it was the least.
    let spare = 4_002 - built.places[66].end - 13;
    plan.length -= spare;
    assert_eq!(accepted(&build(&plan)), answer(0, 0));
    plan.length -= 1;
    assert_eq!(accepted(&build(&plan)), answer(9, built.places[66].count));
}
