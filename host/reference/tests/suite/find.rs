//! Find, answer by answer.

use crate::alike::*;
use crate::common::*;
use reference::generate::{recheck, Built};
use std::ops::Range;

fn find_in(built: &Built, s: u8, part: Part) -> (Answer, Range<usize>) {
    find(&built.track, &built.marks, s, part)
}

/// Find after one change to the three-sector track.
fn after(s: u8, part: Part, change: impl FnOnce(&mut Built)) -> (Answer, Range<usize>) {
    let mut built = build(&plan());
    change(&mut built);
    find_in(&built, s, part)
}

fn refused(number: u8, place: usize) -> (Answer, Range<usize>) {
    (answer(number, place), 0..0)
}

fn refused_block(number: u8, fault: u8, place: usize) -> (Answer, Range<usize>) {
    (faulty(number, fault, place), 0..0)
}

#[test]
fn finds_keys_and_data() {
    let plan = plan();
    let built = build(&plan);
    let (done, range) = find_in(&built, 6, Part::Key);
    assert_eq!((done, &range), (answer(0, 0), &(178..181)));
    assert_eq!(built.track[range], plan.sectors[1].key);
    let (done, range) = find_in(&built, 6, Part::Data);
    assert_eq!((done, &range), (answer(0, 0), &(201..281)));
    assert_eq!(built.track[range], plan.sectors[1].data);
    assert_eq!(find_in(&built, 5, Part::Data), (answer(0, 0), 90..98));
    for (s, part) in [(5, Part::Key), (7, Part::Key), (7, Part::Data)] {
        let (done, range) = find_in(&built, s, part);
        assert_eq!(done, answer(0, 0));
        assert!(range.is_empty() && range.end <= built.track.len());
    }
}

#[test]
fn answer_1() {
    assert_eq!(after(6, Part::Key, |b| b.marks.push(0)), refused(1, 0));
    assert_eq!(after(6, Part::Key, |b| b.marks[3_905] = 2), refused(1, 0));
    let short = after(6, Part::Data, |b| {
        b.track.truncate(3_814);
        b.marks.truncate(3_814);
    });
    assert_eq!(short, refused(1, 0));
}

#[test]
fn answer_12() {
    let built = build(&plan());
    for s in (0..=255).filter(|s| !(5..=7).contains(s)) {
        assert_eq!(find_in(&built, s, Part::Data), refused(12, 0));
    }
    // Sector 0 goes with home's opening or its own, not with home's check.
    for place in [30, 35, 55, 60, 61, 69, 70, 71, 72] {
        assert_eq!(after(5, Part::Key, |b| b.track[place] ^= 1), refused(12, 0));
    }
    for place in [30, 35, 55, 60, 61, 77] {
        assert_eq!(after(5, Part::Key, |b| b.marks[place] = 1), refused(12, 0));
    }
    for place in 36..44 {
        let (done, _) = after(5, Part::Data, |b| b.track[place] ^= 1);
        assert_eq!(done, answer(0, 0));
    }
    // A later sector goes with its marks, opening, check or end byte.
    assert_eq!(after(6, Part::Key, |b| b.marks[146] = 0), refused(12, 0));
    assert_eq!(after(6, Part::Key, |b| b.marks[145] = 1), refused(12, 0));
    for place in 141..161 {
        let changed = after(6, Part::Data, |b| b.track[place] ^= 1);
        assert_eq!(changed, refused(12, 0));
    }
}

#[test]
fn other_faults_do_not_matter() {
    let found = (answer(0, 0), 201..281);
    // The other sectors, home and stray marks elsewhere.
    for place in [30, 43, 55, 72, 90, 100, 324, 340, 355] {
        assert_eq!(after(6, Part::Data, |b| b.track[place] ^= 1), found);
    }
    for place in [0, 30, 60, 100, 140, 400, 3_905] {
        assert_eq!(after(6, Part::Data, |b| b.marks[place] = 1), found);
    }
    // Flag, cylinder and head of the sector itself.
    for (offset, value) in [(0, 0x3F), (1, 200), (2, 0), (3, 1), (4, 99)] {
        let changed = after(6, Part::Data, |b| {
            b.track[149 + offset] = value;
            recheck(&mut b.track, 149, 9);
        });
        assert_eq!(changed, found);
    }
}

#[test]
fn unmarked_openings_make_no_candidate() {
    let changed = after(9, Part::Data, |b| {
        plant_count(b, 1_000, [0x80, 0, 100, 0, 7, 9, 0, 0, 0]);
        b.marks[1_005] = 0;
        b.marks[1_006] = 0;
    });
    assert_eq!(changed, refused(12, 0));
}

#[test]
fn answer_13() {
    let same = [0, 0, 0, 0, 0, 6, 0, 0, 0];
    for part in [Part::Key, Part::Data] {
        let right = after(6, part, |b| plant_count(b, 1_000, same));
        assert_eq!(right, refused(13, 1_000));
        // The second from the left is named, even if the first stands left of home.
        let left = after(6, part, |b| plant_count(b, 3, same));
        assert_eq!(left, refused(13, 141));
        let three = after(6, part, |b| {
            plant_count(b, 1_000, same);
            plant_count(b, 2_000, same);
        });
        assert_eq!(three, refused(13, 1_000));
    }
    // 13 comes before 9: the planted count has no room for its blocks.
    let crowded = after(6, Part::Key, |b| {
        plant_count(b, 1_000, [0, 0, 0, 0, 0, 6, 255, 255, 255]);
        b.track[200] ^= 1;
    });
    assert_eq!(crowded, refused(13, 1_000));
}

#[test]
fn answer_9() {
    // A mark 25 bytes behind the block leaves 20 bytes of span, one further right 21.
    for part in [Part::Key, Part::Data] {
        let near = after(6, part, |b| b.marks[284 + 25] = 1);
        assert_eq!(near, refused(9, 141));
        assert_eq!(after(6, part, |b| b.marks[284 + 26] = 1).0, answer(0, 0));
        let inside = after(6, part, |b| b.marks[178] = 1);
        assert_eq!(inside, refused(9, 141));
        // It comes before 10 and 11.
        let both = after(6, part, |b| {
            b.marks[284 + 25] = 1;
            b.track[178] ^= 1;
            b.track[201] ^= 1;
        });
        assert_eq!(both, refused(9, 141));
        // Parts that are empty are refused likewise.
        assert_eq!(after(7, part, |b| b.marks[380] = 1), refused(9, 324));
        assert_eq!(after(5, part, |b| b.marks[101 + 25] = 1), refused(9, 55));
    }
}

#[test]
fn answer_9_at_index() {
    for (shift, number) in [(3_531, 0), (3_532, 9)] {
        let mut plan = plan();
        plan.sectors[1].data = vec![1; 80 + shift];
        let place = if number == 9 { 324 + shift } else { 0 };
        let (done, _) = find_in(&build(&plan), 7, Part::Data);
        assert_eq!(done, answer(number, place));
    }
}

#[test]
fn answers_10_and_11_by_part() {
    let faults = [1, 1, 1, 1, 1, 1, 2, 2, 2, 2, 2, 3];
    for (place, fault) in (172..).zip(faults) {
        let key = after(6, Part::Key, |b| b.track[place] ^= 1);
        assert_eq!(key, refused_block(10, fault, 172));
        let data = after(6, Part::Data, |b| b.track[place] ^= 1);
        assert_eq!(data, (answer(0, 0), 201..281));
    }
    let faults = [1, 1, 2, 2, 2, 2, 3];
    for (place, fault) in [195, 200, 201, 280, 281, 282, 283].into_iter().zip(faults) {
        let data = after(6, Part::Data, |b| b.track[place] ^= 1);
        assert_eq!(data, refused_block(11, fault, 195));
        let key = after(6, Part::Key, |b| b.track[place] ^= 1);
        assert_eq!(key, (answer(0, 0), 178..181));
    }
}

/// Opening and zero byte of an empty data block are judged for data only, and nothing behind them.
#[test]
fn answer_11_of_an_empty_block() {
    for place in 355..362 {
        let fault = if place < 361 { 1 } else { 2 };
        for bit in 0..8 {
            let data = after(7, Part::Data, |b| b.track[place] ^= 1 << bit);
            assert_eq!(data, refused_block(11, fault, 355));
            let (key, _) = after(7, Part::Key, |b| b.track[place] ^= 1 << bit);
            assert_eq!(key, answer(0, 0));
        }
    }
    let both = after(7, Part::Data, |b| b.track[355..362].fill(0xCC));
    assert_eq!(both, refused_block(11, 1, 355));
    let (behind, _) = after(7, Part::Data, |b| b.track[362..372].fill(0xE7));
    assert_eq!(behind, answer(0, 0));
}

/// Every bit of openings, check bytes and end bytes.
#[test]
fn every_bit_around_the_information() {
    let blocks = [
        (6, Part::Key, 10, 172, 3),
        (6, Part::Data, 11, 195, 80),
        (5, Part::Data, 11, 84, 8),
    ];
    for (s, part, number, opening, length) in blocks {
        let end = opening + 6 + length;
        let places = (opening..opening + 6).chain(end..end + 3);
        let faults = [1, 1, 1, 1, 1, 1, 2, 2, 3];
        for (place, fault) in places.zip(faults) {
            for bit in 0..8 {
                let changed = after(s, part, |b| b.track[place] ^= 1 << bit);
                assert_eq!(changed, refused_block(number, fault, opening));
            }
        }
        for (set, first) in SETS {
            let changed = after(s, part, |b| spoil(b, opening, length, set));
            assert_eq!(changed, refused_block(number, first, opening));
        }
    }
}

/// With both blocks wrong each part is refused for its own first fault.
#[test]
fn each_part_has_its_own_fault() {
    for (key_set, key_first) in SETS {
        for (data_set, data_first) in SETS {
            let change = |b: &mut Built| {
                spoil(b, 172, 3, key_set);
                spoil(b, 195, 80, data_set);
            };
            let key = after(6, Part::Key, change);
            assert_eq!(key, refused_block(10, key_first, 172));
            let data = after(6, Part::Data, change);
            assert_eq!(data, refused_block(11, data_first, 195));
        }
    }
}

#[test]
fn finds_a_sector_left_of_home() {
    // The planted sector lies across home, whose opening stays; only its own span limits it.
    let mut built = build(&plan());
    plant_count(&mut built, 5, [0, 0, 0, 0, 0, 77, 0, 0, 2]);
    built.track[36..42].copy_from_slice(&SHORT);
    built.track[42..47].copy_from_slice(&[0x41, 0x42, 0xBE, 0xBD, 0xCC]);
    assert_eq!(find_in(&built, 77, Part::Data), (answer(0, 0), 42..44));
    assert_eq!(accepted(&built), answer(3, 30));
    for (place, fault) in [(46, 3), (45, 2), (42, 2), (41, 1)] {
        let mut spoiled = built.clone();
        spoiled.track[place] ^= 1;
        let found = find_in(&spoiled, 77, Part::Data);
        assert_eq!(found, refused_block(11, fault, 36));
    }
}
