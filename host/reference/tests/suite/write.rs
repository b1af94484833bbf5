//! Blank, Add and Correct.

use crate::alike::*;
use crate::common::*;
use reference::generate::{Built, Plan};

pub const L: usize = 3_906;

/// Two buffers full of noise.
fn noise(length: usize) -> (Vec<u8>, Vec<u8>) {
    (vec![0xA5; length], vec![0x5A; length])
}

fn is_noise(pair: &(Vec<u8>, Vec<u8>)) -> bool {
    pair.0.iter().all(|&byte| byte == 0xA5) && pair.1.iter().all(|&mark| mark == 0x5A)
}

/// Blank with sector number 9 into noise.
fn blank_with(
    address: (u16, u16),
    flag: u8,
    partner: (u16, u16),
    key: &[u8],
    data: &[u8],
) -> (Answer, (Vec<u8>, Vec<u8>)) {
    let at = |(cylinder, head)| Address { cylinder, head };
    let mut pair = noise(L);
    let done = blank(
        &mut pair.0,
        &mut pair.1,
        at(address),
        flag,
        at(partner),
        9,
        key,
        data,
    );
    if done.number != 0 {
        assert!(is_noise(&pair));
    }
    (done, pair)
}

/// Add by rule one.
pub fn add_to(built: &Built, b7: u8, s: u8, key: &[u8], data: &[u8]) -> (Answer, Built) {
    add_by(GapRule::One, built, b7, s, key, data)
}

/// Add by a rule, into noise that a refusal leaves.
pub fn add_by(
    rule: GapRule,
    built: &Built,
    b7: u8,
    s: u8,
    key: &[u8],
    data: &[u8],
) -> (Answer, Built) {
    let mut pair = noise(built.track.len());
    let done = add(
        &built.track,
        &built.marks,
        &mut pair.0,
        &mut pair.1,
        b7,
        s,
        key,
        data,
        rule,
    );
    assert_eq!(done.number != 0, is_noise(&pair));
    (done, rebuilt(pair))
}

/// Correct by rule one.
pub fn correct_in(built: &Built, s: u8, key: &[u8], data: &[u8]) -> (Answer, Built) {
    correct_by(GapRule::One, built, s, key, data)
}

/// Correct by a rule, into noise that a refusal leaves.
pub fn correct_by(rule: GapRule, built: &Built, s: u8, key: &[u8], data: &[u8]) -> (Answer, Built) {
    let mut pair = noise(built.track.len());
    let done = correct(
        &built.track,
        &built.marks,
        &mut pair.0,
        &mut pair.1,
        s,
        key,
        data,
        rule,
    );
    assert_eq!(done.number != 0, is_noise(&pair));
    (done, rebuilt(pair))
}

fn rebuilt((track, marks): (Vec<u8>, Vec<u8>)) -> Built {
    Built {
        track,
        marks,
        places: Vec::new(),
    }
}

/// A plan's track with every gap in first-written form by rule one; home must stand at 30.
pub fn first_written(plan: &Plan) -> Built {
    let mut plan = plan.clone();
    for sector in &mut plan.sectors {
        sector.gap = 21 + (sector.key.len() + sector.data.len()) / 20;
    }
    with_written_gaps(&plan)
}

/// A plan's track with first-written contents in its gaps, which are as long as planned.
pub fn with_written_gaps(plan: &Plan) -> Built {
    let mut nth = 0;
    plan.build(&mut |length| {
        nth += 1;
        match (nth, length) {
            (1 | 2, _) => vec![0; length],
            (_, 11) => [vec![0xFF; 9], vec![0; 2]].concat(),
            _ => vec![0xFF; length],
        }
    })
}

#[test]
fn blank_writes_first_written_form() {
    for (flag, named) in [(0, HERE), (1, THERE), (2, THERE), (3, HERE)] {
        for (kl, dl) in [(0, 0), (0, 1), (1, 0), (255, 3_000), (3, 80)] {
            let mut plan = flagged(flag, named);
            plan.sectors = vec![sector(flag, 9, kl, dl)];
            let expected = first_written(&plan);
            let only = &plan.sectors[0];
            let (done, pair) = blank_with((100, 7), flag, (201, 3), &only.key, &only.data);
            assert_eq!(done, answer(0, 0));
            assert_eq!(pair, (expected.track, expected.marks));
            assert_eq!(accept(&pair.0, &pair.1), answer(0, 0));
            let (done, range) = find(&pair.0, &pair.1, 9, Part::Data);
            assert_eq!((done, &pair.0[range]), (answer(0, 0), &only.data[..]));
        }
    }
}

#[test]
fn blank_answer_1() {
    for (length, marks) in [
        (3_814, 3_814),
        (4_003, 4_003),
        (L, L - 1),
        (L, L + 1),
        (0, 0),
    ] {
        let mut pair = (vec![0xA5; length], vec![0x5A; marks]);
        // Even with a wanted field out of rule.
        let done = blank(&mut pair.0, &mut pair.1, HERE, 4, HERE, 0, &[0; 256], &[]);
        assert_eq!(done, answer(1, 0));
        assert!(is_noise(&pair));
    }
    for length in [3_815, 4_002] {
        let mut pair = noise(length);
        let done = blank(&mut pair.0, &mut pair.1, HERE, 0, HERE, 0, &[], &[]);
        assert_eq!(done, answer(0, 0));
    }
}

#[test]
fn blank_answer_14() {
    let number = |address, flag, partner| blank_with(address, flag, partner, &[], &[]).0.number;
    assert_eq!(number((202, 9), 0, (0, 0)), 0);
    assert_eq!(number((203, 9), 0, (0, 0)), 14);
    assert_eq!(number((202, 10), 0, (0, 0)), 14);
    assert_eq!(number((65_535, 0), 0, (0, 0)), 14);
    for flag in [4, 0x40, 0x80, 255] {
        assert_eq!(number((0, 0), flag, (1, 1)), 14);
    }
    for flag in [0, 3] {
        assert_eq!(number((5, 5), flag, (999, 999)), 0);
        assert_eq!(number((5, 5), flag, (5, 5)), 0);
    }
    for flag in [1, 2] {
        assert_eq!(number((5, 5), flag, (5, 5)), 14);
        assert_eq!(number((5, 5), flag, (5, 6)), 0);
        assert_eq!(number((5, 5), flag, (6, 5)), 0);
        assert_eq!(number((5, 5), flag, (203, 5)), 14);
        assert_eq!(number((5, 5), flag, (5, 10)), 14);
    }
    let sizes = |kl, dl| blank_with((5, 5), 0, (0, 0), &vec![1; kl], &vec![1; dl]).0;
    assert_eq!(sizes(255, 0), answer(0, 0));
    assert_eq!(sizes(256, 0), answer(14, 0));
    assert_eq!(sizes(0, 65_535), answer(15, 0));
    assert_eq!(sizes(0, 65_536), answer(14, 0));
    assert_eq!(sizes(256, 65_536), answer(14, 0));
}

#[test]
fn blank_answer_15_with_a_key() {
    let sizes = |kl, dl| blank_with((5, 5), 0, (0, 0), &vec![1; kl], &vec![1; dl]).0;
    assert_eq!(sizes(10, 3_770), answer(0, 0));
    assert_eq!(sizes(10, 3_771), answer(15, 0));
    assert_eq!(sizes(255, 3_525), answer(0, 0));
    assert_eq!(sizes(255, 3_526), answer(15, 0));
}

#[test]
fn add_keeps_what_is_there() {
    for (flag, named) in [(0, HERE), (1, THERE), (2, THERE), (3, HERE)] {
        let old = build(&flagged(flag, named));
        let end = old.places[2].end;
        let (done, new) = add_to(&old, 1, 200, &[4, 5], &[6; 40]);
        assert_eq!(done, answer(0, 0));
        assert_eq!(accepted(&new), answer(0, 0));
        assert_eq!(new.track[..end], old.track[..end]);
        assert_eq!(new.marks[..end], old.marks[..end]);
        // The last block was empty, so its gap has 21 bytes.
        assert_eq!(new.track[end..end + 21], [0xFF; 21]);
        assert_eq!(new.track[end + 21..end + 29], LONG);
        let count = end + 29;
        assert_eq!(new.track[count], 0xC0 | flag);
        assert_eq!(new.track[count + 1..count + 5], old.track[62..66]);
        let (done, range) = find(&new.track, &new.marks, 200, Part::Data);
        assert_eq!((done, &new.track[range]), (answer(0, 0), &[6; 40][..]));
        assert!(new.marks[end + 29..].iter().all(|&mark| mark == 0));
        let last = &new.track[count + 12 + 11 + 11 + 11 + 49..];
        assert!(last.iter().all(|&byte| byte == 0xFF));
    }
}

#[test]
fn added_sectors_make_first_written_form() {
    let mut plan = plan();
    plan.sectors[1].flag |= 0x40;
    let first = plan.sectors[0].clone();
    let mut pair = noise(L);
    let done = blank(&mut pair.0, &mut pair.1, HERE, 0, HERE, 5, &[], &first.data);
    assert_eq!(done, answer(0, 0));
    let mut built = rebuilt(pair);
    for sector in &plan.sectors[1..] {
        let b7 = sector.flag >> 6 & 1;
        let (done, new) = add_to(&built, b7, sector.s, &sector.key, &sector.data);
        assert_eq!(done, answer(0, 0));
        built = new;
    }
    let expected = first_written(&plan);
    assert_eq!(built.track, expected.track);
    assert_eq!(built.marks, expected.marks);
}

#[test]
fn add_refusals() {
    let built = build(&plan());
    assert_eq!(add_to(&built, 2, 5, &[], &[]).0, answer(14, 0));
    assert_eq!(add_to(&built, 0, 5, &[0; 256], &[]).0, answer(14, 0));
    let long = vec![0; 65_536];
    assert_eq!(add_to(&built, 0, 5, &[], &long).0, answer(14, 0));
    // 13 names the sector present, and comes before 15.
    assert_eq!(add_to(&built, 0, 5, &[], &long[1..]).0, answer(13, 55));
    assert_eq!(add_to(&built, 0, 6, &[], &[]).0, answer(13, 141));
    assert_eq!(add_to(&built, 1, 7, &[], &[]).0, answer(13, 324));
    assert_eq!(add_to(&built, 1, 8, &[], &long[1..]).0, answer(15, 0));
    // Room: 3,906 - 13 less 362, the gap of 21, 20 of the count, 11, and 9.
    let room = 3_893 - 362 - 21 - 20 - 11 - 9;
    assert_eq!(add_to(&built, 0, 8, &[], &long[..room]).0, answer(0, 0));
    let more = &long[..room + 1];
    assert_eq!(add_to(&built, 0, 8, &[], more).0, answer(15, 0));
    // The old track's answer comes before 14.
    let mut spoiled = built.clone();
    spoiled.track[361] = 1;
    assert_eq!(add_to(&spoiled, 2, 5, &[], &[]).0, faulty(11, 2, 355));
    spoiled.marks[0] = 2;
    assert_eq!(add_to(&spoiled, 2, 5, &[], &[]).0, answer(1, 0));
}

#[test]
fn lengths_of_the_written_pair() {
    let built = build(&plan());
    for (track, marks) in [(L - 1, L), (L, L - 1), (L + 1, L + 1), (0, 0)] {
        let mut pair = (vec![0xA5; track], vec![0x5A; marks]);
        let (a, b) = (&built.track, &built.marks);
        let one = GapRule::One;
        let added = add(a, b, &mut pair.0, &mut pair.1, 2, 5, &[], &[], one);
        assert_eq!(added, answer(1, 0));
        let corrected = correct(a, b, &mut pair.0, &mut pair.1, 99, &[], &[], one);
        assert_eq!(corrected, answer(1, 0));
        // Also before any other answer of the old track.
        let mut spoiled = built.track.clone();
        spoiled[30] = 1;
        let added = add(&spoiled, b, &mut pair.0, &mut pair.1, 0, 9, &[], &[], one);
        assert_eq!(added, answer(1, 0));
        assert!(is_noise(&pair));
    }
}

#[test]
fn correct_writes_anew_from_the_sector_on() {
    let plan = plan();
    let old = build(&plan);
    for index in 0..3 {
        let mut wanted = plan.clone();
        wanted.sectors[index].key = vec![8; 30];
        wanted.sectors[index].data = vec![9; 101];
        let sector = &wanted.sectors[index];
        let (done, new) = correct_in(&old, sector.s, &sector.key, &sector.data);
        assert_eq!(done, answer(0, 0));
        assert_eq!(accepted(&new), answer(0, 0));
        let place = old.places[index].count;
        assert_eq!(new.track[..place], old.track[..place]);
        assert_eq!(new.marks[..place], old.marks[..place]);
        // The rest equals the first-written form, which starts further left there.
        let form = first_written(&wanted);
        let start = form.places[index].count;
        let written = L - place.max(start) - 40;
        assert_eq!(
            new.track[place..][..written],
            form.track[start..][..written]
        );
        assert_eq!(
            new.marks[place..][..written],
            form.marks[start..][..written]
        );
        assert!(new.track[place + written..]
            .iter()
            .all(|&byte| byte == 0xFF));
        assert!(new.marks[place + written..].iter().all(|&mark| mark == 0));
    }
}

#[test]
fn correct_with_the_same_contents_renews_the_gaps() {
    let mut plan = plan();
    plan.sectors[1].flag = 0xC0;
    let old = build(&plan);
    let kept = &plan.sectors[0];
    let (done, new) = correct_in(&old, 5, &kept.key, &kept.data);
    assert_eq!(done, answer(0, 0));
    let form = first_written(&plan);
    assert_eq!(new.track[55..], form.track[55..]);
    assert_eq!(new.track[..55], old.track[..55]);
    assert_eq!(new.marks, form.marks);
    // Once more changes nothing.
    let (_, again) = correct_in(&new, 5, &kept.key, &kept.data);
    assert_eq!((again.track, again.marks), (new.track, new.marks));
}

#[test]
fn correct_empties_key_and_data() {
    let old = build(&plan());
    let (done, new) = correct_in(&old, 6, &[], &[]);
    assert_eq!(done, answer(0, 0));
    let mut records = [Sector::default(); 67];
    let (done, number) = list(&new.track, &new.marks, &mut records);
    assert_eq!((done, number), (answer(0, 0), 3));
    assert_eq!((records[1].kl, records[1].dl), (0, 0));
    assert_eq!(records[2].data_place, 141 + 20 + 11 + 7 + 21 + 20 + 11 + 6);
}

#[test]
fn correct_refusals() {
    let built = build(&plan());
    let long = vec![0; 65_536];
    assert_eq!(correct_in(&built, 99, &[0; 256], &[]).0, answer(14, 0));
    assert_eq!(correct_in(&built, 99, &[], &long).0, answer(14, 0));
    assert_eq!(correct_in(&built, 99, &[], &long[1..]).0, answer(12, 0));
    assert_eq!(correct_in(&built, 5, &[], &long[1..]).0, answer(15, 0));
    // The last sector: opening 324, count 20, gap 11, nine bytes around the data.
    let room = 3_893 - 324 - 20 - 11 - 9;
    assert_eq!(correct_in(&built, 7, &[], &long[..room]).0, answer(0, 0));
    let more = &long[..room + 1];
    assert_eq!(correct_in(&built, 7, &[], more).0, answer(15, 0));
    let mut spoiled = built.clone();
    spoiled.track[178] ^= 1;
    assert_eq!(
        correct_in(&spoiled, 99, &[0; 256], &[]).0,
        faulty(10, 2, 172)
    );
    spoiled.marks[0] = 2;
    assert_eq!(correct_in(&spoiled, 99, &[0; 256], &[]).0, answer(1, 0));
}

/// Add and Correct hand on what is wrong with a block of the old track, also of the sector to be corrected.
#[test]
fn faults_of_the_old_track() {
    let both_refuse = |built: &Built, expected: Answer| {
        assert_eq!(add_to(built, 0, 8, &[1], &[2]).0, expected);
        for s in [5, 6, 7, 99] {
            assert_eq!(correct_in(built, s, &[1], &[2]).0, expected);
        }
    };
    let blocks = [(10, 172, 3), (11, 195, 80), (11, 84, 8)];
    for (number, opening, length) in blocks {
        for (set, first) in SETS {
            let mut built = build(&plan());
            spoil(&mut built, opening, length, set);
            both_refuse(&built, faulty(number, first, opening));
        }
    }
    for (place, fault) in [(355, 1), (361, 2)] {
        let mut built = build(&plan());
        built.track[place] ^= 1;
        both_refuse(&built, faulty(11, fault, 355));
    }
}

#[test]
fn two_corrections_in_both_orders() {
    let old = build(&plan());
    let wanted: [(u8, &[u8], &[u8]); 3] = [
        (5, &[1; 44], &[2; 500]),
        (6, &[], &[3; 77]),
        (7, &[4; 2], &[]),
    ];
    for a in wanted {
        for b in wanted.iter().filter(|b| b.0 != a.0) {
            let (_, first) = correct_in(&old, a.0, a.1, a.2);
            let (done, one) = correct_in(&first, b.0, b.1, b.2);
            assert_eq!(done, answer(0, 0));
            let (_, second) = correct_in(&old, b.0, b.1, b.2);
            let (_, other) = correct_in(&second, a.0, a.1, a.2);
            assert_eq!(one.track, other.track);
            assert_eq!(one.marks, other.marks);
        }
    }
}
