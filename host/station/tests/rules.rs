//! Gap rules that Add and Correct take and refuse: the numbers of the C functions, the ranges of a and b, and 14's place among the answers.

mod common;

use common::by_both::*;
use common::sectors::*;
use common::{alike, answer, lent, new_body, new_sector, noise, same_buffers, Tally, Track};
use reference::generate::{
    damaged, rule_two_out_of_range, sound, spoiled, wanted_add, wanted_add_by, wanted_correct,
    wanted_correct_by, Rng, WantedAdd, WantedCorrect,
};
use reference::GapRule;
use station::{Answer, Lent};

extern "C" {
    fn iso3561_add(
        track: *const u8,
        track_length: usize,
        marks: *const u8,
        marks_length: usize,
        new_track: *mut u8,
        new_track_length: usize,
        new_marks: *mut u8,
        new_marks_length: usize,
        b7: u8,
        sector: u8,
        key: *const u8,
        key_length: usize,
        data: *const u8,
        data_length: usize,
        rule: u16,
        a: u16,
        b: u16,
    ) -> u64;
    fn iso3561_correct(
        track: *const u8,
        track_length: usize,
        marks: *const u8,
        marks_length: usize,
        new_track: *mut u8,
        new_track_length: usize,
        new_marks: *mut u8,
        new_marks_length: usize,
        sector: u8,
        key: *const u8,
        key_length: usize,
        data: *const u8,
        data_length: usize,
        rule: u16,
        a: u16,
        b: u16,
    ) -> u64;
}

/// The rule's number, a and b, as the C functions take them.
type Numbers = [u16; 3];

/// The result of Add by the C function with any numbers, and what it left in the buffers.
fn raw_add(old: Lent, buffers: Track, w: &WantedAdd, [rule, a, b]: Numbers) -> (u64, Track) {
    let mut new = buffers;
    // SAFETY: all slices are lent whole, and the two written ones are borrowed alone.
    let word = unsafe {
        iso3561_add(
            old.0.as_ptr(),
            old.0.len(),
            old.1.as_ptr(),
            old.1.len(),
            new.0.as_mut_ptr(),
            new.0.len(),
            new.1.as_mut_ptr(),
            new.1.len(),
            w.b7,
            w.s,
            w.key.as_ptr(),
            w.key.len(),
            w.data.as_ptr(),
            w.data.len(),
            rule,
            a,
            b,
        )
    };
    (word, new)
}

/// The result of Correct by the C function with any numbers, and what it left in the buffers.
fn raw_correct(old: Lent, buffers: Track, w: &WantedCorrect, numbers: Numbers) -> (u64, Track) {
    let (mut new, [rule, a, b]) = (buffers, numbers);
    // SAFETY: all slices are lent whole, and the two written ones are borrowed alone.
    let word = unsafe {
        iso3561_correct(
            old.0.as_ptr(),
            old.0.len(),
            old.1.as_ptr(),
            old.1.len(),
            new.0.as_mut_ptr(),
            new.0.len(),
            new.1.as_mut_ptr(),
            new.1.len(),
            w.s,
            w.key.as_ptr(),
            w.key.len(),
            w.data.as_ptr(),
            w.data.len(),
            rule,
            a,
            b,
        )
    };
    (word, new)
}

/// The whole result that stands for an answer without a part.
fn word_of(answer: Answer) -> u64 {
    let fault = answer.fault.map_or(0, |fault| fault.number());
    u64::from(answer.number) | u64::from(fault) << 8 | (answer.place as u64) << 16
}

/// Demands of a call that it gave this answer and left this in the buffers.
fn gave((word, left): (u64, Track), (done, wanted): (Answer, &Track), note: &str) {
    assert_eq!(word, word_of(done), "{note}");
    same_buffers(&left, wanted, note);
}

/// The answer where the rule is refused: 1 and Accept's own come first, 14 before all others.
fn where_refused(old: &Track, buffers: &Track) -> Answer {
    if buffers.0.len() != old.0.len() || buffers.1.len() != old.0.len() {
        return answer(1, 0);
    }
    match alike::accept(&old.0, &old.1) {
        Answer::DONE => answer(14, 0),
        refused => refused,
    }
}

/// Half of the tracks are sound; one of six is sound but for a block, and the others are damaged.
fn some_track(seed: u64) -> Track {
    match seed % 6 {
        0 | 2 => damaged(seed),
        1 => spoiled(seed),
        _ => sound(seed),
    }
}

/// Rule numbers that name no rule.
const NO_RULE: [u16; 12] = [0, 3, 4, 12, 21, 255, 256, 257, 258, 513, 32_769, 65_535];
/// Numbers for a and b, in range and not.
const RATIOS: [(u16, u16); 8] = [
    (0, 0),
    (65_535, 0),
    (0, 65_535),
    (65_535, 65_535),
    (1, 20),
    (1, 1),
    (0, 1),
    (1_001, 1_000),
];

/// Any number but 1 and 2 is answer 14 whatever a and b are, in 14's place; the tallies are of what rule one answers.
#[test]
fn numbers_of_no_rule() {
    let mut added = Tally::fixed("add by no rule, by rule one's answer", 3_000);
    let mut corrected = Tally::fixed("correct by no rule, by rule one's answer", 3_000);
    for seed in added.seeds() {
        let (old, mut rng) = (some_track(seed), Rng::new(seed));
        let (rule, (a, b)) = (rng.pick(&NO_RULE), rng.pick(&RATIOS));
        let note = format!("seed {seed}, rule {rule}, {a} and {b}");
        let (buffers, numbers) = (buffers(seed, old.0.len()), [rule, a, b]);
        let refused = (where_refused(&old, &buffers), &buffers);
        let w = wanted_add_by(GapRule::One, seed, &old.0, &old.1);
        gave(
            raw_add(lent(&old), buffers.clone(), &w, numbers),
            refused,
            &note,
        );
        added.count(add_by_both(lent(&old), buffers.clone(), &w, &note).0);
        let w = wanted_correct_by(GapRule::One, seed, &old.0, &old.1);
        gave(
            raw_correct(lent(&old), buffers.clone(), &w, numbers),
            refused,
            &note,
        );
        corrected.count(correct_by_both(lent(&old), buffers.clone(), &w, &note).0);
    }
    added.finish(3_000, &ADD);
    corrected.finish(3_000, &CORRECT);
}

/// Every number of a rule, on a track where both calls are possible: 1 and 2 are done, every other is 14.
#[test]
fn all_numbers_of_rules() {
    let (old, buffers) = (worked(), noise(3, 3_906, 3_906));
    let (sector, body) = (wanted_sector(9, 0, 0), wanted_body(1, 3, 80));
    for rule in 0..=u16::MAX {
        let note = format!("rule {rule}");
        let numbers = [rule, 1, 20];
        let add = raw_add(lent(&old), buffers.clone(), &sector, numbers);
        let correct = raw_correct(lent(&old), buffers.clone(), &body, numbers);
        if rule == 1 || rule == 2 {
            assert_eq!((add.0, correct.0), (0, 0), "{note}");
            continue;
        }
        gave(add, (answer(14, 0), &buffers), &note);
        gave(correct, (answer(14, 0), &buffers), &note);
    }
}

/// Rule one does not look at a and b.
#[test]
fn rule_one_with_any_numbers() {
    let mut added = Tally::fixed("add by rule one with any a and b", 3_000);
    let mut corrected = Tally::fixed("correct by rule one with any a and b", 3_000);
    for seed in added.seeds() {
        let (old, mut rng) = (some_track(seed), Rng::new(seed));
        let (a, b) = match rng.chance(20) {
            true => (rng.bits() as u16, rng.bits() as u16),
            false => rng.pick(&RATIOS),
        };
        let note = format!("seed {seed}, {a} and {b}");
        let (buffers, numbers) = (buffers(seed, old.0.len()), [1, a, b]);
        let w = wanted_add_by(GapRule::One, seed, &old.0, &old.1);
        let (done, new) = add_by_both(lent(&old), buffers.clone(), &w, &note);
        gave(
            raw_add(lent(&old), buffers.clone(), &w, numbers),
            (done, &new),
            &note,
        );
        added.count(done);
        let w = wanted_correct_by(GapRule::One, seed, &old.0, &old.1);
        let (done, new) = correct_by_both(lent(&old), buffers.clone(), &w, &note);
        gave(
            raw_correct(lent(&old), buffers.clone(), &w, numbers),
            (done, &new),
            &note,
        );
        corrected.count(done);
    }
    added.finish(3_000, &ADD);
    corrected.finish(3_000, &CORRECT);
}

/// Rule two out of range is answer 14 in its place, and nothing is written; the tallies are of what rule one answers.
#[test]
fn out_of_range_in_its_place() {
    let mut added = Tally::new("add out of range, by rule one's answer", 3_000);
    let mut corrected = Tally::new("correct out of range, by rule one's answer", 3_000);
    for seed in added.seeds() {
        let old = some_track(seed);
        let rule = rule_two_out_of_range(&mut Rng::new(seed));
        let note = format!("seed {seed}, {rule:?}");
        let before = buffers(seed, old.0.len());
        let refused = where_refused(&old, &before);
        let mut w = wanted_add_by(rule, seed, &old.0, &old.1);
        let (done, left) = add_by_both(lent(&old), before.clone(), &w, &note);
        assert_eq!(done, refused, "{note}");
        same_buffers(&left, &before, &note);
        w.rule = GapRule::One;
        added.count(add_by_both(lent(&old), before.clone(), &w, &note).0);
        let mut w = wanted_correct_by(rule, seed, &old.0, &old.1);
        let (done, left) = correct_by_both(lent(&old), before.clone(), &w, &note);
        assert_eq!(done, refused, "{note}");
        same_buffers(&left, &before, &note);
        w.rule = GapRule::One;
        corrected.count(correct_by_both(lent(&old), before.clone(), &w, &note).0);
    }
    added.finish(3_000, &ADD);
    corrected.finish(3_000, &CORRECT);
}

/// One in twenty, also as two in forty and the like, gives the very tracks of rule one.
#[test]
fn one_in_twenty_is_rule_one() {
    let mut added = Tally::new("add by one in twenty", 3_000);
    let mut corrected = Tally::new("correct by one in twenty", 3_000);
    for seed in added.seeds() {
        let (old, note) = (some_track(seed), format!("seed {seed}"));
        let before = buffers(seed, old.0.len());
        let a = Rng::new(seed).pick(&[1, 1, 1, 2, 3, 49, 50]);
        let rule = GapRule::Two { a, b: 20 * a };
        let mut w = wanted_add_by(GapRule::One, seed, &old.0, &old.1);
        let (done, by_one) = add_by_both(lent(&old), before.clone(), &w, &note);
        w.rule = rule;
        let (same, by_two) = add_by_both(lent(&old), before.clone(), &w, &note);
        assert_eq!(same, done, "{note}");
        same_buffers(&by_two, &by_one, &note);
        added.count(done);
        let mut w = wanted_correct_by(GapRule::One, seed, &old.0, &old.1);
        let (done, by_one) = correct_by_both(lent(&old), before.clone(), &w, &note);
        w.rule = rule;
        let (same, by_two) = correct_by_both(lent(&old), before.clone(), &w, &note);
        assert_eq!(same, done, "{note}");
        same_buffers(&by_two, &by_one, &note);
        corrected.count(done);
    }
    added.finish(3_000, &ADD);
    corrected.finish(3_000, &CORRECT);
}

/// Every b up to 1,001 and some greater ones, each with a at its bounds: 14 exactly out of range, else the rule's gaps.
#[test]
fn ranges_of_a_and_b() {
    let (old, before) = (worked(), noise(6, 3_906, 3_906));
    let (mut done, mut refused) = (0, 0);
    for b in (0..=1_002_u16).chain([1_024, 2_000, 20_000, 32_768, 65_534, 65_535]) {
        // Behind sector 2, which is given key and data; their lengths go with b.
        let (kl, dl) = (usize::from(b) % 256, usize::from(b) * 7 % 700);
        let mut body = wanted_body(2, kl, dl);
        let with_body = corrected(7, &old, &body, "a block to add behind").1;
        body.s = 1;
        let near = [0, 1, b / 2, b.wrapping_sub(1), b, b.wrapping_add(1)];
        for a in near.into_iter().chain([1_000, 1_001, 32_768, 65_535]) {
            let note = format!("{a} and {b}");
            let in_range = (1..=1_000).contains(&b) && a <= b;
            let mut w = wanted_sector(3, 0, 1);
            (w.rule, body.rule) = (two(a, b), two(a, b));
            let added = add_by_both(lent(&with_body), before.clone(), &w, &note);
            let corrected = correct_by_both(lent(&old), before.clone(), &body, &note);
            if !in_range {
                for (answered, left) in [added, corrected] {
                    assert_eq!(answered, answer(14, 0), "{note}");
                    same_buffers(&left, &before, &note);
                }
                refused += 1;
                continue;
            }
            let gap = rule_gap(two(a, b), kl, dl);
            assert_eq!((added.0, corrected.0), (Answer::DONE, Answer::DONE));
            assert_eq!(sectors_of(&added.1, &note)[2].gap, gap, "{note}");
            assert_eq!(sectors_of(&corrected.1, &note)[1].gap, gap, "{note}");
            done += 1;
        }
    }
    assert!(done > 4_000 && refused > 4_000, "{done} {refused}");
}

/// The wrapper's rule reaches the C functions as its numbers: rule one as 1, rule two as 2 with a and b.
#[test]
fn rules_of_the_wrapper() {
    for seed in 0..400 {
        let (old, note) = (some_track(seed), format!("seed {seed}"));
        let before = buffers(seed, old.0.len());
        let numbers = |rule| match rule {
            GapRule::One => [1, 0, 0],
            GapRule::Two { a, b } => [2, a, b],
        };
        let (w, mut new) = (wanted_add(seed, &old.0, &old.1), before.clone());
        let done = alike::add(lent(&old), &mut new.0, &mut new.1, &new_sector(&w));
        let raw = raw_add(lent(&old), before.clone(), &w, numbers(w.rule));
        gave(raw, (done, &new), &note);
        let (w, mut new) = (wanted_correct(seed, &old.0, &old.1), before.clone());
        let done = alike::correct(lent(&old), &mut new.0, &mut new.1, &new_body(&w));
        let raw = raw_correct(lent(&old), before, &w, numbers(w.rule));
        gave(raw, (done, &new), &note);
    }
    assert_eq!(station::GapRule::default(), station::GapRule::One);
    assert_eq!(station::NewSector::default().rule, station::GapRule::One);
    assert_eq!(station::NewBody::default().rule, station::GapRule::One);
}
