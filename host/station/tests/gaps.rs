//! The gaps that Add and Correct lay out and keep by each gap rule, the largest arithmetic, and two rules on one track.

mod common;

use common::by_both::*;
use common::sectors::*;
use common::{alike, answer, lent, noise, reads_back, same_buffers, Tally, Track};
use reference::generate::{
    any_rule, rule_two, sound, wanted_add_by, wanted_correct_by, Built, Plan, PlannedSector, Rng,
    WantedCorrect,
};
use reference::GapRule;
use station::Answer;
use std::io::Write;

/// Products past 16 bits, and a quotient that is not rounded before it is multiplied.
#[test]
fn gaps_of_long_blocks() {
    let old = worked();
    for (a, b, kl, dl, gap) in [
        (50, 1_000, 0, 3_000, 21 + 150),
        (100, 1_000, 255, 2_000, 21 + 225),
        (999, 1_000, 0, 1_001, 21 + 999),
        (1_000, 1_000, 200, 1_200, 21 + 1_400),
        (333, 1_000, 1, 2_000, 21 + 666),
        (2, 3, 0, 1_000, 21 + 666),
        (1, 2, 1, 1, 21 + 1),
        (1, 2, 255, 0, 21 + 127),
    ] {
        let note = format!("{a} and {b}, KL {kl}, DL {dl}");
        let mut body = wanted_body(1, kl, dl);
        body.rule = two(a, b);
        let (done, new) = corrected(1, &old, &body, &note);
        assert_eq!(done, Answer::DONE, "{note}");
        assert_eq!(sectors_of(&new, &note)[1].gap, gap, "{note}");
        reads_back(lent(&new), 1, &body.key, &body.data, &note);
        // The same block as the last one of a track, and one more behind it.
        let (done, last) = corrected(1, &old, &wanted_body(2, kl, dl), &note);
        assert_eq!(done, Answer::DONE, "{note}");
        let mut w = wanted_sector(9, 0, 3);
        w.rule = two(a, b);
        let (done, new) = add_by_both(lent(&last), noise(2, 3_906, 3_906), &w, &note);
        assert_eq!(done, Answer::DONE, "{note}");
        assert_eq!(sectors_of(&new, &note)[2].gap, gap, "{note}");
    }
}

/// The largest key and data that a count can hold, and the largest last block, with the largest numbers: 15 or 14.
#[test]
fn largest_arithmetic() {
    let (old, before) = (worked(), noise(8, 3_906, 3_906));
    let full = corrected(1, &old, &wanted_body(2, 0, 3_500), "a full track").1;
    for (rule, number) in [
        (two(1_000, 1_000), 15),
        (two(999, 1_000), 15),
        (two(1, 1), 15),
        (two(0, 1), 15),
        (two(0, 1_000), 15),
        (two(65_535, 65_535), 14),
        (two(65_535, 1_000), 14),
        (two(65_535, 1), 14),
        (two(65_535, 0), 14),
        (two(0, 0), 14),
        (two(1_000, 999), 14),
    ] {
        for (kl, dl) in [
            (255, 65_535),
            (0, 65_535),
            (255, 65_281),
            (1, 65_535),
            (255, 3_900),
        ] {
            let note = format!("{rule:?}, KL {kl}, DL {dl}");
            let mut w = wanted_sector(9, kl, dl);
            w.rule = rule;
            for track in [&old, &full] {
                let (done, left) = add_by_both(lent(track), before.clone(), &w, &note);
                assert_eq!(done, answer(number, 0), "{note}");
                same_buffers(&left, &before, &note);
                for s in 0..3 {
                    let mut w = wanted_body(s, kl, dl);
                    w.rule = rule;
                    let (done, left) = correct_by_both(lent(track), before.clone(), &w, &note);
                    assert_eq!(done, answer(number, 0), "{note}");
                    same_buffers(&left, &before, &note);
                }
            }
        }
    }
    // Behind the full track's last block its gap alone takes all room.
    let mut w = wanted_sector(9, 0, 0);
    w.rule = two(1_000, 1_000);
    let (done, _) = add_by_both(lent(&full), before.clone(), &w, "behind the full track");
    assert_eq!(done, answer(15, 0));
    w.rule = two(0, 1);
    let (done, _) = add_by_both(lent(&full), before, &w, "behind the full track");
    assert_eq!(done, Answer::DONE);
}

/// Both orders of two corrections; each is done on the old track.
struct BothOrders {
    a_then_b: (Answer, Track),
    b_then_a: (Answer, Track),
}

/// Two corrections in both orders, if each is done alone and they name two sectors.
fn both_orders(
    old: &Track,
    a: &WantedCorrect,
    b: &WantedCorrect,
    note: &str,
) -> Option<BothOrders> {
    let (done_a, with_a) = corrected(1, old, a, note);
    let (done_b, with_b) = corrected(1, old, b, note);
    let possible = a.s != b.s && done_a.is_done() && done_b.is_done();
    possible.then(|| BothOrders {
        a_then_b: corrected(2, &with_a, b, note),
        b_then_a: corrected(2, &with_b, a, note),
    })
}

/// The worked track and two corrections: by two rules the orders give two tracks, by one rule one track.
#[test]
fn two_rules_on_the_worked_track() {
    let old = worked();
    let whole = two(1, 1);
    for (of_x, of_y, xy_place, yx_place) in [
        (GapRule::One, whole, 369, 290),
        (whole, GapRule::One, 298, 377),
        (whole, whole, 377, 377),
        (GapRule::One, GapRule::One, 290, 290),
    ] {
        let note = format!("{of_x:?} and {of_y:?}");
        let (mut x, mut y) = (wanted_body(0, 0, 8), wanted_body(1, 3, 80));
        (x.data, y.data) = (vec![0x43; 8], vec![0x44; 80]);
        (x.rule, y.rule) = (of_x, of_y);
        let orders = both_orders(&old, &x, &y, &note).expect("each is possible alone");
        for ((done, new), place) in [(&orders.a_then_b, xy_place), (&orders.b_then_a, yx_place)] {
            assert_eq!(*done, Answer::DONE, "{note}");
            let third = alike::candidates(&new.0, &new.1).nth(2);
            assert_eq!(
                third.map(|next| next.map(|next| next.place)),
                Some(Ok(place))
            );
            reads_back(lent(new), 0, &x.key, &x.data, &note);
            reads_back(lent(new), 1, &y.key, &y.data, &note);
            reads_back(lent(new), 2, &[], &[], &note);
        }
        let same = orders.a_then_b.1 == orders.b_then_a.1;
        assert_eq!(same, of_x == of_y, "{note}");
    }
}

/// Demands that the sectors of a new track have these contents, and that each gap but the last is the one of the rule for its sector, or the old one where there is none.
fn laid_out(
    (old, new): (&Track, &Track),
    wanted: &[Contents],
    rule_at: impl Fn(usize) -> Option<GapRule>,
    note: &str,
) {
    let (before, after) = (sectors_of(old, note), sectors_of(new, note));
    assert_eq!(contents_of(new, &after), wanted, "{note}");
    for (index, sector) in after.iter().enumerate().take(after.len() - 1) {
        let gap = match rule_at(index) {
            None => before[index].gap,
            Some(rule) => rule_gap(rule, sector.kl.into(), sector.dl.into()),
        };
        assert_eq!(sector.gap, gap, "sector {index}, {note}");
        if rule_at(index).is_some() {
            let bytes = &new.0[sector.end..sector.end + gap];
            assert!(bytes.iter().all(|&byte| byte == 0xFF), "{note}");
        }
    }
}

/// Two corrections by two rules: each order lays out by the second's rule from its sector on, so the tracks often differ; both hold the same sectors.
#[test]
fn corrections_by_two_rules() {
    let mut tally = Tally::new("second of two corrections by two rules", 8_000);
    let (mut same, mut differ, mut one_fits) = (0, 0, 0);
    for seed in tally.seeds() {
        let (old, mut rng) = (sound(seed), Rng::new(seed ^ 0x7207_0000));
        let rules = [(); 2].map(|()| match rng.chance(30) {
            true => GapRule::One,
            false => rule_two(&mut rng),
        });
        if rules[0] == rules[1] {
            continue;
        }
        let note = format!("seed {seed}, {rules:?}");
        let a = wanted_correct_by(rules[0], seed, &old.0, &old.1);
        let b = wanted_correct_by(rules[1], seed ^ 0x0B00_0000, &old.0, &old.1);
        let Some(orders) = both_orders(&old, &a, &b, &note) else {
            continue;
        };
        let before = contents_of(&old, &sectors_of(&old, &note));
        let wanted = with_body(with_body(before.clone(), &a), &b);
        let index_of = |s| before.iter().position(|sector| sector.1 == s);
        let [at_a, at_b] = [a.s, b.s].map(|s| index_of(s).expect("it was corrected"));
        for (first, second, (done, new)) in [
            ((at_a, a.rule), (at_b, b.rule), &orders.a_then_b),
            ((at_b, b.rule), (at_a, a.rule), &orders.b_then_a),
        ] {
            tally.count(*done);
            if !done.is_done() {
                assert_eq!(*done, answer(15, 0), "{note}");
                continue;
            }
            let rule_at = |index| {
                let by_second = (index >= second.0).then_some(second.1);
                by_second.or((index >= first.0).then_some(first.1))
            };
            laid_out((&old, new), &wanted, rule_at, &note);
        }
        match (&orders.a_then_b, &orders.b_then_a) {
            ((Answer::DONE, one), (Answer::DONE, other)) if one == other => same += 1,
            ((Answer::DONE, _), (Answer::DONE, _)) => differ += 1,
            (one, other) => one_fits += u64::from(one.0 != other.0),
        }
    }
    let met = format!(
        "{same} pairs with one track, {differ} with two, {one_fits} that fit in one order alone"
    );
    writeln!(std::io::stderr(), "by two rules: {met}").expect("standard error takes a line");
    assert!(differ > 500 && same > 20 && one_fits > 20, "{met}");
    tally.finish(2_000, &[0, 15]);
}

/// Four sectors behind gaps of these lengths and of any contents, the second one with a block of ten bytes.
fn odd_gaps(gaps: [usize; 3]) -> Built {
    let sector = |s: u8, kl, dl| PlannedSector {
        flag: s % 2 * 0x80,
        s,
        key: vec![0xC1; kl],
        data: vec![0xD1; dl],
        closed: dl == 0,
        gap: gaps[usize::from(s) % 3],
    };
    let plan = Plan {
        length: 3_906,
        home: 27,
        flag: 0,
        address: reference::Address::default(),
        named: reference::Address::default(),
        sectors: vec![
            sector(0, 0, 33),
            sector(1, 45, 0),
            sector(2, 7, 100),
            sector(3, 0, 60),
        ],
    };
    let mut rng = Rng::new(9);
    plan.build(&mut |length| rng.bytes(length))
}

/// What stands before the place of the change is kept byte for byte, odd gaps too; behind it the gaps are the rule's.
#[test]
fn odd_gaps_are_kept() {
    for gaps in [[21, 22, 23], [40, 21, 300], [500, 77, 21]] {
        let built = odd_gaps(gaps);
        let old = (built.track.clone(), built.marks.clone());
        let before = contents_of(&old, &sectors_of(&old, "odd gaps"));
        for rule in [
            GapRule::One,
            two(0, 1),
            two(1, 1),
            two(2, 7),
            two(17, 1_000),
        ] {
            let note = format!("{gaps:?}, {rule:?}");
            let mut w = wanted_sector(9, 2, 5);
            w.rule = rule;
            let (done, new) = add_by_both(lent(&old), noise(1, 3_906, 3_906), &w, &note);
            assert_eq!(done, Answer::DONE, "{note}");
            let end = built.places[3].end;
            assert_eq!(new.0[..end], old.0[..end], "{note}");
            assert_eq!(new.1[..end], old.1[..end], "{note}");
            let mut wanted = before.clone();
            wanted.push((0x00, 9, w.key.clone(), w.data.clone()));
            laid_out(
                (&old, &new),
                &wanted,
                |index| (index == 3).then_some(rule),
                &note,
            );
            for index in 0..4 {
                let mut w = wanted_body(index as u8, 3, 41);
                w.rule = rule;
                let (done, new) = corrected(1, &old, &w, &note);
                assert_eq!(done, Answer::DONE, "{note}");
                let place = built.places[index].count;
                assert_eq!(new.0[..place], old.0[..place], "{note}");
                assert_eq!(new.1[..place], old.1[..place], "{note}");
                let wanted = with_body(before.clone(), &w);
                laid_out(
                    (&old, &new),
                    &wanted,
                    |at| (at >= index).then_some(rule),
                    &note,
                );
            }
        }
    }
}

/// The same on tracks of all kinds.
#[test]
fn gaps_that_are_kept() {
    let mut tally = Tally::new("kept and laid out", 4_000);
    for seed in tally.seeds() {
        let (old, rule) = (sound(seed), any_rule(&mut Rng::new(seed ^ 0x6E97_0000)));
        let note = format!("seed {seed}, {rule:?}");
        let sectors = sectors_of(&old, &note);
        let before = contents_of(&old, &sectors);
        let last = sectors.len() - 1;
        let w = wanted_add_by(rule, seed, &old.0, &old.1);
        let buffers = noise(seed, old.0.len(), old.1.len());
        let (done, new) = add_by_both(lent(&old), buffers, &w, &note);
        tally.count(done);
        if done.is_done() {
            let end = sectors[last].end;
            assert_eq!(new.0[..end], old.0[..end], "{note}");
            assert_eq!(new.1[..end], old.1[..end], "{note}");
            let flag = !sectors[last].flag & 0x80 | w.b7 << 6 | sectors[last].flag & 0x03;
            let mut wanted = before.clone();
            wanted.push((flag, w.s, w.key.clone(), w.data.clone()));
            laid_out(
                (&old, &new),
                &wanted,
                |at| (at == last).then_some(rule),
                &note,
            );
        }
        let w = wanted_correct_by(rule, seed, &old.0, &old.1);
        let (done, new) = corrected(seed, &old, &w, &note);
        tally.count(done);
        if done.is_done() {
            let index = before.iter().position(|sector| sector.1 == w.s);
            let index = index.expect("Correct found it");
            let steps = alike::candidates(&old.0, &old.1);
            let place = steps.flatten().nth(index).expect("a count").place;
            assert_eq!(new.0[..place], old.0[..place], "{note}");
            assert_eq!(new.1[..place], old.1[..place], "{note}");
            let wanted = with_body(before, &w);
            laid_out(
                (&old, &new),
                &wanted,
                |at| (at >= index).then_some(rule),
                &note,
            );
        }
    }
    tally.finish(8_000, &[0, 12, 13, 14, 15]);
}
