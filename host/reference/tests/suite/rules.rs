//! Gap rule two: its ranges, the gaps it sets, its place among the answers, and what the generators draw.

use crate::alike::*;
use crate::common::*;
use crate::generated::{addition, correction};
use crate::write::{add_by, add_to, correct_by, correct_in, first_written, with_written_gaps, L};
use reference::generate::*;
use std::collections::BTreeMap;

/// Rule two in short.
fn two(a: u16, b: u16) -> GapRule {
    GapRule::Two { a, b }
}

/// Rules just out of range, and far out of it.
const OUT: [GapRule; 9] = [
    GapRule::Two { a: 0, b: 0 },
    GapRule::Two { a: 1, b: 0 },
    GapRule::Two { a: 2, b: 1 },
    GapRule::Two { a: 0, b: 1_001 },
    GapRule::Two { a: 1_001, b: 1_001 },
    GapRule::Two { a: 1_001, b: 1_000 },
    GapRule::Two { a: 65_535, b: 1 },
    GapRule::Two { a: 1, b: 65_535 },
    GapRule::Two {
        a: 65_535,
        b: 65_535,
    },
];

#[test]
fn ranges() {
    for b in 1..=1_000 {
        for a in [0, 1, b - 1, b] {
            assert!(two(a, b).in_range(), "{a} {b}");
        }
        for a in [b + 1, 2 * b, 65_535] {
            assert!(!two(a, b).in_range(), "{a} {b}");
        }
    }
    assert!(OUT.iter().all(|rule| !rule.in_range()));
    assert!(GapRule::One.in_range() && GapRule::default() == GapRule::One);
}

/// Gaps worked by hand: key and data count together, and the product is taken before it is divided.
#[test]
fn gaps() {
    let cases = [
        (two(0, 1), 3, 80, 21),
        (two(1, 1), 3, 80, 104),
        (two(1, 3), 3, 80, 48),
        (two(2, 3), 0, 5, 24),
        (two(3, 7), 3, 0, 22),
        (two(999, 1_000), 1, 999, 1_020),
        (two(999, 1_000), 0, 999, 1_019),
        (two(1, 1_000), 255, 744, 21),
        (two(1, 1_000), 255, 745, 22),
        (two(1_000, 1_000), 255, 65_535, 65_811),
        (GapRule::One, 0, 19, 21),
        (GapRule::One, 1, 19, 22),
        (GapRule::One, 3, 80, 25),
    ];
    for (rule, kl, dl, gap) in cases {
        assert_eq!(rule.gap(kl, dl), gap, "{rule:?} {kl} {dl}");
    }
    for sizes in 0..5_000 {
        assert_eq!(two(1, 20).gap(0, sizes), GapRule::One.gap(0, sizes));
        assert_eq!(two(50, 1_000).gap(sizes, 0), GapRule::One.gap(sizes, 0));
    }
}

/// 14 for a or b stands behind 1 and Accept's answer, and before 13, 12 and 15.
#[test]
fn out_of_range_in_its_place() {
    let built = build(&plan());
    let mut spoiled = built.clone();
    spoiled.track[361] = 1;
    let mut unreadable = built.clone();
    unreadable.marks[0] = 2;
    let long = vec![0; 65_536];
    for rule in OUT {
        for (b7, key, data) in [
            (0, &[][..], &[][..]),
            (2, &[], &[]),
            (0, &long[..256], &[]),
            (0, &[], &long[..]),
            (0, &[], &long[1..]),
        ] {
            for s in [5, 7, 8] {
                let added = |built| add_by(rule, built, b7, s, key, data).0;
                assert_eq!(added(&built), answer(14, 0), "{rule:?}");
                assert_eq!(added(&spoiled), faulty(11, 2, 355), "{rule:?}");
                assert_eq!(added(&unreadable), answer(1, 0), "{rule:?}");
                let corrected = |built| correct_by(rule, built, s, key, data).0;
                assert_eq!(corrected(&built), answer(14, 0), "{rule:?}");
                assert_eq!(corrected(&spoiled), faulty(11, 2, 355), "{rule:?}");
                assert_eq!(corrected(&unreadable), answer(1, 0), "{rule:?}");
            }
        }
        let mut short = (vec![0xA5; L], vec![0x5A; L - 1]);
        let (a, b) = (&built.track, &built.marks);
        let added = add(a, b, &mut short.0, &mut short.1, 0, 9, &[], &[], rule);
        let corrected = correct(a, b, &mut short.0, &mut short.1, 5, &[], &[], rule);
        assert_eq!((added, corrected), (answer(1, 0), answer(1, 0)), "{rule:?}");
    }
}

/// The three-sector plan with its gaps from one sector on by a rule.
fn by_rule_from(index: usize, rule: impl Fn(usize) -> usize) -> Plan {
    let mut plan = plan();
    for sector in &mut plan.sectors[index..] {
        sector.gap = rule(sector.key.len() + sector.data.len());
    }
    plan
}

/// Sectors added by rule two make a track whose gaps are the rule's, also where the rules change between them.
#[test]
fn added_sectors() {
    let contents = plan();
    let first = &contents.sectors[0];
    for rules in [[two(1, 3), two(1, 3)], [two(1, 1), GapRule::One]] {
        let (mut track, mut marks) = (vec![0; L], vec![0; L]);
        let done = blank(&mut track, &mut marks, HERE, 0, HERE, 5, &[], &first.data);
        assert_eq!(done, answer(0, 0));
        let mut new = Built {
            track,
            marks,
            places: vec![],
        };
        for (rule, sector) in rules.into_iter().zip(&contents.sectors[1..]) {
            let done;
            (done, new) = add_by(rule, &new, 0, sector.s, &sector.key, &sector.data);
            assert_eq!(done, answer(0, 0));
        }
        let mut wanted = contents.clone();
        (wanted.sectors[0].gap, wanted.sectors[1].gap) = match rules[1] {
            GapRule::One => (21 + 8, 21 + 4),
            _ => (21 + 2, 21 + 27),
        };
        let wanted = with_written_gaps(&wanted);
        assert_eq!((new.track, new.marks), (wanted.track, wanted.marks));
    }
}

/// A correction lays out by its rule the gaps from its sector on, and keeps those before it.
#[test]
fn corrected_sectors() {
    for index in 0..3 {
        let old = with_written_gaps(&by_rule_from(0, |_| 40));
        let wanted = with_written_gaps(&by_rule_from(index, |sizes| 21 + sizes * 2 / 3));
        let same = &plan().sectors[index];
        let (done, new) = correct_by(two(2, 3), &old, same.s, &same.key, &same.data);
        assert_eq!(done, answer(0, 0));
        assert_eq!((new.track, new.marks), (wanted.track, wanted.marks));
    }
}

/// One in twenty gives the very tracks of rule one.
#[test]
fn one_in_twenty() {
    for seed in 0..400 {
        let (track, marks) = sound(seed);
        let mut wanted = wanted_add_by(GapRule::One, seed, &track, &marks);
        let by_one = addition(&track, &marks, &wanted);
        wanted.rule = two(1, 20);
        assert_eq!(addition(&track, &marks, &wanted), by_one, "seed {seed}");
        let mut wanted = wanted_correct_by(GapRule::One, seed, &track, &marks);
        let by_one = correction(&track, &marks, &wanted);
        wanted.rule = two(1, 20);
        assert_eq!(correction(&track, &marks, &wanted), by_one, "seed {seed}");
    }
}

/// The room that is left by the rule's gap: a sector that just fits, and one with a byte more.
#[test]
fn answer_15() {
    let built = with_written_gaps(&plan());
    let long = vec![0; L];
    // The last block is empty, so its gap has 21 bytes by every rule.
    let behind = 3_893 - 362 - 21 - 20 - 11 - 9;
    // A last block of 80 bytes with a key of 3 ends at 284.
    let mut shorter = plan();
    shorter.sectors.truncate(2);
    let shorter = with_written_gaps(&shorter);
    for (rule, gap) in [(two(0, 1), 21), (two(1, 1), 104), (two(7, 9), 85)] {
        for (more, number) in [(0, 0), (1, 15)] {
            let data = &long[..behind + more];
            assert_eq!(add_by(rule, &built, 0, 8, &[], data).0, answer(number, 0));
            let data = &long[..3_893 - 284 - gap - 20 - 11 - 9 + more];
            assert_eq!(add_by(rule, &shorter, 0, 8, &[], data).0, answer(number, 0));
        }
    }
    // Sector 6 with n bytes of data and n more of gap, and the last sector behind it.
    let most = (3_893 - 141 - 20 - 11 - 9 - 21 - 20 - 11 - 7) / 2;
    for (dl, number) in [(most, 0), (most + 1, 15)] {
        let (done, _) = correct_by(two(1, 1), &built, 6, &[], &long[..dl]);
        assert_eq!(done, answer(number, 0));
    }
}

/// The largest key and data with the largest numbers: no room, or out of range.
#[test]
fn largest_numbers() {
    let built = build(&plan());
    let (key, data) = ([1; 255], vec![2; 65_535]);
    for (rule, number) in [
        (two(1_000, 1_000), 15),
        (two(1, 1), 15),
        (two(0, 1_000), 15),
        (two(65_535, 65_535), 14),
        (two(65_535, 1), 14),
        (two(0, 0), 14),
    ] {
        let wanted = answer(number, 0);
        assert_eq!(add_by(rule, &built, 0, 8, &key, &data).0, wanted);
        for s in [5, 6, 7] {
            assert_eq!(correct_by(rule, &built, s, &key, &data).0, wanted);
        }
    }
}

/// A correction of sector 0 and one of sector 1 by another rule: the orders give two tracks.
#[test]
fn two_rules() {
    let mut track = plan();
    track.sectors = vec![sector(0, 0, 0, 8), sector(0x80, 1, 3, 80)];
    let old = add_to(&first_written(&track), 0, 2, &[], &[]).1;
    let by = |of_x: GapRule, of_y: GapRule| {
        let x = |old: &Built| correct_by(of_x, old, 0, &[], &[0x43; 8]);
        let y = |old: &Built| correct_by(of_y, old, 1, &[0x41; 3], &[0x44; 80]);
        let ((done_x, with_x), (done_y, with_y)) = (x(&old), y(&old));
        let ((done_xy, xy), (done_yx, yx)) = (y(&with_x), x(&with_y));
        assert!([done_x, done_y, done_xy, done_yx]
            .iter()
            .all(|done| *done == answer(0, 0)));
        assert_eq!((accepted(&xy), accepted(&yx)), (answer(0, 0), answer(0, 0)));
        let count = |new: &Built| walk_from(&new.track, &new.marks, 200).map(|next| next.place);
        let places = (count(&xy), count(&yx));
        (places, xy.track == yx.track && xy.marks == yx.marks)
    };
    let (one, whole) = (GapRule::One, two(1, 1));
    // Sector 1 opens at 122 by rule one and at 130 by the whole; sector 2 opens 168 bytes behind it by rule one, and 247 by the whole.
    assert_eq!(by(one, whole), ((Ok(369), Ok(290)), false));
    assert_eq!(by(one, one), ((Ok(290), Ok(290)), true));
    assert_eq!(by(whole, whole), ((Ok(377), Ok(377)), true));
}

/// The kinds of rules that are told apart.
fn kind(rule: GapRule) -> &'static str {
    match rule {
        GapRule::One => "one",
        _ if !rule.in_range() => "out of range",
        GapRule::Two { a: 0, .. } => "nothing",
        GapRule::Two { a, b } if a == b => "the whole",
        GapRule::Two { a, b } if u32::from(b) == 20 * u32::from(a) => "one in twenty",
        GapRule::Two { .. } => "two",
    }
}

/// Demands of the generated rules each kind and each bound.
#[test]
fn generated_rules() {
    let mut met = BTreeMap::<_, usize>::new();
    let mut rng = Rng::new(1);
    for _ in 0..4_000 {
        let rule = any_rule(&mut rng);
        *met.entry(kind(rule).to_string()).or_default() += 1;
        if let GapRule::Two { a, b } = rule {
            let (a, b) = (u32::from(a), u32::from(b));
            for (bound, is_met) in [
                ("b 0, a 0", b == 0 && a == 0),
                ("b 0, a more", b == 0 && a > 0),
                ("b 1, a 0", b == 1 && a == 0),
                ("b 1, a 1", b == 1 && a == 1),
                ("b 1,000, in range", b == 1_000 && a <= b),
                ("b 1,001, a no greater", b == 1_001 && a <= b),
                ("b 65,535, a no greater", b == 65_535 && a <= b),
                ("a one more than b", (1..=1_000).contains(&b) && a == b + 1),
                ("a 65,535", (1..=1_000).contains(&b) && a == 65_535),
            ] {
                *met.entry(bound.to_string()).or_default() += usize::from(is_met);
            }
        }
        let (right, wrong) = (rule_two(&mut rng), rule_two_out_of_range(&mut rng));
        assert!(right.in_range() && right != GapRule::One, "{right:?}");
        assert!(!wrong.in_range(), "{wrong:?}");
    }
    println!("rules: {met:?}");
    assert_eq!(met.len(), 6 + 9);
    assert!(met.values().all(|&times| times >= 10), "{met:?}");
}

/// Some sound tracks have their gaps by rule two: more than 60 bytes past the least gap, and not only before the last sector.
#[test]
fn sound_tracks_by_rule_two() {
    let long = |seed| {
        let gaps = sound_plan(seed).plan.sectors.into_iter().map(|s| s.gap);
        let gaps: Vec<usize> = gaps.collect();
        gaps[..gaps.len().saturating_sub(2)]
            .iter()
            .any(|&gap| gap > 81)
    };
    let times = (0..2_000).filter(|&seed| long(seed)).count();
    assert!(times > 50, "{times}");
}

/// How often each answer was given by rule one, by rule two, and by rule two out of range.
#[derive(Default)]
struct Seen([BTreeMap<u8, usize>; 3]);

impl Seen {
    /// One more answer.
    fn count(&mut self, rule: GapRule, done: Answer) {
        let nth = match (rule, rule.in_range()) {
            (GapRule::One, _) => 0,
            (_, in_range) => 2 - usize::from(in_range),
        };
        *self.0[nth].entry(done.number).or_default() += 1;
    }

    /// Demands these numbers and no other of both rules, and but for those behind 14 of a rule out of range.
    fn finish(&self, name: &str, numbers: &[u8]) {
        println!("{name}: {:?}", self.0);
        let met = |nth: usize| self.0[nth].keys().copied().collect::<Vec<u8>>();
        let refused = numbers.iter().copied();
        let refused = refused.filter(|number| ![0, 12, 15].contains(number));
        assert_eq!((met(0), met(1)), (numbers.to_vec(), numbers.to_vec()));
        assert_eq!(met(2), refused.collect::<Vec<u8>>());
        assert!(self.0[1][&0] > 500 && self.0[2][&14] > 200, "{name}");
    }
}

/// The wanted additions and corrections reach every number by each rule.
#[test]
fn wanted_by_each_rule() {
    let (mut added, mut corrected) = (Seen::default(), Seen::default());
    for seed in 0..8_000 {
        let (track, marks) = match seed % 3 {
            0 => damaged(seed),
            _ => sound(seed),
        };
        let w = wanted_add(seed, &track, &marks);
        added.count(w.rule, addition(&track, &marks, &w).0);
        let w = wanted_correct(seed, &track, &marks);
        corrected.count(w.rule, correction(&track, &marks, &w).0);
    }
    added.finish("add", &[0, 1, 2, 3, 4, 5, 6, 7, 8, 9, 10, 11, 13, 14, 15]);
    let numbers = [0, 1, 2, 3, 4, 5, 6, 7, 8, 9, 10, 11, 12, 13, 14, 15];
    corrected.finish("correct", &numbers);
}

/// Which rule decides: data that fits by rule two alone, and data that fits by rule one alone.
#[test]
fn room_by_one_rule_alone() {
    let mut met = BTreeMap::<_, usize>::new();
    for seed in 0..3_000 {
        let (track, marks) = sound(seed);
        let rule = rule_two(&mut Rng::new(seed));
        let mut w = wanted_add_by(rule, seed, &track, &marks);
        let by_two = addition(&track, &marks, &w).0.number;
        w.rule = GapRule::One;
        let by_one = addition(&track, &marks, &w).0.number;
        *met.entry(("add", by_two, by_one)).or_default() += 1;
        let mut w = wanted_correct_by(rule, seed, &track, &marks);
        let by_two = correction(&track, &marks, &w).0.number;
        w.rule = GapRule::One;
        let by_one = correction(&track, &marks, &w).0.number;
        *met.entry(("correct", by_two, by_one)).or_default() += 1;
    }
    println!("by rule two and by rule one: {met:?}");
    for (name, by_two, by_one) in met.keys() {
        let agree = by_two == by_one || [(0, 15), (15, 0)].contains(&(*by_two, *by_one));
        assert!(agree, "{name}: {by_two} {by_one}");
    }
    for name in ["add", "correct"] {
        assert!(
            met[&(name, 0, 15)] > 10 && met[&(name, 15, 0)] > 10,
            "{met:?}"
        );
    }
}

/// Corrections by the worked plan's contents as by rule one, where the key and the data are empty.
#[test]
fn empty_sectors_by_any_rule() {
    let mut empty = plan();
    for sector in &mut empty.sectors {
        (sector.key, sector.data) = (vec![], vec![]);
    }
    let old = build(&empty);
    for rule in [two(0, 1), two(1, 1), two(1, 1_000), two(1_000, 1_000)] {
        let by_two = correct_by(rule, &old, 5, &[], &[]);
        let by_one = correct_in(&old, 5, &[], &[]);
        assert_eq!(by_two.0, answer(0, 0));
        assert_eq!((by_two.0, by_two.1.track), (by_one.0, by_one.1.track));
    }
}
