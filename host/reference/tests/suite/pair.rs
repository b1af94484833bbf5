//! Pair find.

use crate::alike::*;
use crate::common::*;
use reference::generate::{pair, Built, Plan};
use std::ops::Range;

/// A defective track and its alternative.
fn plans() -> (Plan, Plan) {
    let first = flagged(2, THERE);
    let mut second = flagged(1, HERE);
    second.address = THERE;
    second.length = 4_002;
    second.home = 23;
    second.sectors[1].data = vec![0x99; 33];
    (first, second)
}

fn pair_in(first: &Built, second: &Built, s: u8, part: Part) -> (Answer, u8, Range<usize>) {
    let owned = |built: &Built| (built.track.clone(), built.marks.clone());
    let (a, b) = (owned(first), owned(second));
    pair_find((&a.0, &a.1), (&b.0, &b.1), s, part)
}

/// Pair find of sector 6 after changes to both tracks.
fn after(
    change_first: impl FnOnce(&mut Built),
    change_second: impl FnOnce(&mut Built),
) -> (Answer, u8, Range<usize>) {
    let (first, second) = plans();
    let (mut first, mut second) = (build(&first), build(&second));
    change_first(&mut first);
    change_second(&mut second);
    pair_in(&first, &second, 6, Part::Data)
}

/// Pair find of sector 6 after changes to both plans.
fn planned(change: impl FnOnce(&mut Plan, &mut Plan)) -> (Answer, u8, Range<usize>) {
    let (mut first, mut second) = plans();
    change(&mut first, &mut second);
    pair_in(&build(&first), &build(&second), 6, Part::Data)
}

fn refused(number: u8, place: usize, which: u8) -> (Answer, u8, Range<usize>) {
    (answer(number, place), which, 0..0)
}

fn refused_block(number: u8, fault: u8, place: usize, which: u8) -> (Answer, u8, Range<usize>) {
    (faulty(number, fault, place), which, 0..0)
}

#[test]
fn the_alternative_holds_the_record() {
    let (first, second) = plans();
    let (first, second) = (build(&first), build(&second));
    assert_eq!(accepted(&first), answer(0, 0));
    let (done, which, range) = pair_in(&first, &second, 6, Part::Data);
    assert_eq!((done, which), (answer(0, 0), 1));
    assert_eq!(second.track[range], [0x99; 33]);
    let missing = pair_in(&first, &second, 200, Part::Key);
    assert_eq!(missing, refused(12, 0, 1));
    let (done, which, range) = pair_in(&first, &second, 7, Part::Data);
    assert_eq!((done, which, range.len()), (answer(0, 0), 1, 0));
}

#[test]
fn flags_00_and_01_read_the_first_only() {
    for flag in [0, 1] {
        let first = build(&flagged(flag, if flag == 0 { HERE } else { THERE }));
        let (track, marks) = (&first.track, &first.marks);
        let spoiled: (&[u8], &[u8]) = (&[1, 2, 3], &[7]);
        let found = pair_find((track, marks), spoiled, 6, Part::Data);
        assert_eq!(found, (answer(0, 0), 0, 201..281));
        let missing = pair_find((track, marks), spoiled, 9, Part::Data);
        assert_eq!(missing, refused(12, 0, 0));
        // Find's later answers are the first's too, and answer 5 is not judged there.
        let mut wrong = first.clone();
        wrong.track[201] ^= 1;
        wrong.marks[3_000] = 1;
        let data = pair_find((&wrong.track, &wrong.marks), spoiled, 6, Part::Data);
        assert_eq!(data, refused_block(11, 2, 195, 0));
        let key = pair_find((&wrong.track, &wrong.marks), spoiled, 6, Part::Key);
        assert_eq!(key, (answer(0, 0), 0, 178..181));
    }
}

#[test]
fn answers_about_the_first() {
    let keep = |_: &mut Built| {};
    assert_eq!(after(|b| b.marks.push(0), keep), refused(1, 0, 0));
    assert_eq!(after(|b| b.track[30] = 1, keep), refused(2, 23, 0));
    assert_eq!(after(|b| b.track[43] = 1, keep), refused(3, 30, 0));
    assert_eq!(planned(|p, _| p.flag = 0x82), refused(4, 30, 0));
    assert_eq!(after(|b| b.track[55] = 1, keep), refused(6, 55, 0));
    // A mark in the opening, or too near behind it.
    assert_eq!(after(|b| b.marks[55] = 1, keep), refused(6, 55, 0));
    assert_eq!(after(|b| b.marks[77] = 1, keep), refused(9, 55, 0));
    assert_eq!(after(|b| b.track[72] = 1, keep), refused(7, 55, 0));
    let named = planned(|p, _| p.named = p.address);
    assert_eq!(named, refused(8, 55, 0));
    assert_eq!(planned(|p, _| p.sectors[0].flag = 3), refused(8, 55, 0));
    // 9 comes before 7, and a mark elsewhere or a spoiled block is not judged.
    let both = after(
        |b| {
            b.track[72] = 1;
            b.marks[77] = 1;
        },
        keep,
    );
    assert_eq!(both, refused(9, 55, 0));
    let fine = after(
        |b| {
            b.marks[78] = 1;
            b.track[90] ^= 1;
        },
        keep,
    );
    assert_eq!((fine.0, fine.1), (answer(0, 0), 1));
}

#[test]
fn flag_11_is_refused_with_the_second_unread() {
    let first = build(&flagged(3, HERE));
    let found = pair_find((&first.track, &first.marks), (&[], &[]), 6, Part::Data);
    assert_eq!(found, refused(16, 0, 0));
}

#[test]
fn answers_about_the_second() {
    let keep = |_: &mut Built| {};
    assert_eq!(after(keep, |b| b.marks[0] = 2), refused(1, 0, 1));
    assert_eq!(after(keep, |b| b.track[23] = 1), refused(2, 23, 1));
    assert_eq!(after(keep, |b| b.marks[2_000] = 1), refused(5, 2_000, 1));
    assert_eq!(
        after(keep, |b| b.track[83] ^= 1),
        refused_block(11, 2, 77, 1)
    );
    // The second's own answer comes before the disagreement.
    let both = planned(|_, second| {
        second.flag = 0;
        second.sectors[0].flag = 1;
    });
    assert_eq!(both, refused(8, 48, 1));
    let repeated = planned(|_, second| second.sectors[2].s = 5);
    assert_eq!((repeated.0.number, repeated.1), (13, 1));
}

/// Find's second number on the first track, of the part that is asked for.
#[test]
fn faults_of_the_first() {
    for (set, first_fault) in SETS {
        for flag in [0, 1] {
            let named = if flag == 0 { HERE } else { THERE };
            let mut first = build(&flagged(flag, named));
            spoil(&mut first, 172, 3, set);
            let second = build(&plans().1);
            let key = pair_in(&first, &second, 6, Part::Key);
            assert_eq!(key, refused_block(10, first_fault, 172, 0));
            let data = pair_in(&first, &second, 6, Part::Data);
            assert_eq!(data, (answer(0, 0), 0, 201..281));
            spoil(&mut first, 195, 80, [false, false, true]);
            let data = pair_in(&first, &second, 6, Part::Data);
            assert_eq!(data, refused_block(11, 3, 195, 0));
        }
    }
}

/// The second's own answer has its second number, whichever part is asked for; the blocks of a defective first are not judged.
#[test]
fn faults_of_the_second() {
    // The second's home stands at 23: sector 5's data block at 77, sector 6's key at 165 and data block at 188.
    let blocks = [(11, 77, 8), (10, 165, 3), (11, 188, 33)];
    for (number, opening, length) in blocks {
        for (set, fault) in SETS {
            let (first, second) = plans();
            let (mut first, mut second) = (build(&first), build(&second));
            spoil(&mut first, 172, 3, [true, false, false]);
            spoil(&mut second, opening, length, set);
            for part in [Part::Key, Part::Data] {
                let found = pair_in(&first, &second, 6, part);
                assert_eq!(found, refused_block(number, fault, opening, 1));
            }
        }
    }
}

#[test]
fn disagreements() {
    let at = |cylinder, head| Address { cylinder, head };
    for other in [at(201, 4), at(200, 3), at(0, 0)] {
        let address = planned(|_, second| second.address = other);
        assert_eq!(address, refused(16, 0, 0));
        let names = planned(|_, second| second.named = other);
        assert_eq!(names, refused(16, 0, 0));
        let first_names = planned(|first, _| first.named = other);
        assert_eq!(first_names, refused(16, 0, 0));
    }
    for flag in [0, 2, 3] {
        let flags = planned(|_, second| {
            *second = flagged(flag, if flag == 2 { HERE } else { THERE });
            second.address = THERE;
        });
        assert_eq!(flags, refused(16, 0, 0));
    }
}

#[test]
fn generated_pairs() {
    let mut seen = [[0; 17]; 2];
    for seed in 0..1_500 {
        let pair = pair(seed);
        let (first, second) = (&pair.first, &pair.second);
        let mut records = [Sector::default(); 67];
        let (_, number) = list(&second.0, &second.1, &mut records);
        for s in [records[0].s, records[number.max(1) - 1].s, seed as u8] {
            let pair_of = |part| pair_find((&first.0, &first.1), (&second.0, &second.1), s, part);
            let (done, which, range) = pair_of(Part::Data);
            seen[usize::from(which)][usize::from(done.number)] += 1;
            if pair.agrees {
                assert_eq!(which, 1);
                let found = find(&second.0, &second.1, s, Part::Data);
                assert_eq!((done, range), found);
            }
        }
    }
    for (which, number) in [(0, 0), (0, 2), (0, 12), (0, 16), (1, 0), (1, 12)] {
        assert!(seen[which][number] > 0, "no {number} for {which}: {seen:?}");
    }
}
