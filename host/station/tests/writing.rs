//! Blank, Add and Correct against the reference: answers, places, and every byte and mark of the buffers.

mod common;

use common::by_both::*;
use common::sectors::*;
use common::{alike, answer, lent, noise, reads_back, same_buffers, Tally, Track};
use reference::generate::{
    rule_two, sound, spoiled, wanted_add, wanted_blank, wanted_correct, wanted_correct_by, Built,
    Plan, PlannedSector, Rng, WantedBlank, WantedCorrect,
};
use reference::GapRule;
use station::{Answer, Candidate, Lent};

/// Numbers that Blank can give.
const BLANK: [u8; 4] = [0, 1, 14, 15];

/// How many calls of Add and of Correct are compared, by both rules together.
const CALLS: u64 = 30_000;

/// The tally of a rule: of rule one the first, of rule two the second.
fn tally_of(tallies: &mut [Tally; 2], rule: GapRule) -> &mut Tally {
    &mut tallies[usize::from(rule != GapRule::One)]
}

/// Demands of each rule a third of the calls and all the numbers.
fn finish_both(tallies: [Tally; 2], numbers: &[u8]) {
    for tally in tallies {
        tally.finish(CALLS / 3, numbers);
    }
}

#[test]
fn blank_as_the_reference() {
    let mut tally = Tally::new("blank", 20_000);
    for seed in tally.seeds() {
        let note = format!("seed {seed}");
        let w = wanted_blank(seed);
        let before = noise(seed, w.length, w.marks_length);
        let (done, written) = blank_by_both(before.clone(), &w, &note);
        tally.count(done);
        match done.is_done() {
            true => reads_back(lent(&written), w.s, &w.key, &w.data, &note),
            false => same_buffers(&written, &before, &note),
        }
    }
    tally.finish(20_000, &BLANK);
}

#[test]
fn add_as_the_reference() {
    let mut tallies = ["add, rule one", "add, rule two"].map(|name| Tally::new(name, CALLS));
    for seed in tallies[0].seeds() {
        let note = format!("seed {seed}");
        let old = track_of(seed);
        let w = wanted_add(seed, &old.0, &old.1);
        let before = buffers(seed, old.0.len());
        let (done, written) = add_by_both(lent(&old), before.clone(), &w, &note);
        tally_of(&mut tallies, w.rule).count(done);
        if !done.is_done() {
            same_buffers(&written, &before, &note);
            continue;
        }
        reads_back(lent(&written), w.s, &w.key, &w.data, &note);
        if seed % 8 == 1 {
            let (new, kept) = (contents(lent(&written)), contents(lent(&old)));
            assert_eq!(new[..kept.len()], kept, "{note}");
            assert_eq!(new.len(), kept.len() + 1, "{note}");
        }
    }
    finish_both(tallies, &ADD);
}

#[test]
fn correct_as_the_reference() {
    let names = ["correct, rule one", "correct, rule two"];
    let mut tallies = names.map(|name| Tally::new(name, CALLS));
    for seed in tallies[0].seeds() {
        let note = format!("seed {seed}");
        let old = track_of(seed);
        let w = wanted_correct(seed, &old.0, &old.1);
        let before = buffers(seed, old.0.len());
        let (done, written) = correct_by_both(lent(&old), before.clone(), &w, &note);
        tally_of(&mut tallies, w.rule).count(done);
        if !done.is_done() {
            same_buffers(&written, &before, &note);
            continue;
        }
        reads_back(lent(&written), w.s, &w.key, &w.data, &note);
        if seed % 8 == 1 {
            let wanted = with_body(contents(lent(&old)), &w);
            assert_eq!(contents(lent(&written)), wanted, "{note}");
        }
    }
    finish_both(tallies, &CORRECT);
}

/// A track with a wrong block is refused by Add and Correct as by Accept, with the fault, and nothing is written.
#[test]
fn faults_are_handed_on() {
    let mut tally = Tally::new("add and correct with a wrong block", 600);
    for seed in tally.seeds() {
        let note = format!("seed {seed}");
        let old = spoiled(seed);
        let refused = alike::accept(&old.0, &old.1);
        let before = noise(seed, old.0.len(), old.1.len());
        let (w, body) = (
            wanted_add(seed, &old.0, &old.1),
            wanted_correct(seed, &old.0, &old.1),
        );
        let added = add_by_both(lent(&old), before.clone(), &w, &note);
        let corrected = correct_by_both(lent(&old), before.clone(), &body, &note);
        for (done, written) in [added, corrected] {
            assert_eq!(done, refused, "{note}");
            same_buffers(&written, &before, &note);
            tally.count(done);
        }
    }
    tally.finish(1_200, &[10, 11]);
}

/// Whether two corrections by one rule fit together: all from the left one's count on is first-written.
fn fit_together((track, marks): Lent, a: &WantedCorrect, b: &WantedCorrect) -> bool {
    let sizes = |sector: &Candidate| match [a, b].into_iter().find(|w| w.s == sector.s) {
        Some(w) => (w.key.len(), w.data.len()),
        None => (usize::from(sector.kl), usize::from(sector.dl)),
    };
    let steps = alike::candidates(track, marks).take(MANY);
    let all: Vec<_> = steps.flatten().collect();
    let corrected = |sector: &Candidate| sector.s == a.s || sector.s == b.s;
    let left = all.iter().position(corrected).expect("both are present");
    let mut end = all[left].place;
    for (index, sector) in all.iter().enumerate().skip(left) {
        if index > left {
            let (kl, dl) = sizes(&all[index - 1]);
            end += rule_gap(a.rule, kl, dl);
        }
        let (kl, dl) = sizes(sector);
        end += sector_length(index == 0, kl, dl);
    }
    end + 13 <= track.len()
}

/// Two corrections by one rule, each accepted alone, in both orders: one answer, place, track and marks.
#[test]
fn corrections_in_both_orders() {
    let names = [
        "second of two corrections, rule one",
        "second of two corrections, rule two",
    ];
    let mut tallies = names.map(|name| Tally::new(name, 16_000));
    for seed in tallies[0].seeds() {
        let note = format!("seed {seed}");
        let old = sound(seed);
        let rule = match seed % 4 {
            0 => GapRule::One,
            _ => rule_two(&mut Rng::new(seed ^ 0x2A71_0000)),
        };
        let a = wanted_correct_by(rule, seed, &old.0, &old.1);
        let b = wanted_correct_by(rule, seed ^ 0x0B00_0000, &old.0, &old.1);
        let (done_a, with_a) = corrected(1, &old, &a, &note);
        let (done_b, with_b) = corrected(1, &old, &b, &note);
        if a.s == b.s || !done_a.is_done() || !done_b.is_done() {
            continue;
        }
        let (done_ab, both_ab) = corrected(2, &with_a, &b, &note);
        let (done_ba, both_ba) = corrected(2, &with_b, &a, &note);
        assert_eq!(done_ab, done_ba, "{note}");
        same_buffers(&both_ab, &both_ba, &note);
        tally_of(&mut tallies, rule).count(done_ab);
        if fit_together(lent(&old), &a, &b) {
            assert_eq!(done_ab, Answer::DONE, "{note}");
            reads_back(lent(&both_ab), a.s, &a.key, &a.data, &note);
            reads_back(lent(&both_ab), b.s, &b.key, &b.data, &note);
        } else {
            assert_eq!(done_ab, answer(15, 0), "{note}");
        }
    }
    for (tally, pairs) in tallies.into_iter().zip([1_000, 3_000]) {
        tally.finish(pairs, &[0, 15]);
    }
}

/// The largest data of sector 0 without a key, and one byte more.
#[test]
fn largest_data_of_a_blank_track() {
    for (length, largest) in [(3_815, 3_709), (3_906, 3_800), (4_002, 3_896)] {
        for (dl, number) in [(largest, 0), (largest + 1, 15)] {
            let w = WantedBlank {
                length,
                marks_length: length,
                address: reference::Address::default(),
                flag: 0,
                partner: reference::Address::default(),
                s: 0,
                key: vec![],
                data: vec![0xD1; dl],
            };
            let note = format!("length {length}, DL {dl}");
            let (done, _) = blank_by_both(noise(0, length, length), &w, &note);
            assert_eq!(done, answer(number, 0), "{note}");
        }
    }
}

/// The zero byte of an empty data block that goes on with check and end byte.
const FOUR: [u8; 4] = [0x00, 0xFF, 0xFF, 0xCC];
/// The opening of a count after sector 0.
const LONG_OPENING: [u8; 8] = [0x00, 0x00, 0x00, 0x00, 0xFF, 0xFF, 0xFF, 0x0E];

/// So many sectors 0, 1, 2 and on without data, with least gaps; their blocks have ten bytes, the odd ones have a key.
fn of_ten_bytes(number: u8) -> Built {
    let ten = |s: u8| PlannedSector {
        flag: s % 2 * 0x80,
        s,
        key: vec![0xC1; usize::from(s % 2) * 45],
        data: vec![],
        closed: true,
        gap: 21,
    };
    let plan = Plan {
        length: 3_906,
        home: 30,
        flag: 0,
        address: reference::Address::default(),
        named: reference::Address::default(),
        sectors: (0..number).map(ten).collect(),
    };
    plan.build(&mut |length| vec![0x55; length])
}

/// Both slices of a built track.
fn lent_of(built: &Built) -> Lent<'_> {
    (&built.track, &built.marks)
}

/// All ten bytes are kept, and the gap and the new sector stand behind them.
#[test]
fn add_behind_a_block_of_ten_bytes() {
    for number in 1..5 {
        for (seed, (kl, dl)) in (0..).zip([(0, 0), (0, 1), (3, 0), (20, 500)]) {
            let note = format!("{number} sectors, KL {kl}, DL {dl}");
            let old = of_ten_bytes(number);
            let last = old.places[old.places.len() - 1];
            let w = wanted_sector(99, kl, dl);
            let (done, new) = add_by_both(lent_of(&old), noise(seed, 3_906, 3_906), &w, &note);
            assert_eq!(done, Answer::DONE, "{note}");
            let end = last.data + 4;
            assert_eq!(new.0[..end], old.track[..end], "{note}");
            assert_eq!(new.1[..end], old.marks[..end], "{note}");
            assert_eq!(new.0[last.data..end], FOUR, "{note}");
            let gap = if number % 2 == 0 { 21 + 2 } else { 21 };
            assert_eq!(new.0[end..end + gap], vec![0xFF; gap], "{note}");
            assert_eq!(new.0[end + gap..][..8], LONG_OPENING, "{note}");
            let after = end + gap + sector_length(false, kl, dl);
            assert!(new.0[after..].iter().all(|&byte| byte == 0xFF), "{note}");
            reads_back(lent(&new), 99, &w.key, &w.data, &note);
        }
    }
}

/// The three bytes take their room: a sector that just fits, and one with a byte more.
#[test]
fn room_behind_a_block_of_ten_bytes() {
    for number in 1..5 {
        let old = of_ten_bytes(number);
        let end = old.places[old.places.len() - 1].data + 4;
        let gap = if number % 2 == 0 { 21 + 2 } else { 21 };
        let most = 3_906 - 13 - end - gap - (sector_length(false, 0, 1) - 1);
        for (dl, wanted) in [(most, 0), (most + 1, 15), (most + 3, 15), (most + 4, 15)] {
            let note = format!("{number} sectors, DL {dl}");
            let w = wanted_sector(99, 0, dl);
            let (done, _) = add_by_both(lent_of(&old), noise(1, 3_906, 3_906), &w, &note);
            assert_eq!(done, answer(wanted, 0), "{note}");
        }
    }
}

/// Demands sectors of these lengths from a place on, each behind the other's first-written gap, the empty blocks of seven bytes, and FF to index.
fn first_written_from(
    new: &Track,
    place: usize,
    index: usize,
    sizes: &[(usize, usize)],
    note: &str,
) {
    let mut place = place;
    for (index, &(kl, dl)) in sizes.iter().enumerate().skip(index) {
        let end = place + sector_length(index == 0, kl, dl);
        assert_eq!(new.0[end - 1], if dl == 0 { 0x00 } else { 0xCC }, "{note}");
        let last = index + 1 == sizes.len();
        let gap = match last {
            true => new.0.len() - end,
            false => 21 + (kl + dl) / 20,
        };
        assert_eq!(new.0[end..end + gap], vec![0xFF; gap], "{note}");
        place = end + gap;
        assert!(last || new.0[place..].starts_with(&LONG_OPENING), "{note}");
    }
}

/// Blocks before the corrected sector keep their ten bytes, the others get seven with FF behind them.
#[test]
fn correct_among_blocks_of_ten_bytes() {
    let old = of_ten_bytes(5);
    for index in 0..5 {
        for (seed, (kl, dl)) in (0..).zip([(0, 0), (30, 0), (0, 101), (7, 1)]) {
            let note = format!("sector {index}, KL {kl}, DL {dl}");
            let w = wanted_body(index as u8, kl, dl);
            let (done, new) = correct_by_both(lent_of(&old), noise(seed, 3_906, 3_906), &w, &note);
            assert_eq!(done, Answer::DONE, "{note}");
            let place = old.places[index].count;
            assert_eq!(new.0[..place], old.track[..place], "{note}");
            assert_eq!(new.1[..place], old.marks[..place], "{note}");
            for before in &old.places[..index] {
                assert_eq!(new.0[before.data..before.data + 4], FOUR, "{note}");
            }
            let mut sizes = [(0, 0), (45, 0), (0, 0), (45, 0), (0, 0)];
            sizes[index] = (kl, dl);
            first_written_from(&new, place, index, &sizes, &note);
            reads_back(lent(&new), w.s, &w.key, &w.data, &note);
        }
    }
}

/// Two corrections with blocks of ten bytes before, between, in and behind the two sectors: one track in both orders.
#[test]
fn corrections_in_both_orders_among_blocks_of_ten_bytes() {
    let built = of_ten_bytes(5);
    let old: Track = (built.track, built.marks);
    let body = |s, (kl, dl)| wanted_body(s, kl, dl);
    let sizes = [(0, 0), (44, 500), (1, 0), (0, 1)];
    for (a, b) in (0..5).flat_map(|a| (a + 1..5).map(move |b| (a, b))) {
        for (of_a, of_b) in sizes.iter().flat_map(|one| sizes.map(|two| (*one, two))) {
            let note = format!("sectors {a} {of_a:?} and {b} {of_b:?}");
            let (a, b) = (body(a, of_a), body(b, of_b));
            let (done_a, with_a) = corrected(1, &old, &a, &note);
            let (done_b, with_b) = corrected(1, &old, &b, &note);
            assert_eq!((done_a, done_b), (Answer::DONE, Answer::DONE), "{note}");
            let (done_ab, both_ab) = corrected(2, &with_a, &b, &note);
            let (done_ba, both_ba) = corrected(2, &with_b, &a, &note);
            assert_eq!((done_ab, done_ba), (Answer::DONE, Answer::DONE), "{note}");
            same_buffers(&both_ab, &both_ba, &note);
        }
    }
}
