//! Generated tracks: sound, damaged, and with wanted fields.

use crate::alike::*;
use crate::common::*;
use reference::check::check_by_division;
use reference::generate::*;
use std::collections::BTreeSet;

fn listed(track: &[u8], marks: &[u8]) -> Vec<Sector> {
    let mut records = [Sector::default(); 67];
    let (done, number) = list(track, marks, &mut records);
    assert_eq!(done, answer(0, 0));
    records[..number].to_vec()
}

/// All candidates of a walk.
fn walked(track: &[u8], marks: &[u8]) -> Vec<Candidate> {
    let mut walk = Walk::new(track, marks);
    let found: Vec<_> = std::iter::from_fn(|| walk.step().ok()).take(300).collect();
    assert!(found.len() < 300, "more counts than a track can hold");
    found
}

#[test]
fn sound_tracks_are_accepted_and_listed() {
    for seed in 0..3_000 {
        let Sound { plan, built } = sound_plan(seed);
        assert_eq!(accepted(&built), answer(0, 0), "seed {seed}");
        let records = listed(&built.track, &built.marks);
        assert_eq!(records.len(), plan.sectors.len());
        for ((record, sector), places) in records.iter().zip(&plan.sectors).zip(&built.places) {
            assert_eq!((record.flag, record.s), (sector.flag, sector.s));
            assert_eq!(usize::from(record.kl), sector.key.len());
            assert_eq!(usize::from(record.dl), sector.data.len());
            assert_eq!(record.key_place, places.key);
            assert_eq!(record.data_place, places.data);
            assert_eq!(record.end, places.end);
        }
    }
}

#[test]
fn sound_tracks_are_found_and_walked() {
    for seed in 3_000..3_150 {
        let Sound { plan, built } = sound_plan(seed);
        for sector in &plan.sectors {
            let (done, key) = find(&built.track, &built.marks, sector.s, Part::Key);
            assert_eq!((done, &built.track[key]), (answer(0, 0), &sector.key[..]));
            let (done, data) = find(&built.track, &built.marks, sector.s, Part::Data);
            assert_eq!((done, &built.track[data]), (answer(0, 0), &sector.data[..]));
        }
        let places: Vec<usize> = built.places.iter().map(|places| places.count).collect();
        let found = walked(&built.track, &built.marks);
        let walk: Vec<usize> = found.iter().map(|next| next.place).collect();
        assert_eq!(walk, places);
    }
}

#[test]
fn sound_tracks_are_varied() {
    let (mut numbers, mut homes, mut flags) = (BTreeSet::new(), BTreeSet::new(), BTreeSet::new());
    let (mut least_gap, mut last_gap, mut b7, mut keys, mut empty) = (0, 0, 0, 0, 0);
    let mut ten = 0;
    let mut lengths = BTreeSet::new();
    for seed in 0..2_000 {
        let Sound { plan, built } = sound_plan(seed);
        numbers.insert(plan.sectors.len());
        homes.insert(plan.home);
        flags.insert(plan.flag);
        lengths.insert(plan.length);
        let end = built.places[built.places.len() - 1].end;
        last_gap += usize::from(plan.length - end == 13);
        let inner = &plan.sectors[..plan.sectors.len() - 1];
        least_gap += usize::from(inner.iter().any(|sector| sector.gap == 21));
        b7 += plan.sectors.iter().filter(|s| s.flag & 0x40 != 0).count();
        keys += plan.sectors.iter().filter(|s| !s.key.is_empty()).count();
        empty += plan.sectors.iter().filter(|s| s.data.is_empty()).count();
        ten += built.places.iter().filter(|s| s.is_ten()).count();
    }
    assert!(numbers.contains(&1) && numbers.contains(&67) && numbers.len() > 40);
    assert_eq!(numbers.last(), Some(&67));
    assert_eq!(
        homes.into_iter().collect::<Vec<_>>(),
        Vec::from_iter(23..=37)
    );
    assert_eq!(flags.into_iter().collect::<Vec<_>>(), [0, 1, 2, 3]);
    assert!(lengths.contains(&3_815) && lengths.contains(&4_002) && lengths.len() > 100);
    assert!([least_gap, last_gap, b7, keys, empty, ten]
        .iter()
        .all(|&n| n > 50));
}

#[test]
fn damaged_tracks_give_every_answer() {
    let seeds = 0..6_000;
    let mut seen = [0; 17];
    for seed in seeds.clone() {
        let (track, marks) = damaged(seed);
        seen[usize::from(accept(&track, &marks).number)] += 1;
    }
    println!("answers 0 to 16 over seeds {seeds:?}: {seen:?}");
    for number in (0..=11).chain([13]) {
        assert!(seen[number] >= 10, "{number} of {seen:?} over {seeds:?}");
    }
    assert_eq!((seen[12], seen[14], seen[15], seen[16]), (0, 0, 0, 0));
}

/// How often each second number was met with answers 10 and 11, and with 11 of an empty block.
#[derive(Default, Debug)]
struct Faults {
    key: [usize; 4],
    data: [usize; 4],
    empty: [usize; 4],
}

impl Faults {
    /// One more answer, about a block of this length; with any other number the second one is 0.
    fn count(&mut self, done: Answer, length: usize) {
        let fault = usize::from(done.fault);
        assert_eq!((1..=3).contains(&fault), matches!(done.number, 10 | 11));
        match (done.number, length) {
            (10, _) => self.key[fault] += 1,
            (11, 0) => self.empty[fault] += 1,
            (11, _) => self.data[fault] += 1,
            _ => assert_eq!(fault, 0, "{done:?}"),
        }
    }

    /// Demands that each was met so often, and that an empty block has no third.
    fn finish(&self, least: usize) {
        println!("{self:?}");
        let all = self.key[1..].iter().chain(&self.data[1..]);
        let mut all = all.chain(&self.empty[1..3]);
        assert!(all.all(|&times| times >= least), "{self:?}");
        assert_eq!(self.empty[3], 0, "{self:?}");
    }
}

/// DL of the candidate nearest to the left of a place.
fn data_length_at(track: &[u8], marks: &[u8], place: usize) -> usize {
    let candidates = walked(track, marks);
    let left = candidates.iter().rfind(|next| next.place < place);
    left.map_or(0, |next| usize::from(next.dl))
}

#[test]
fn damaged_tracks_give_every_fault() {
    let mut seen = Faults::default();
    for seed in 0..6_000 {
        let (track, marks) = damaged(seed);
        let done = accept(&track, &marks);
        let length = match done.number {
            11 => data_length_at(&track, &marks, done.place),
            _ => 0,
        };
        seen.count(done, length);
    }
    seen.finish(15);
}

/// Accept refuses the key first, and Find each block for its own first fault.
#[test]
fn spoiled_blocks_give_their_first_fault() {
    let (mut seen, mut sets) = (Faults::default(), BTreeSet::new());
    let mut both = 0;
    for seed in 0..3_000 {
        let Sound { plan, mut built } = sound_plan(seed);
        let spoiled = spoil_block(&mut Rng::new(seed), &mut built);
        assert_eq!(accepted(&built), spoiled[0].answer(), "seed {seed}");
        both += usize::from(spoiled.len() == 2);
        for one in spoiled {
            let part = [Part::Key, Part::Data][usize::from(one.block.number) - 10];
            let holds = |places: &Places| places.end > one.block.opening;
            let index = built.places.iter().position(holds).unwrap();
            let s = plan.sectors[index].s;
            let (done, range) = find(&built.track, &built.marks, s, part);
            assert_eq!((done, range), (one.answer(), 0..0), "seed {seed}");
            seen.count(done, one.block.length);
            sets.insert((done.number, one.block.length == 0, one.changed));
        }
    }
    seen.finish(50);
    // Seven sets of parts of a key, seven of a data block, and three of an empty one.
    assert_eq!(sets.len(), 17, "{sets:?}");
    assert!(both > 200, "{both}");
}

/// Jumbled tracks give many candidates and several answers.
#[test]
fn jumbled_tracks_are_varied() {
    let mut seen = [0; 17];
    let mut candidates = 0;
    for seed in 0..2_000 {
        let (track, marks) = jumbled(seed);
        assert_eq!(track.len(), marks.len());
        seen[usize::from(accept(&track, &marks).number)] += 1;
        candidates += walked(&track, &marks).len();
    }
    for number in [2, 3, 5, 8, 9, 11] {
        assert!(seen[number] > 0, "{number} of {seen:?}");
    }
    assert_eq!(seen[1], 0);
    assert!(candidates > 20_000, "{candidates}");
}

/// List, Add and Correct pass on what Accept answers, and Pair find does for the second track.
#[test]
fn damaged_tracks_are_refused_alike() {
    let (mut seen, mut faults) = ([0; 17], BTreeSet::new());
    let (first, first_marks) = defective();
    for seed in 20_000..22_000 {
        let (track, marks) = damaged(seed);
        let expected = accept(&track, &marks);
        if expected.number == 0 {
            continue;
        }
        seen[usize::from(expected.number)] += 1;
        faults.insert((expected.number, expected.fault));
        let mut records = [Sector::default(); 67];
        assert_eq!(list(&track, &marks, &mut records), (expected, 0));
        assert_eq!(records, [Sector::default(); 67]);
        let (mut a, mut b) = (vec![0xA5; track.len()], vec![0x5A; track.len()]);
        let rule = any_rule(&mut Rng::new(seed));
        let added = add(&track, &marks, &mut a, &mut b, 2, 0, &[0; 256], &[], rule);
        let corrected = correct(&track, &marks, &mut a, &mut b, 0, &[0; 256], &[], rule);
        assert_eq!((added, corrected), (expected, expected));
        assert!(a.iter().all(|&byte| byte == 0xA5) && b.iter().all(|&mark| mark == 0x5A));
        let paired = pair_find((&first, &first_marks), (&track, &marks), 0, Part::Data);
        assert_eq!(paired, (expected, 1, 0..0));
    }
    for number in (1..=11).chain([13]) {
        assert!(seen[number] > 0, "{number} of {seen:?}");
    }
    for fault in 1..=3 {
        assert!(faults.contains(&(10, fault)) && faults.contains(&(11, fault)));
    }
}

/// A defective track with an alternative allocated.
fn defective() -> (Vec<u8>, Vec<u8>) {
    let built = build(&flagged(2, THERE));
    assert_eq!(accepted(&built), answer(0, 0));
    (built.track, built.marks)
}

/// Find agrees with the candidates a walk gives, on any track.
#[test]
fn damaged_tracks_find_what_walk_gives() {
    let mut seen = [0; 17];
    for seed in 6_000..7_500 {
        let (track, marks) = damaged(seed);
        let candidates = walked(&track, &marks);
        assert!(candidates.windows(2).all(|two| two[0].place < two[1].place));
        let readable = accept(&track, &marks).number != 1;
        let mut wanted: Vec<u8> = candidates.iter().map(|next| next.s).take(6).collect();
        wanted.extend([seed as u8, 0]);
        for s in wanted {
            let part = [Part::Key, Part::Data][seed as usize % 2];
            let (done, range) = find(&track, &marks, s, part);
            seen[usize::from(done.number)] += 1;
            let same: Vec<_> = candidates.iter().filter(|next| next.s == s).collect();
            match same[..] {
                _ if !readable => assert_eq!(done, answer(1, 0)),
                [] => assert_eq!(done, answer(12, 0)),
                [only] => check_found(&track, only, part, done, range),
                [_, second, ..] => assert_eq!(done, answer(13, second.place)),
            }
        }
    }
    for number in [0, 1, 9, 10, 11, 12, 13] {
        assert!(seen[number] > 0, "{number} of {seen:?}");
    }
}

/// What Find may answer about its only candidate.
fn check_found(
    track: &[u8],
    only: &Candidate,
    part: Part,
    done: Answer,
    range: std::ops::Range<usize>,
) {
    match done.number {
        0 => {
            let length = match part {
                Part::Key => usize::from(only.kl),
                Part::Data => usize::from(only.dl),
            };
            assert_eq!(range.len(), length);
            assert!(range.end <= track.len());
            assert!(length == 0 || range.start > only.place);
        }
        9 => assert_eq!(done.place, only.place),
        10 => assert!(part == Part::Key && done.place > only.place),
        11 => assert!(part == Part::Data && done.place > only.place),
        _ => panic!("{done:?} for {only:?}"),
    }
    let fault = match done.number {
        10 => fault_by_division(track, done.place, usize::from(only.kl)),
        11 => fault_by_division(track, done.place, usize::from(only.dl)),
        _ => 0,
    };
    assert_eq!(done.fault, fault, "{done:?} for {only:?}");
    assert!(done.number == 0 || range == (0..0));
}

/// The first fault of a block, its check by long division.
fn fault_by_division(track: &[u8], opening: usize, length: usize) -> u8 {
    let (start, end) = (opening + 6, opening + 6 + length);
    if track[opening..start] != SHORT {
        return 1;
    }
    let checks = match length {
        0 => track[start] == 0,
        _ => track[end..end + 2] == check_by_division(&track[start..end]),
    };
    match checks {
        false => 2,
        true if length > 0 && track[end + 2] != 0xCC => 3,
        true => 0,
    }
}

/// A step-by-step walk equals starting anew behind each candidate.
#[test]
fn walk_from_equals_walk() {
    for seed in 7_500..7_900 {
        let (track, marks) = damaged(seed);
        let mut walk = Walk::new(&track, &marks);
        let mut from = 0;
        loop {
            let (step, fresh) = (walk.step(), walk_from(&track, &marks, from));
            assert_eq!(step, fresh);
            match step {
                Ok(next) => from = next.place + 1,
                Err(_) => break,
            }
        }
    }
}

#[test]
fn listing_of_damaged_tracks() {
    for seed in 7_900..8_300 {
        let (track, marks) = damaged(seed);
        if track.len() != marks.len() {
            continue;
        }
        let number = accept(&track, &marks).number;
        let output = String::from_utf8(tracklist(&[&track[..], &marks].concat())).unwrap();
        match number {
            0 => assert_eq!(output.lines().count(), 1 + listed(&track, &marks).len()),
            _ => assert_eq!(output, format!("refused {number}\n")),
        }
    }
}

#[test]
fn wanted_blanks() {
    let mut seen = [0; 17];
    for seed in 0..1_500 {
        let w = wanted_blank(seed);
        let (mut track, mut marks) = (vec![0xA5; w.length], vec![0x5A; w.marks_length]);
        let done = blank(
            &mut track, &mut marks, w.address, w.flag, w.partner, w.s, &w.key, &w.data,
        );
        seen[usize::from(done.number)] += 1;
        if done.number == 0 {
            let records = listed(&track, &marks);
            assert_eq!((records.len(), records[0].s), (1, w.s));
            let (_, key) = find(&track, &marks, w.s, Part::Key);
            let (_, data) = find(&track, &marks, w.s, Part::Data);
            assert_eq!((&track[key], &track[data]), (&w.key[..], &w.data[..]));
        } else {
            assert!(track.iter().all(|&byte| byte == 0xA5));
            assert!(marks.iter().all(|&mark| mark == 0x5A));
        }
    }
    for number in [0, 1, 14, 15] {
        assert!(seen[number] > 20, "{number} of {seen:?}");
    }
    assert!(seen[0] > 700, "{seen:?}");
}

/// Two buffers of noise for a track of this length.
fn noise(length: usize) -> (Vec<u8>, Vec<u8>) {
    (vec![0xA5; length], vec![0x5A; length])
}

/// What a call that writes into noise answered and left; a refusal leaves the noise.
fn left(done: Answer, new: Vec<u8>, new_marks: Vec<u8>) -> (Answer, Vec<u8>, Vec<u8>) {
    if done.number != 0 {
        assert!(new.iter().all(|&byte| byte == 0xA5));
        assert!(new_marks.iter().all(|&mark| mark == 0x5A));
    }
    (done, new, new_marks)
}

/// What Add answers and leaves.
pub fn addition(track: &[u8], marks: &[u8], w: &WantedAdd) -> (Answer, Vec<u8>, Vec<u8>) {
    let (mut new, mut new_marks) = noise(track.len());
    let done = add(
        track,
        marks,
        &mut new,
        &mut new_marks,
        w.b7,
        w.s,
        &w.key,
        &w.data,
        w.rule,
    );
    left(done, new, new_marks)
}

#[test]
fn wanted_additions() {
    let mut seen = [0; 17];
    for seed in 0..1_500 {
        let (track, marks) = if seed % 8 == 0 {
            damaged(seed)
        } else {
            sound(seed)
        };
        let w = wanted_add(seed, &track, &marks);
        let (done, new, new_marks) = addition(&track, &marks, &w);
        seen[usize::from(done.number)] += 1;
        if done.number == 0 {
            let (mut old, records) = (listed(&track, &marks), listed(&new, &new_marks));
            let last = old.last_mut().expect("a track has sector 0");
            let sizes = usize::from(last.kl) + usize::from(last.dl);
            last.gap = match w.rule {
                GapRule::One => 21 + sizes / 20,
                GapRule::Two { a, b } => 21 + sizes * usize::from(a) / usize::from(b),
            };
            assert_eq!(records[..old.len()], old);
            assert_eq!(records.len(), old.len() + 1);
            let (_, key) = find(&new, &new_marks, w.s, Part::Key);
            let (_, data) = find(&new, &new_marks, w.s, Part::Data);
            assert_eq!((&new[key], &new[data]), (&w.key[..], &w.data[..]));
        }
    }
    for number in [0, 13, 14, 15] {
        assert!(seen[number] > 20, "{number} of {seen:?}");
    }
    assert!(seen[0] > 400, "{seen:?}");
}

/// Flag, number, key and data of every sector from left to right.
fn contents(track: &[u8], marks: &[u8]) -> Vec<(u8, u8, Vec<u8>, Vec<u8>)> {
    let contents_of = |record: &Sector| {
        let key = &track[record.key_place..][..record.kl.into()];
        let data = &track[record.data_place..][..record.dl.into()];
        (record.flag, record.s, key.to_vec(), data.to_vec())
    };
    listed(track, marks).iter().map(contents_of).collect()
}

/// What Correct answers and leaves.
pub fn correction(track: &[u8], marks: &[u8], w: &WantedCorrect) -> (Answer, Vec<u8>, Vec<u8>) {
    let (mut new, mut new_marks) = noise(track.len());
    let done = correct(
        track,
        marks,
        &mut new,
        &mut new_marks,
        w.s,
        &w.key,
        &w.data,
        w.rule,
    );
    left(done, new, new_marks)
}

#[test]
fn wanted_corrections() {
    let mut seen = [0; 17];
    for seed in 0..1_200 {
        let (track, marks) = if seed % 8 == 0 {
            damaged(seed)
        } else {
            sound(seed)
        };
        let w = wanted_correct(seed, &track, &marks);
        let (done, new, new_marks) = correction(&track, &marks, &w);
        seen[usize::from(done.number)] += 1;
        if done.number == 0 {
            let mut expected = contents(&track, &marks);
            let changed = expected.iter_mut().find(|sector| sector.1 == w.s).unwrap();
            (changed.2, changed.3) = (w.key.clone(), w.data.clone());
            assert_eq!(contents(&new, &new_marks), expected);
        }
    }
    for number in [0, 12, 14, 15] {
        assert!(seen[number] > 20, "{number} of {seen:?}");
    }
    assert!(seen[0] > 400, "{seen:?}");
}

/// The sectors of two wanted corrections by one rule, and the answer to both: the same in either order, with the same track.
/// None where they name one sector, or one of them is not done alone.
pub fn both_orders(seed: u64, track: &[u8], marks: &[u8]) -> Option<(u8, u8, Answer)> {
    let a = wanted_correct(seed, track, marks);
    let b = wanted_correct_by(a.rule, seed + 50_000, track, marks);
    let (done_a, track_a, marks_a) = correction(track, marks, &a);
    let (done_b, track_b, marks_b) = correction(track, marks, &b);
    if a.s == b.s || done_a.number != 0 || done_b.number != 0 {
        return None;
    }
    let a_then_b = correction(&track_a, &marks_a, &b);
    let b_then_a = correction(&track_b, &marks_b, &a);
    assert_eq!(a_then_b, b_then_a, "seed {seed}");
    Some((a.s, b.s, a_then_b.0))
}

/// Two corrections of different sectors: the same track in both orders, or 15 in both.
#[test]
fn corrections_in_both_orders() {
    let (mut same, mut full) = (0, 0);
    for seed in 10_000..11_200 {
        let (track, marks) = sound(seed);
        match both_orders(seed, &track, &marks) {
            None => {}
            Some((_, _, Answer { number: 0, .. })) => same += 1,
            Some((_, _, refusal)) => {
                assert_eq!(refusal, answer(15, 0));
                full += 1;
            }
        }
    }
    assert!(same > 200 && full > 0, "{same} {full}");
}
