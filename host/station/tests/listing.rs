//! List against the reference: answers and every lent row; the sum of a track's pieces; what the writing calls leave.

mod common;

use common::sectors::rule_gap;
use common::{
    alike, answer, any_track, expected, lent, new_body, new_sector, new_track, noise, Tally, Track,
};
use reference::generate::{
    sound, wanted_add, wanted_blank, wanted_correct, Built, Plan, PlannedSector, Rng, WantedAdd,
    WantedBlank, WantedCorrect,
};
use reference::layout::find_home;
use reference::GapRule;
use station::{Answer, Lent, Sector, MOST_SECTORS};
use std::collections::BTreeMap;

/// Numbers that List can give.
const LIST: [u8; 13] = [0, 1, 2, 3, 4, 5, 6, 7, 8, 9, 10, 11, 13];
/// Check and end byte with which an empty data block may go on.
const EMPTY_TRAILER: [u8; 3] = [0xFF, 0xFF, 0xCC];

/// Flag, S, KL, DL, key's place, data's place, end and gap.
type Row = [u16; 8];
/// The columns of a row that are looked at here.
const FLAG: usize = 0;
const S: usize = 1;
const KL: usize = 2;
const DL: usize = 3;
const DATA: usize = 5;
const END: usize = 6;
const GAP: usize = 7;

/// So many rows full of noise.
fn noisy_rows(seed: u64, count: usize) -> Vec<Row> {
    let mut rng = Rng::new(seed ^ 0x0115_4045);
    let mut row = || [(); 8].map(|()| rng.bits() as u16);
    (0..count).map(|_| row()).collect()
}

/// Demands equal rows; says where the first difference is.
fn same_rows(ours: &[Row], theirs: &[Row], note: &str) {
    assert_eq!(ours.len(), theirs.len(), "{note}");
    for (index, (a, b)) in ours.iter().zip(theirs).enumerate() {
        assert_eq!(a, b, "row {index} of {}, {note}", ours.len());
    }
}

/// List by both, into so many rows of noise, of which those past the last sector stay, and all where it refuses; where there are enough rows it answers as Accept.
/// Gives the sectors' rows.
fn list_by_both((track, marks): Lent, count: usize, note: &str) -> Result<Vec<Row>, Answer> {
    let before = noisy_rows(track.len() as u64, count);
    let (mut ours, mut theirs) = (before.clone(), before);
    let done = station::list_into(track, marks, &mut ours);
    let mut records = vec![reference::Sector::default(); count];
    let (same, number) = reference::list(track, marks, &mut records);
    match expected(same) {
        Answer::DONE => assert_eq!(done, Ok(number), "{note}"),
        refusal => assert_eq!((done, number), (Err(refusal), 0), "{note}"),
    }
    for (row, record) in theirs.iter_mut().zip(&records[..number]) {
        *row = record.row();
    }
    same_rows(&ours, &theirs, note);
    if count >= MOST_SECTORS {
        assert_eq!(alike::accept(track, marks), expected(same), "{note}");
    }
    done.map(|number| ours[..number].to_vec())
}

/// The row of a record.
fn row_of(sector: &Sector) -> Row {
    let places = [sector.key_place, sector.data_place, sector.end, sector.gap];
    let [key, data, end, gap] = places.map(|place| place as u16);
    let (flag, s, kl) = (sector.flag.into(), sector.s.into(), sector.kl.into());
    [flag, s, kl, sector.dl, key, data, end, gap]
}

/// The sectors' rows by both forms of the call.
fn list_whole(track: &Track, note: &str) -> Result<Vec<Row>, Answer> {
    let listed = list_by_both(lent(track), MOST_SECTORS, note);
    let records = station::list(&track.0, &track.1);
    let owned = records.map(|records| records.iter().map(row_of).collect());
    assert_eq!(owned, listed, "{note}");
    listed
}

/// The rows of an accepted track.
fn rows_of(track: &Track, note: &str) -> Vec<Row> {
    list_whole(track, note).expect(note)
}

/// The answer of a listing.
fn answer_of(listed: &Result<Vec<Row>, Answer>) -> Answer {
    listed.as_ref().err().copied().unwrap_or(Answer::DONE)
}

/// A track by Blank, with up to six sectors by Add, and often one corrected; what is refused is left out.
fn written(seed: u64) -> Track {
    let mut rng = Rng::new(seed ^ 0x3417_7E40);
    let mut track = (0..).find_map(|nth| blanked(&wanted_blank(seed ^ nth << 40)));
    for step in 0..rng.below(7) as u64 {
        let old = track.as_ref().expect("Blank does one of these");
        let w = wanted_add(seed ^ step << 48, &old.0, &old.1);
        track = added(old, &w).or(track);
    }
    let track = track.expect("Blank does one of these");
    let w = wanted_correct(seed, &track.0, &track.1);
    let corrected = rng.chance(60).then(|| corrected(&track, &w)).flatten();
    corrected.unwrap_or(track)
}

/// What Blank writes, if it does what is wanted.
fn blanked(w: &WantedBlank) -> Option<Track> {
    let mut new = noise(w.s.into(), w.length, w.marks_length);
    let done = station::blank(&mut new.0, &mut new.1, &new_track(w));
    done.is_done().then_some(new)
}

/// What Add writes, if it does what is wanted.
fn added(old: &Track, w: &WantedAdd) -> Option<Track> {
    let mut new = noise(w.s.into(), old.0.len(), old.1.len());
    let done = alike::add(lent(old), &mut new.0, &mut new.1, &new_sector(w));
    done.is_done().then_some(new)
}

/// What Correct writes, if it does what is wanted.
fn corrected(old: &Track, w: &WantedCorrect) -> Option<Track> {
    let mut new = noise(w.s.into(), old.0.len(), old.1.len());
    let done = alike::correct(lent(old), &mut new.0, &mut new.1, &new_body(w));
    done.is_done().then_some(new)
}

/// One of five tracks was written by the wrapper, the others are of all kinds.
fn track_of(seed: u64) -> Track {
    match seed % 5 {
        0 => written(seed),
        _ => any_track(seed),
    }
}

/// Mostly as many rows as are asked for, at times more or fewer.
fn some_count(rng: &mut Rng) -> usize {
    match rng.below(16) {
        0 => rng.pick(&[0, 1, 66, 66]),
        1 => rng.below(MOST_SECTORS),
        2 => 68,
        3 => 200,
        _ => MOST_SECTORS,
    }
}

/// How many bytes a count has.
fn count_length(index: usize) -> u16 {
    match index {
        0 => 18,
        _ => 20,
    }
}

/// How many bytes a key has with the gap behind it.
fn key_length(kl: u16) -> u16 {
    match kl {
        0 => 0,
        kl => kl + 9 + 11,
    }
}

/// Where the counts of an accepted track open: 25 bytes behind home's start, and five before the first mark of each pair.
fn openings((track, marks): Lent) -> Vec<u16> {
    let home = find_home(track, marks).expect("an accepted track has a home");
    let pairs = marks.windows(2).enumerate();
    let firsts = pairs.filter(|(_, pair)| pair == &[1, 1]);
    let later = firsts.map(|(place, _)| place as u16 - 5);
    [home as u16 + 25].into_iter().chain(later).collect()
}

/// The data block's length, of an empty one by the bytes behind its zero byte.
fn data_length(track: &[u8], row: &Row) -> u16 {
    let behind = &track[usize::from(row[DATA]) + 1..];
    match row[DL] {
        0 if behind.starts_with(&EMPTY_TRAILER) => 10,
        0 => 7,
        dl => dl + 9,
    }
}

/// Demands that home's start, the fixed pieces, the blocks and the gaps add up to L, and that each end and its gap reach the next opening.
fn adds_up(track: Lent, rows: &[Row], note: &str) {
    let (openings, length) = (openings(track), track.0.len() as u16);
    assert_eq!(rows.len(), openings.len(), "{note}");
    let mut sum = openings[0];
    for (index, row) in rows.iter().enumerate() {
        assert_eq!(sum, openings[index], "row {index}, {note}");
        let to_data = count_length(index) + 11 + key_length(row[KL]);
        sum += to_data + data_length(track.0, row) + row[GAP];
        let next = openings.get(index + 1).copied().unwrap_or(length);
        assert_eq!(row[END] + row[GAP], next, "row {index}, {note}");
        assert_eq!(row[DATA], openings[index] + to_data + 6, "{note}");
    }
    assert_eq!(sum, length, "{note}");
}

/// How often each kind of row was met.
#[derive(Default)]
struct Kinds(BTreeMap<&'static str, u64>);

impl Kinds {
    /// One more of this kind, if it is one.
    fn count(&mut self, kind: &'static str, is_one: bool) {
        *self.0.entry(kind).or_default() += u64::from(is_one);
    }

    /// One more track.
    fn count_track(&mut self, track: &[u8], rows: &[Row]) {
        self.count("67 sectors", rows.len() == 67);
        self.count("L 3,815", track.len() == 3_815);
        self.count("L 4,002", track.len() == 4_002);
        for (index, row) in rows.iter().enumerate() {
            let (last, ten) = (index + 1 == rows.len(), data_length(track, row) == 10);
            let (empty, gap) = (row[DL] == 0, row[GAP]);
            self.count("with a key", row[KL] > 0);
            self.count("seven bytes", empty && !ten);
            self.count("ten bytes", empty && ten);
            self.count("ten bytes, 21 behind", empty && ten && !last && gap == 21);
            self.count("ten bytes, 13 to index", empty && ten && last && gap == 13);
            self.count("21 behind", !last && gap == 21);
            self.count("13 to index", last && gap == 13);
            let rule = gap_by(GapRule::One, row);
            self.count("more than rule one", !last && gap > rule);
            self.count("less than rule one", !last && gap < rule);
        }
    }

    /// Demands each kind so often.
    fn finish(&self, least: u64) {
        println!("rows: {:?}", self.0);
        assert_eq!(self.0.len(), 12);
        assert!(self.0.values().all(|&times| times >= least), "{:?}", self.0);
    }
}

/// On tracks of all kinds, into row lists of many lengths; where 67 rows are lent, the pieces of each accepted track add up.
#[test]
fn list_as_the_reference() {
    let mut tally = Tally::new("list", 30_000);
    let mut short = Tally::new("list, fewer than 67 rows", 30_000);
    let (mut kinds, mut accepted) = (Kinds::default(), [0, 0]);
    for seed in tally.seeds() {
        let (track, note) = (track_of(seed), format!("seed {seed}"));
        let count = some_count(&mut Rng::new(seed ^ 0x0207_5A11));
        let listed = list_by_both(lent(&track), count, &note);
        if count < MOST_SECTORS {
            let is_done = alike::accept(&track.0, &track.1).is_done();
            accepted[usize::from(is_done)] += 1;
            short.count(answer_of(&listed));
            continue;
        }
        tally.count(answer_of(&listed));
        if let Ok(rows) = &listed {
            adds_up(lent(&track), rows, &note);
            kinds.count_track(&track.0, rows);
        }
        if seed % 4 == 0 {
            let whole = list_whole(&track, &note);
            assert_eq!(answer_of(&whole), answer_of(&listed), "{note}");
        }
    }
    tally.finish(24_000, &LIST);
    short.finish(2_000, &[1]);
    assert!(accepted.iter().all(|&times| times > 500), "{accepted:?}");
    kinds.finish(20);
}

/// Fewer than 67 rows are refused with 1 before anything else, whatever Accept answers; the tally is of Accept's answers.
#[test]
fn too_few_rows_come_first() {
    let mut tally = Tally::fixed("tracks with 66 rows and fewer, by Accept's answer", 4_000);
    for seed in tally.seeds() {
        let (track, note) = (track_of(seed), format!("seed {seed}"));
        for count in [0, 1, 2, 33, 65, 66] {
            let listed = list_by_both(lent(&track), count, &note);
            assert_eq!(listed, Err(answer(1, 0)), "{count} rows, {note}");
        }
        let judged = alike::accept(&track.0, &track.1);
        let listed = list_whole(&track, &note);
        assert_eq!(answer_of(&listed), judged, "{note}");
        tally.count(judged);
    }
    tally.finish(4_000, &LIST);
}

/// The gap that is written behind a block by a rule.
fn gap_by(rule: GapRule, row: &Row) -> u16 {
    rule_gap(rule, row[KL].into(), row[DL].into()) as u16
}

/// The row of a sector as it is written by a rule with its count's opening at a place: an empty block has seven bytes, and the rule's gap follows.
fn written_row(rule: GapRule, place: u16, index: usize, [flag, s, kl, dl]: [u16; 4]) -> Row {
    let after_count = place + count_length(index) + 11;
    let key = if kl == 0 { 0 } else { after_count + 6 };
    let data = after_count + key_length(kl) + 6;
    let end = data + if dl == 0 { 1 } else { dl + 3 };
    let mut row = [flag, s, kl, dl, key, data, end, 0];
    row[GAP] = gap_by(rule, &row);
    row
}

/// The rows with the last gap up to index.
fn to_index(mut rows: Vec<Row>, length: usize) -> Vec<Row> {
    let last = rows.last_mut().expect("a track has sector 0");
    last[GAP] = length as u16 - last[END];
    rows
}

/// Lengths of key and data.
fn sizes(key: &[u8], data: &[u8]) -> (u16, u16) {
    (key.len() as u16, data.len() as u16)
}

/// Demands the rows of a blank track; gives it if Blank does what is wanted.
fn blank_is_listed(w: &WantedBlank, note: &str) -> Option<Track> {
    let new = blanked(w)?;
    let (kl, dl) = sizes(&w.key, &w.data);
    let fields = [w.flag.into(), w.s.into(), kl, dl];
    let only = written_row(GapRule::One, 55, 0, fields);
    let wanted = to_index(vec![only], new.0.len());
    same_rows(&rows_of(&new, note), &wanted, note);
    Some(new)
}

/// Demands the rows behind Add: the last one gets the rule's gap, the new one's runs to index, and all else is kept.
fn addition_is_listed(old: &Track, w: &WantedAdd, note: &str) -> Option<Track> {
    let new = added(old, w)?;
    let mut wanted = rows_of(old, note);
    let last = wanted.last_mut().expect("a track has sector 0");
    last[GAP] = gap_by(w.rule, last);
    let (place, flag) = (last[END] + last[GAP], !last[FLAG] & 0x80 | last[FLAG] & 3);
    let (kl, dl) = sizes(&w.key, &w.data);
    let fields = [flag | u16::from(w.b7) << 6, w.s.into(), kl, dl];
    wanted.push(written_row(w.rule, place, wanted.len(), fields));
    let wanted = to_index(wanted, new.0.len());
    same_rows(&rows_of(&new, note), &wanted, note);
    Some(new)
}

/// Demands the rows behind Correct: those left of the sector are kept, and all others are as written, the last gap up to index.
fn correction_is_listed(old: &Track, w: &WantedCorrect, note: &str) -> Option<Track> {
    let new = corrected(old, w)?;
    let before = rows_of(old, note);
    let corrected = before.iter().position(|row| row[S] == u16::from(w.s));
    let corrected = corrected.expect("Correct found it");
    let mut place = openings(lent(old))[corrected];
    let mut wanted = before[..corrected].to_vec();
    for (index, row) in before.iter().enumerate().skip(corrected) {
        let (kl, dl) = match index == corrected {
            true => sizes(&w.key, &w.data),
            false => (row[KL], row[DL]),
        };
        let row = written_row(w.rule, place, index, [row[FLAG], row[S], kl, dl]);
        place = row[END] + row[GAP];
        wanted.push(row);
    }
    let wanted = to_index(wanted, new.0.len());
    same_rows(&rows_of(&new, note), &wanted, note);
    Some(new)
}

/// On tracks by Blank, Add and Correct, from nothing and from tracks with any gaps.
#[test]
fn rows_of_written_tracks() {
    let mut tally = Tally::new("list behind Blank, Add and Correct", 4_000);
    let mut done = BTreeMap::<_, u64>::new();
    for seed in tally.seeds() {
        let note = format!("seed {seed}");
        let mut count = |name, new: &Option<Track>| {
            *done.entry(name).or_default() += u64::from(new.is_some());
            new.iter().for_each(|_| tally.count(Answer::DONE));
        };
        let blank = blank_is_listed(&wanted_blank(seed), &note);
        count("blank", &blank);
        for mut track in [Some(sound(seed)), blank].into_iter().flatten() {
            for step in 1..4 {
                let w = wanted_add(seed ^ step << 40, &track.0, &track.1);
                let new = addition_is_listed(&track, &w, &note);
                count("add", &new);
                track = new.unwrap_or(track);
                let w = wanted_correct(seed ^ step << 40, &track.0, &track.1);
                let new = correction_is_listed(&track, &w, &note);
                count("correct", &new);
                // Every second track goes on from the correction.
                track = new.filter(|_| seed % 2 == 0).unwrap_or(track);
            }
        }
    }
    println!("written and listed: {done:?}");
    assert!(
        done.len() == 3 && done.values().all(|&times| times >= 2_000),
        "{done:?}"
    );
    tally.finish(12_000, &[0]);
}

/// The largest number of sectors, each in its shortest form with the least gap, some of them with blocks of ten bytes.
fn sixty_seven(tens: &[usize]) -> Built {
    let shortest = |index: usize| PlannedSector {
        flag: (index % 2 * 0x80) as u8,
        s: 200 - index as u8,
        key: vec![],
        data: vec![],
        closed: tens.contains(&index),
        gap: 21,
    };
    let plan = Plan {
        length: 4_002,
        home: 23,
        flag: 0,
        address: reference::Address::default(),
        named: reference::Address::default(),
        sectors: (0..MOST_SECTORS).map(shortest).collect(),
    };
    plan.build(&mut |length| vec![0x55; length])
}

/// Sixty-seven rows hold the largest number of sectors, and sixty-six are refused.
#[test]
fn sixty_seven_sectors() {
    let sets: [&[usize]; 6] = [&[], &[0], &[66], &[0, 66], &[1, 2, 3], &[64, 65, 66]];
    for tens in sets {
        let built = sixty_seven(tens);
        let (track, note) = ((built.track, built.marks), format!("{tens:?}"));
        for count in [67, 68, 200] {
            let rows = list_by_both(lent(&track), count, &note).expect(&note);
            assert_eq!(rows.len(), 67, "{note}");
            adds_up(lent(&track), &rows, &note);
            assert!(rows[..66].iter().all(|row| row[GAP] == 21), "{note}");
            assert_eq!(rows[66][GAP], 24 - 3 * tens.len() as u16, "{note}");
            assert_eq!(rows[66][END], 4_002 - rows[66][GAP], "{note}");
        }
        let refused = list_by_both(lent(&track), 66, &note);
        assert_eq!(refused, Err(answer(1, 0)), "{note}");
        assert_eq!(
            station::list(&track.0, &track.1).map(|all| all.len()),
            Ok(67)
        );
    }
    let mut built = sixty_seven(&[]);
    built.track[4_001 - 24] ^= 1;
    let refused = list_by_both((&built.track, &built.marks), 66, "a wrong zero byte");
    assert_eq!(refused, Err(answer(1, 0)));
    let refused = list_by_both((&built.track, &built.marks), 67, "a wrong zero byte");
    assert_eq!(refused.map_err(|refusal| refusal.number), Err(11));
}

/// The worked case of two sectors, and a third one behind them.
#[test]
fn ends_and_gaps_of_the_worked_case() {
    let sector = |s, kl, dl| WantedAdd {
        b7: 0,
        s,
        key: vec![0xC1; kl],
        data: vec![0xD1; dl],
        rule: GapRule::One,
    };
    for length in [3_815, 3_906, 4_002] {
        let w = WantedBlank {
            length,
            marks_length: length,
            data: vec![0xD1; 8],
            ..wanted_blank_of_nothing()
        };
        let one = blank_is_listed(&w, "one").expect("there is room");
        let two = addition_is_listed(&one, &sector(1, 3, 80), "two").expect("there is room");
        let three = addition_is_listed(&two, &sector(2, 0, 1), "three").expect("there is room");
        let places = |track| {
            rows_of(track, "places")
                .iter()
                .map(|row| (row[END], row[GAP]))
                .collect::<Vec<_>>()
        };
        let left = |end| length as u16 - end;
        assert_eq!(places(&one), [(101, left(101))]);
        assert_eq!(places(&two), [(101, 21), (265, left(265))]);
        assert_eq!(places(&three), [(101, 21), (265, 25), (331, left(331))]);
    }
}

/// Blank for an empty sector 0.
fn wanted_blank_of_nothing() -> WantedBlank {
    WantedBlank {
        length: 0,
        marks_length: 0,
        address: reference::Address::default(),
        flag: 0,
        partner: reference::Address::default(),
        s: 0,
        key: vec![],
        data: vec![],
    }
}
