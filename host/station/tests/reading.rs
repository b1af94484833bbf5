//! Accept, Find, Pair find and Walk against the reference, on sound, damaged and jumbled tracks.

mod common;

use common::{alike, answer, any_track, expected, lent, Tally, Track};
use reference::generate::{damaged, pair, Block, Built, Places, Plan, PlannedSector, Rng, Spoiled};
use reference::{Address, Part};
use station::{Answer, Fault, Lent, Wanted, Which};

/// Numbers that Accept can give.
const ACCEPT: [u8; 13] = [0, 1, 2, 3, 4, 5, 6, 7, 8, 9, 10, 11, 13];
/// Numbers that Find can give.
const FIND: [u8; 7] = [0, 1, 9, 10, 11, 12, 13];
/// Numbers that Pair find can give about the first track.
const FIRST: [u8; 14] = [0, 1, 2, 3, 4, 6, 7, 8, 9, 10, 11, 12, 13, 16];
/// Numbers that Pair find can give about the second track.
const SECOND: [u8; 14] = [0, 1, 2, 3, 4, 5, 6, 7, 8, 9, 10, 11, 12, 13];
/// Numbers that Walk can give.
const WALK: [u8; 3] = [0, 1, 12];
/// More candidates than any track holds.
const MANY: usize = 300;

/// The same wish in both types.
fn wish(rng: &mut Rng) -> (Wanted, Part) {
    rng.pick(&[(Wanted::Key, Part::Key), (Wanted::Data, Part::Data)])
}

/// The number of some candidate, or any number.
fn some_number(rng: &mut Rng, (track, marks): Lent) -> u8 {
    let mut walk = reference::Walk::new(track, marks);
    let mut numbers = vec![rng.byte()];
    while let Ok(candidate) = walk.step() {
        numbers.push(candidate.s);
    }
    match numbers.len() {
        1 => numbers[0],
        _ if rng.chance(8) => numbers[0],
        more => numbers[rng.between(1, more - 1)],
    }
}

/// Demands the same refusal, or the same bytes at the same place of the lent track.
fn compare_part(
    track: &[u8],
    ours: Result<&[u8], Answer>,
    theirs: (reference::Answer, std::ops::Range<usize>),
    note: &str,
) {
    let (done, range) = (expected(theirs.0), theirs.1);
    match ours {
        Err(refusal) => assert_eq!(refusal, done, "{note}"),
        Ok(part) => {
            assert_eq!(answer(0, 0), done, "{note}");
            assert_eq!(part, &track[range.clone()], "{note}");
            let start = part.as_ptr() as usize - track.as_ptr() as usize;
            assert!(part.is_empty() || start == range.start, "{start}, {note}");
        }
    }
}

#[test]
fn accept_as_the_reference() {
    let mut tally = Tally::new("accept", 24_000);
    for seed in tally.seeds() {
        let (track, marks) = any_track(seed);
        let theirs = reference::accept(&track, &marks);
        let ours = alike::accept(&track, &marks);
        assert_eq!(ours, expected(theirs), "seed {seed}");
        tally.count(ours);
    }
    tally.finish(20_000, &ACCEPT);
}

#[test]
fn find_as_the_reference() {
    let mut tally = Tally::new("find", 12_000);
    for seed in tally.seeds() {
        let whole = any_track(seed);
        let (track, marks) = lent(&whole);
        let mut rng = Rng::new(seed ^ 0xF14D);
        for _ in 0..2 {
            let s = some_number(&mut rng, (track, marks));
            let (wanted, part) = wish(&mut rng);
            let theirs = reference::find(track, marks, s, part);
            let ours = alike::find(track, marks, s, wanted);
            tally.count(expected(theirs.0));
            compare_part(
                track,
                ours,
                theirs,
                &format!("seed {seed}, {wanted:?} of {s}"),
            );
        }
    }
    tally.finish(20_000, &FIND);
}

/// Whether the second track of a seed must not be read.
fn second_is_unfit(seed: u64) -> bool {
    seed % 5 < 2
}

/// A first track of any kind, a generated pair, or a second track of any kind.
fn two_tracks(seed: u64) -> (Track, Track) {
    let pair = pair(seed);
    match seed % 5 {
        _ if second_is_unfit(seed) => (any_track(seed), unfit_track(seed)),
        2 | 3 => (pair.first, pair.second),
        _ => (pair.first, damaged(seed)),
    }
}

/// A track that must not be read: its length or its marks are out of rule.
fn unfit_track(seed: u64) -> Track {
    match seed % 4 {
        0 => (vec![], vec![]),
        1 => (vec![0xA5; 3_906], vec![2; 3_906]),
        2 => (vec![0xA5; 3_906], vec![0; 3_905]),
        _ => (vec![0xA5; 5_000], vec![0; 5_000]),
    }
}

#[test]
fn pair_find_as_the_reference() {
    let mut about_first = Tally::new("pair find, first track", 25_000);
    let mut about_second = Tally::new("pair find, second track", 25_000);
    for seed in about_first.seeds() {
        let (one, two) = two_tracks(seed);
        let (first, second) = (lent(&one), lent(&two));
        let mut rng = Rng::new(seed ^ 0x9A14);
        let s = match second_is_unfit(seed) {
            true => some_number(&mut rng, first),
            false => some_number(&mut rng, second),
        };
        let (wanted, part) = wish(&mut rng);
        let _ = [first, second].map(|(track, marks)| alike::accept(track, marks));
        let (done, named, range) = reference::pair_find(first, second, s, part);
        let (which, ours) = station::pair_find(first, second, s, wanted);
        let note = format!("seed {seed}, {wanted:?} of {s}");
        let (track, tally) = match named {
            0 => (first.0, &mut about_first),
            _ => (second.0, &mut about_second),
        };
        tally.count(expected(done));
        assert_eq!(which == Which::Second, named == 1, "{done:?}, {note}");
        compare_part(track, ours, (done, range), &note);
    }
    about_first.finish(11_000, &FIRST);
    about_second.finish(9_000, &SECOND);
}

/// Demands the same step from a place on, and gives the place to go on from.
fn compare_step((track, marks): Lent, from: usize, tally: &mut Tally, seed: u64) -> Option<usize> {
    let theirs = reference::walk_from(track, marks, from);
    let ours = alike::walk_from(track, marks, from);
    tally.count(theirs.map_or_else(expected, |_| Answer::DONE));
    match (ours, theirs) {
        (Ok(a), Ok(b)) => assert_eq!(
            (a.place, a.flag, a.s, a.kl, a.dl),
            (b.place, b.flag, b.s, b.kl, b.dl),
            "seed {seed}, from {from}"
        ),
        (Err(a), Err(b)) => assert_eq!(a, expected(b), "seed {seed}, from {from}"),
        (a, b) => panic!("seed {seed}, from {from}: {a:?} and {b:?}"),
    }
    theirs.ok().map(|candidate| candidate.place + 1)
}

/// Demands that the iterator gives each candidate once, from left to right, or one refusal.
fn compare_iterator((track, marks): Lent, seed: u64) {
    let ours: Vec<_> = alike::candidates(track, marks).take(MANY).collect();
    if reference::walk_from(track, marks, 0) == Err(reference::Answer::new(1, 0)) {
        assert_eq!(ours, [Err(answer(1, 0))], "seed {seed}");
        return;
    }
    let mut walk = reference::Walk::new(track, marks);
    let theirs: Vec<_> = std::iter::from_fn(|| walk.step().ok()).collect();
    let places = |step: &Result<station::Candidate, _>| step.map(|candidate| candidate.place);
    let ours: Vec<_> = ours.iter().map(places).collect();
    let theirs: Vec<_> = theirs.iter().map(|candidate| Ok(candidate.place)).collect();
    assert_eq!(ours, theirs, "seed {seed}");
}

#[test]
fn walk_as_the_reference() {
    let mut tally = Tally::new("walk", 6_000);
    for seed in tally.seeds() {
        let whole = any_track(seed);
        let mut from = Some(0);
        while let Some(place) = from {
            from = compare_step(lent(&whole), place, &mut tally, seed);
        }
        let anywhere = Rng::new(seed ^ 0x3A1C).below(whole.0.len() + 2);
        compare_step(lent(&whole), anywhere, &mut tally, seed);
        compare_iterator(lent(&whole), seed);
    }
    tally.finish(20_000, &WALK);
}

/// From every place of some tracks, and from places that no track has.
#[test]
fn walk_from_every_place() {
    let mut tally = Tally::fixed("walk from every place", 16);
    for seed in tally.seeds() {
        let whole = any_track(seed);
        if reference::accept(&whole.0, &whole.1).number == 1 {
            continue;
        }
        let beyond = [65_535, 65_536, 65_591, 1 << 32, usize::MAX];
        for from in (0..whole.0.len() + 3).chain(beyond) {
            compare_step(lent(&whole), from, &mut tally, seed);
        }
    }
    tally.finish(20_000, &[0, 12]);
}

const HERE: Address = Address {
    cylinder: 100,
    head: 7,
};

/// A sector without a key.
fn sector(flag: u8, s: u8, dl: usize, gap: usize) -> PlannedSector {
    PlannedSector {
        flag,
        s,
        key: vec![],
        data: vec![0xD1; dl],
        closed: false,
        gap,
    }
}

/// One or more sectors on a track of this length, with home at this place.
fn plan(length: usize, home: usize, sectors: Vec<PlannedSector>) -> Plan {
    Plan {
        length,
        home,
        flag: 0,
        address: HERE,
        named: HERE,
        sectors,
    }
}

/// Both implementations' answer for a plan, which must be one.
fn judged(plan: &Plan) -> Answer {
    let built = plan.build(&mut |length| vec![0x55; length]);
    let ours = alike::accept(&built.track, &built.marks);
    let theirs = reference::accept(&built.track, &built.marks);
    assert_eq!(ours, expected(theirs));
    ours
}

/// Lengths just out of rule, home just outside its window, cylinder and head just out of range.
#[test]
fn limits_of_track_and_home() {
    let small = || vec![sector(0, 0, 8, 0)];
    for (length, number) in [(3_814, 1), (3_815, 0), (4_002, 0), (4_003, 1)] {
        assert_eq!(judged(&plan(length, 30, small())), answer(number, 0));
    }
    for home in [22, 38] {
        assert_eq!(judged(&plan(3_906, home, small())), answer(2, 23));
    }
    for home in 23..=37 {
        assert_eq!(judged(&plan(3_906, home, small())), answer(0, 0));
    }
    for (cylinder, head, number, place) in [(202, 9, 0, 0), (203, 7, 4, 30), (100, 10, 4, 30)] {
        let mut plan = plan(3_906, 30, small());
        (plan.address.cylinder, plan.address.head) = (cylinder, head);
        plan.named = plan.address;
        assert_eq!(judged(&plan), answer(number, place));
    }
}

/// The least gap before the next opening is 21, and before index 13.
#[test]
fn limits_of_gaps() {
    for (gap, expected) in [(20, answer(9, 55)), (21, answer(0, 0))] {
        let sectors = vec![sector(0, 0, 8, gap), sector(0x80, 1, 80, 0)];
        assert_eq!(judged(&plan(3_906, 30, sectors)), expected);
    }
    for (left, expected) in [(12, answer(9, 55)), (13, answer(0, 0))] {
        let sectors = vec![sector(0, 0, 3_906 - 93 - left, 0)];
        assert_eq!(judged(&plan(3_906, 30, sectors)), expected);
    }
}

/// A small track: a key of three and data of eight bytes, a key alone, and neither.
fn small_track() -> (Plan, Built) {
    let with_key = |key: &[u8], sector| PlannedSector {
        key: key.to_vec(),
        ..sector
    };
    let sectors = vec![
        with_key(&[0xC1, 0xC2, 0xC3], sector(0, 5, 8, 21)),
        with_key(&[0x41, 0x42], sector(0x80, 6, 0, 30)),
        sector(0, 7, 0, 0),
    ];
    let plan = plan(3_815, 23, sectors);
    let built = plan.build(&mut |length| vec![0x55; length]);
    (plan, built)
}

/// The blocks of a built track, each with the S of its sector.
fn blocks_of(plan: &Plan, built: &Built) -> Vec<(u8, Block)> {
    let of_sector = |(sector, places): (&PlannedSector, _)| {
        let blocks = [Block::key(places), Some(Block::data(places))];
        blocks.map(|block| Some((sector.s, block?)))
    };
    let sectors = plan.sectors.iter().zip(&built.places);
    sectors.flat_map(of_sector).flatten().collect()
}

/// Both slices of a built track.
fn lent_of(built: &Built) -> Lent<'_> {
    (&built.track, &built.marks)
}

/// Demands that Accept of both gives this answer.
fn accepted_as((track, marks): Lent, wanted: Answer, note: &str) {
    assert_eq!(alike::accept(track, marks), wanted, "{note}");
    let theirs = reference::accept(track, marks);
    assert_eq!(expected(theirs), wanted, "reference, {note}");
}

/// Demands that Find of both gives this answer for the part that a block holds.
fn found_as((track, marks): Lent, s: u8, block: &Block, wanted: Answer, note: &str) {
    let (wish, part) = match block.number {
        10 => (Wanted::Key, Part::Key),
        _ => (Wanted::Data, Part::Data),
    };
    let theirs = reference::find(track, marks, s, part);
    assert_eq!(expected(theirs.0), wanted, "reference, {note}");
    let ours = alike::find(track, marks, s, wish);
    compare_part(track, ours, theirs, note);
}

/// What can be wrong with a block, in the order of its parts.
const FAULTS: [Fault; 3] = [Fault::Opening, Fault::Check, Fault::Closing];
/// The bits that are reversed in a byte.
const BITS: [u8; 6] = [0x01, 0x08, 0x10, 0x80, 0x55, 0xFF];

/// Each byte of each block changed alone is told as the part that it stands in; an empty block has no closing byte.
#[test]
fn every_byte_of_every_block() {
    let (plan, mut built) = small_track();
    let mut changes = 0;
    for (s, block) in blocks_of(&plan, &built) {
        for (fault, part) in FAULTS.into_iter().zip(block.parts()) {
            let wanted = Answer {
                number: block.number,
                fault: Some(fault),
                place: block.opening,
            };
            for (place, bits) in part.flat_map(|place| BITS.map(|bits| (place, bits))) {
                built.track[place] ^= bits;
                let (lent, note) = (lent_of(&built), format!("{bits:02x} at {place}"));
                accepted_as(lent, wanted, &note);
                found_as(lent, s, &block, wanted, &note);
                built.track[place] ^= bits;
                changes += 1;
            }
        }
    }
    // Keys of 12 and 11 bytes with all that belongs to them, data blocks of 17, 7 and 7.
    assert_eq!(changes, BITS.len() * (12 + 11 + 17 + 7 + 7));
    accepted_as(lent_of(&built), Answer::DONE, "as built");
}

/// Every set of wrong parts of a sector's blocks: Accept tells the first of all, and Find the first of the block that it is asked for.
#[test]
fn every_set_of_faults() {
    let (plan, built) = small_track();
    for (sector, places) in plan.sectors.iter().zip(&built.places) {
        for (sets, round) in (0..64).flat_map(|sets| (0..8).map(move |round| (sets, round))) {
            let mut damaged = built.clone();
            let mut rng = Rng::new(sets << 8 | round);
            let blocks = [Block::key(places), Some(Block::data(places))];
            let spoil = |(block, set): (Option<Block>, u64)| {
                let changed = [1, 2, 4].map(|part| set & part != 0);
                let spoiled = block.map(|block| Spoiled { block, changed })?;
                spoiled.put(&mut rng, &mut damaged.track);
                Some((spoiled.block, expected(spoiled.answer())))
            };
            let each = blocks.into_iter().zip([sets & 7, sets >> 3]);
            let told: Vec<(Block, Answer)> = each.filter_map(spoil).collect();
            let note = format!("S {}, sets {sets:06b}, round {round}", sector.s);
            let mut answers = told.iter().map(|(_, answer)| *answer);
            let first = answers.find(|answer| !answer.is_done());
            accepted_as(lent_of(&damaged), first.unwrap_or(Answer::DONE), &note);
            for (block, wanted) in &told {
                found_as(lent_of(&damaged), sector.s, block, *wanted, &note);
            }
        }
    }
}

/// Check and end byte with which an empty data block may go on.
const EMPTY_TRAILER: [u8; 3] = [0xFF, 0xFF, 0xCC];

/// Three sectors, of which this one has no data, a key of this length, and so many bytes from its zero byte to the end of its span.
fn with_empty_block(index: usize, kl: usize, gap: usize) -> Plan {
    let mut sectors = vec![
        sector(0, 0, 8, 40),
        sector(0x80, 1, 80, 40),
        sector(0, 2, 8, 0),
    ];
    let empty = &mut sectors[index];
    (empty.key, empty.gap) = (vec![0xC1; kl], gap);
    empty.data.clear();
    let mut plan = plan(3_906, 30, sectors);
    if index == 2 {
        let built = plan.build(&mut |length| vec![0x55; length]);
        plan.sectors[1].gap += plan.length - built.places[2].end - gap;
    }
    plan
}

/// The plan's track with check and end byte behind the zero byte of one sector, and 55 in the gaps.
fn closed(plan: &Plan, index: usize) -> Built {
    let mut built = plan.build(&mut |length| vec![0x55; length]);
    let place = built.places[index].data + 1;
    built.track[place..place + 3].copy_from_slice(&EMPTY_TRAILER);
    built
}

/// The sectors that can have the least gap, each with and without a key, with the least gap.
const NEAR_THE_END: [(usize, usize, usize); 6] = [
    (0, 0, 21),
    (0, 5, 21),
    (1, 0, 21),
    (1, 255, 21),
    (2, 0, 13),
    (2, 7, 13),
];

/// Demands these answers of both: of Accept, and of Find for key and data.
fn answered_as(lent: Lent, index: usize, wanted: [Answer; 3], note: &str) {
    let [whole, key, data] = wanted;
    accepted_as(lent, whole, note);
    for (number, part) in [(10, key), (11, data)] {
        let block = Block {
            number,
            opening: 0,
            length: 0,
        };
        found_as(lent, index as u8, &block, part, note);
    }
}

/// Behind seven bytes 21 are enough, or 13 at index; where these start with check and end byte, 24 are, or 16.
#[test]
fn least_gap_behind_an_empty_block_of_ten_bytes() {
    for (index, kl, least) in NEAR_THE_END {
        for gap in least - 1..least + 6 {
            let plan = with_empty_block(index, kl, gap);
            let note = format!("sector {index}, KL {kl}, {gap} bytes");
            let refused = |built: &Built| [answer(9, built.places[index].count); 3];
            let seven = plan.build(&mut |length| vec![0x55; length]);
            let ten = closed(&plan, index);
            let (of_seven, of_ten) = match gap + 1 - least {
                0 => (refused(&seven), refused(&ten)),
                1..=3 => ([Answer::DONE; 3], refused(&ten)),
                _ => ([Answer::DONE; 3], [Answer::DONE; 3]),
            };
            answered_as(lent_of(&seven), index, of_seven, &note);
            answered_as(lent_of(&ten), index, of_ten, &note);
        }
    }
}

/// What is answered of an empty block of ten bytes that is wrong, with so many bytes more than the least gap of seven: without room 9, with room 11 but for the key.
fn refused_as(places: &Places, fault: Fault, more: usize) -> [Answer; 3] {
    let wrong = Answer {
        number: 11,
        fault: Some(fault),
        place: places.data - 6,
    };
    match more {
        3 => [wrong, Answer::DONE, wrong],
        _ => [answer(9, places.count); 3],
    }
}

/// A block whose zero byte is wrong has ten bytes all the same: without room 9, with room the zero byte is refused.
#[test]
fn wrong_zero_byte_of_an_empty_block_of_ten_bytes() {
    for (index, kl, least) in NEAR_THE_END {
        for (more, byte) in (0..4).flat_map(|more| (1..=255).map(move |byte| (more, byte))) {
            let mut built = closed(&with_empty_block(index, kl, least + more), index);
            let places = built.places[index];
            built.track[places.data] = byte;
            let wanted = refused_as(&places, Fault::Check, more);
            let note = format!("sector {index}, KL {kl}, {byte:02x}, {more} more");
            answered_as(lent_of(&built), index, wanted, &note);
        }
    }
}

/// Likewise where the opening is wrong, whatever the zero byte.
#[test]
fn wrong_opening_of_an_empty_block_of_ten_bytes() {
    for (index, kl, least) in NEAR_THE_END {
        for (more, offset) in (0..4).flat_map(|more| (0..6).map(move |offset| (more, offset))) {
            let mut built = closed(&with_empty_block(index, kl, least + more), index);
            let places = built.places[index];
            built.track[places.data - 6 + offset] ^= 0x40;
            built.track[places.data] = 0xAA * (offset as u8 % 2);
            let wanted = refused_as(&places, Fault::Opening, more);
            let note = format!("sector {index}, KL {kl}, byte {offset}, {more} more");
            answered_as(lent_of(&built), index, wanted, &note);
        }
    }
}

/// With any bit of check and end byte reversed the block has seven bytes and the least gap is enough.
#[test]
fn every_bit_behind_the_zero_byte() {
    for (index, kl, least) in NEAR_THE_END {
        for bit in 0..24 {
            let mut built = closed(&with_empty_block(index, kl, least), index);
            let place = built.places[index].data + 1 + bit / 8;
            built.track[place] ^= 1 << (bit % 8);
            let note = format!("sector {index}, KL {kl}, bit {bit}");
            answered_as(lent_of(&built), index, [Answer::DONE; 3], &note);
        }
    }
}

/// A block of ten bytes has ten where the same three bytes follow once more.
#[test]
fn ten_bytes_and_the_same_three_once_more() {
    for (index, kl, least) in NEAR_THE_END {
        let mut built = closed(&with_empty_block(index, kl, least + 3), index);
        let place = built.places[index].data + 4;
        built.track[place..place + 3].copy_from_slice(&EMPTY_TRAILER);
        let note = format!("sector {index}, KL {kl}");
        answered_as(lent_of(&built), index, [Answer::DONE; 3], &note);
    }
}

/// A block with one byte of data ends with its own end byte, whatever follows.
#[test]
fn one_byte_of_data_and_check_and_end_byte_behind_it() {
    for (index, byte) in [(0, 0x00), (0, 0x07), (1, 0x00), (1, 0xFF)] {
        let mut plan = with_empty_block(index, 3 * index, 21);
        plan.sectors[index].data = vec![byte];
        let mut built = plan.build(&mut |length| vec![0x55; length]);
        let end = built.places[index].end;
        built.track[end..end + 3].copy_from_slice(&EMPTY_TRAILER);
        let note = format!("sector {index}, {byte:02x}");
        answered_as(lent_of(&built), index, [Answer::DONE; 3], &note);
    }
}

/// A mark that ends the span so many bytes behind the zero byte: check and end byte are no part of the block before they lie in the span.
#[test]
fn check_and_end_byte_past_the_span() {
    for (index, kl, least) in NEAR_THE_END {
        for inside in 0..30 {
            let mut built = closed(&with_empty_block(index, kl, least + 30), index);
            let places = built.places[index];
            let mark = places.data + 1 + inside + 5;
            built.marks[mark] = 1;
            let found = match inside {
                0..24 => answer(9, places.count),
                _ => Answer::DONE,
            };
            let note = format!("sector {index}, KL {kl}, {inside} inside");
            answered_as(
                lent_of(&built),
                index,
                [answer(5, mark), found, found],
                &note,
            );
        }
    }
}

/// The track ends so many bytes behind the zero byte.
#[test]
fn check_and_end_byte_past_index() {
    for (kl, inside) in (0..20).flat_map(|inside| [(0, inside), (4, inside)]) {
        let plan = with_empty_block(2, kl, inside);
        let mut built = plan.build(&mut |length| vec![0x55; length]);
        let places = built.places[2];
        let behind = built.track[places.data + 1..].iter_mut();
        behind
            .zip(EMPTY_TRAILER)
            .for_each(|(byte, value)| *byte = value);
        let wanted = match inside {
            0..16 => answer(9, places.count),
            _ => Answer::DONE,
        };
        let note = format!("KL {kl}, {inside} inside");
        answered_as(lent_of(&built), 2, [wanted; 3], &note);
    }
}
