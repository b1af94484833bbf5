//! Bits altered in the information and check bytes of home, counts, keys and data blocks: each change that is tried within sixteen successive bits is refused by the check, and two bits sixteen apart pass it.
//!
//! Every altered track is judged by the proved library and by the reference; where every burst of up to sixteen bits is tried, by the library alone.

mod common;

use common::bursts::*;
use common::{alike, answer, lent, noise, Tally, Track};
use reference::check::check;
use reference::generate::{sound, Rng};
use station::{Address, Answer, Lent, NewSector, NewTrack};
use std::collections::{BTreeMap, BTreeSet};
use std::io::Write;

/// How many changes were made in each kind of field.
type Tried = BTreeMap<Kind, usize>;

/// Says how many there were, even if the test passes.
fn tell(name: &str, tried: &Tried) {
    let all: usize = tried.values().sum();
    writeln!(std::io::stderr(), "{name}: {all}, {tried:?}").expect("standard error takes a line");
}

/// Says it, and demands so many of each kind: for each pattern and field as many as the field has bits, less the pattern's width, and one.
fn finish<const N: usize>(name: &str, tried: Tried, wanted: [(Kind, usize); N]) {
    tell(name, &tried);
    assert_eq!(tried, Tried::from(wanted), "{name}");
}

/// Cylinder 100, head 7 with this flag: sectors 0 and 1 with key and data of these lengths and of random contents.
fn written(seed: u64, flag: u8, [first, second]: [(usize, usize); 2]) -> Track {
    let mut rng = Rng::new(seed);
    let (mut old, mut new) = (noise(seed, 3_906, 3_906), noise(seed, 3_906, 3_906));
    let wanted = NewTrack {
        address: Address {
            cylinder: 100,
            head: 7,
        },
        flag,
        key: &rng.bytes(first.0),
        data: &rng.bytes(first.1),
        ..NewTrack::default()
    };
    let done = station::blank(&mut old.0, &mut old.1, &wanted);
    assert_eq!(done, Answer::DONE);
    let wanted = NewSector {
        sector: 1,
        key: &rng.bytes(second.0),
        data: &rng.bytes(second.1),
        ..NewSector::default()
    };
    let done = alike::add(lent(&old), &mut new.0, &mut new.1, &wanted);
    assert_eq!(done, Answer::DONE);
    new
}

/// Sector 0 with 8 bytes of data, sector 1 with a key of 3 and 80 bytes.
fn worked() -> Track {
    written(1, 0, [(0, 8), (3, 80)])
}

/// Keys and data blocks of one to four bytes.
fn short_blocks() -> [Track; 2] {
    [[(1, 1), (2, 2)], [(3, 4), (4, 3)]].map(|lengths| written(2, 0, lengths))
}

/// Sector 1 with a long data block.
fn long_block() -> Track {
    written(3, 0, [(1, 2), (2, 3_000)])
}

/// Demands that Accept refuses the altered field for its check.
fn accept_refuses(altered: Lent, change: Change) {
    let wanted = change.field.refusal();
    assert_eq!(accepted(altered, change), wanted, "{change:?}");
}

/// Demands that Find refuses what was altered, and gives the other part of the sector as it was.
fn find_refuses(altered: Lent, change: Change, [key, data]: [&[u8]; 2]) {
    let field = change.field;
    let refused = Err(field.refusal());
    let wanted = match field.kind {
        Kind::Home => [Ok(key), Ok(data)],
        Kind::Count => [Err(answer(12, 0)); 2],
        Kind::Key => [refused, Ok(data)],
        Kind::Data => [Ok(key), refused],
    };
    assert_eq!(both_found(altered, field.s, change), wanted, "{change:?}");
}

/// Demands both of each change in one field, of Find only at every 19th in a field of 80 bytes or more; gives how many changes there were.
fn caught(track: &Track, field: Field, changes: impl Iterator<Item = Change>) -> usize {
    let (parts, mut number) = (parts_of(track, field.s), 0);
    each_alone(track, changes, |altered, change| {
        accept_refuses(altered, change);
        if field.length < 80 || number % 19 == 0 {
            find_refuses(altered, change, parts);
        }
        number += 1;
    })
}

/// How many of these patterns have each width from 1 to 17; none stands twice, and each ends with a 1.
fn of_each_width(patterns: &[u32]) -> Vec<usize> {
    assert!(patterns.iter().all(|pattern| pattern % 2 == 1));
    let distinct: BTreeSet<u32> = patterns.iter().copied().collect();
    assert_eq!(distinct.len(), patterns.len());
    let of_width = |wide| distinct.iter().filter(|&&one| width(one) == wide).count();
    (1..=17).map(of_width).collect()
}

/// All patterns up to a width, and some of each greater one up to sixteen.
#[test]
fn patterns_are_distinct() {
    let many = [1, 1, 2, 4, 8, 16, 32, 64, 22, 22, 22, 22, 22, 22, 22, 22, 0];
    assert_eq!(of_each_width(&patterns(8, 20)), many);
    assert_eq!(patterns(8, 20).len(), 304);
    let few = [1, 1, 2, 2, 2, 2, 2, 2, 2, 2, 2, 2, 2, 2, 2, 2, 0];
    assert_eq!(of_each_width(&patterns(2, 0)), few);
}

/// Home, both counts, the key and both data blocks.
#[test]
fn bursts_on_the_worked_track() {
    let (track, patterns, mut tried) = (worked(), patterns(8, 20), Tried::new());
    let fields = fields_of(&track);
    let openings: Vec<usize> = fields.iter().map(|field| field.opening).collect();
    assert_eq!(openings, [30, 55, 84, 122, 153, 176]);
    for field in fields {
        let changes = changes(field, &patterns);
        *tried.entry(field.kind).or_default() += caught(&track, field, changes);
    }
    let wanted = [
        (Kind::Home, 14_231),
        (Kind::Count, 2 * 23_959),
        (Kind::Key, 9_367),
        (Kind::Data, 21_527 + 196_631),
    ];
    finish("bursts on the worked track", tried, wanted);
}

/// Demands Accept's refusal after every burst of up to sixteen bits, at each start, in the first field of this kind on the worked track, and `wanted` of them.
fn every_burst_on(kind: Kind, length: usize, wanted: usize) {
    let (track, patterns) = (worked(), patterns(16, 0));
    assert_eq!(patterns.len(), 1 << 15);
    let mut fields = fields_of(&track).into_iter();
    let field = fields
        .find(|field| field.kind == kind)
        .expect("such a field");
    assert_eq!(field.length, length);
    let refusal = field.refusal();
    let tried = each_alone(&track, changes(field, &patterns), |altered, change| {
        let judged = alike::accept(altered.0, altered.1);
        assert_eq!(judged, refusal, "{change:?}");
    });
    let tried = Tried::from([(kind, tried)]);
    finish("every burst of up to sixteen bits", tried, [(kind, wanted)]);
}

#[test]
fn every_burst_on_home() {
    every_burst_on(Kind::Home, 5, 1_376_255);
}

#[test]
fn every_burst_on_a_count() {
    every_burst_on(Kind::Count, 9, 2_424_831);
}

#[test]
fn every_burst_on_a_key() {
    every_burst_on(Kind::Key, 3, 851_967);
}

#[test]
fn every_burst_on_a_data_block() {
    every_burst_on(Kind::Data, 8, 2_162_687);
}

/// Keys and data blocks of odd and even lengths from one byte on.
#[test]
fn bursts_on_short_blocks() {
    let (patterns, mut tried) = (patterns(8, 20), Tried::new());
    for track in short_blocks() {
        let mut fields = fields_of(&track);
        fields.retain(|field| field.kind >= Kind::Key);
        for field in fields {
            let changes = changes(field, &patterns);
            *tried.entry(field.kind).or_default() += caught(&track, field, changes);
        }
    }
    let wanted = [(Kind::Key, 32_604), (Kind::Data, 32_604)];
    finish("bursts on short blocks", tried, wanted);
}

/// One bit, two bits, and eight or sixteen altered in succession, at each start of a long block.
#[test]
fn bursts_on_a_long_block() {
    let track = long_block();
    let field = *fields_of(&track).last().expect("the long block");
    let mut few = patterns(2, 0);
    few.retain(|one| one.count_ones() < 3 || [8, 16].contains(&width(*one)));
    let tried = caught(&track, field, changes(field, &few));
    let tried = Tried::from([(field.kind, tried)]);
    finish("bursts on a long block", tried, [(Kind::Data, 432_146)]);
}

/// A random pattern of up to sixteen bits at a random start in a field.
fn any_change(rng: &mut Rng, field: Field) -> Change {
    let pattern = (rng.bits() as u32 & 0xFFFF) >> rng.below(16) | 1;
    Change {
        field,
        start: rng.between(0, field.bits() - width(pattern)),
        pattern,
    }
}

/// Four changes in one field of each kind, on generated tracks.
#[test]
fn bursts_on_generated_tracks() {
    let (seeds, mut tried) = (
        Tally::new("bursts on generated tracks", 1_000).seeds(),
        Tried::new(),
    );
    for seed in seeds {
        let (track, mut rng) = (sound(seed), Rng::new(seed ^ 0xB175_0000));
        let mut fields = fields_of(&track);
        while !fields.is_empty() {
            let field = rng.pick(&fields);
            let changes = (0..4).map(|_| any_change(&mut rng, field));
            *tried.entry(field.kind).or_default() += caught(&track, field, changes);
            fields.retain(|other| other.kind != field.kind);
        }
    }
    tell("bursts on generated tracks", &tried);
    for kind in [Kind::Home, Kind::Count, Kind::Key, Kind::Data] {
        assert!(tried.get(&kind) > Some(&3_000), "too few: {tried:?}");
    }
}

/// One bit and the one sixteen behind it.
const SIXTEEN_APART: u32 = 1 << 16 | 1;

/// Demands that home passes its check: it is refused for its flag, C or H, or sector 0's count for naming another track, and Find gives both parts as they were.
fn home_passes(altered: Lent, change: Change, parts: [&[u8]; 2]) {
    let Field { s, opening, .. } = change.field;
    let judged = accepted(altered, change);
    let allowed = [answer(4, opening), answer(8, opening + HOME_TO_COUNT)];
    assert!(allowed.contains(&judged), "{judged}, {change:?}");
    assert_eq!(both_found(altered, s, change), parts.map(Ok), "{change:?}");
}

/// Demands that a count passes its check: Walk reads it, Find knows it by the number that it now carries, and Accept refuses it for something else.
fn count_passes(altered: Lent, change: Change) {
    let Field { s, opening, .. } = change.field;
    let ours = alike::walk_from(altered.0, altered.1, opening).expect("a count");
    let theirs = reference::walk_from(altered.0, altered.1, opening).expect("a count");
    assert_eq!(ours.place, opening, "{change:?}");
    assert_eq!(
        (ours.place, ours.flag, ours.s, ours.kl, ours.dl),
        (theirs.place, theirs.flag, theirs.s, theirs.kl, theirs.dl),
        "{change:?}"
    );
    let judged = accepted(altered, change);
    let allowed = [8, 9, 10, 11];
    assert!(allowed.contains(&judged.number), "{judged}, {change:?}");
    let missing = Err(answer(12, 0));
    let now = both_found(altered, ours.s, change);
    assert!(!now.contains(&missing), "{change:?}");
    if ours.s != s {
        let before = both_found(altered, s, change);
        assert_eq!(before, [missing; 2], "{change:?}");
    }
}

/// Demands that a block passes its check: the track is accepted, and Find gives the altered information and the other part as it was.
fn block_passes(altered: Lent, change: Change, [key, data]: [&[u8]; 2]) {
    let field = change.field;
    let before = match field.kind {
        Kind::Key => key,
        _ => data,
    };
    let mut now = before.to_vec();
    for bit in change.bits().filter(|bit| bit / 8 < field.length) {
        now[bit / 8] ^= 0x80 >> (bit % 8);
    }
    assert_ne!(now, before, "{change:?}");
    let wanted = match field.kind {
        Kind::Key => [Ok(&now[..]), Ok(data)],
        _ => [Ok(key), Ok(&now[..])],
    };
    assert_eq!(accepted(altered, change), Answer::DONE, "{change:?}");
    assert_eq!(both_found(altered, field.s, change), wanted, "{change:?}");
}

/// At each bit of each field that has one sixteen behind it.
#[test]
fn two_bits_sixteen_apart() {
    let mut tried = Tried::new();
    let [one, other] = short_blocks();
    for track in [worked(), one, other, long_block()] {
        for field in fields_of(&track) {
            let parts = parts_of(&track, field.s);
            let judge = |altered: Lent, change| match field.kind {
                Kind::Home => home_passes(altered, change, parts),
                Kind::Count => count_passes(altered, change),
                Kind::Key | Kind::Data => block_passes(altered, change, parts),
            };
            let pairs = changes(field, &[SIXTEEN_APART]);
            *tried.entry(field.kind).or_default() += each_alone(&track, pairs, judge);
        }
    }
    // As many as the information has bits.
    let wanted = [
        (Kind::Home, 4 * 40),
        (Kind::Count, 8 * 72),
        (Kind::Key, 8 * 16),
        (Kind::Data, 8 * 3_100),
    ];
    finish("two bits sixteen apart", tried, wanted);
}

/// Alters the low bits of cylinder and head in home, and gives Accept's answer.
fn with_altered_address(track: &mut Track) -> Answer {
    let change = Change {
        field: fields_of(track)[0],
        start: 23,
        pattern: SIXTEEN_APART,
    };
    change.apply(&mut track.0);
    accepted(lent(track), change)
}

/// Cylinder 100, head 7 and cylinder 101, head 6 have one check: home passes it, and sector 0's count is refused for naming another track.
#[test]
fn home_with_another_address() {
    let mut track = worked();
    assert_eq!(track.0[36..44], [0, 0, 0x64, 0, 0x07, 0xFF, 0x9C, 0xCC]);
    let judged = with_altered_address(&mut track);
    assert_eq!(track.0[36..44], [0, 0, 0x65, 0, 0x06, 0xFF, 0x9C, 0xCC]);
    assert_eq!(check(&track.0[36..41]), [0xFF, 0x9C]);
    assert_eq!(judged, answer(8, 55));
}

/// The counts of an alternative track name its partner, not the track itself: with the same two bits altered it is accepted.
#[test]
fn home_of_an_alternative_with_another_address() {
    let mut track = written(4, 1, [(0, 8), (3, 80)]);
    assert_eq!(track.0[36..44], [1, 0, 0x64, 0, 0x07, 0xFF, 0x9D, 0xCC]);
    let judged = with_altered_address(&mut track);
    assert_eq!(track.0[36..44], [1, 0, 0x65, 0, 0x06, 0xFF, 0x9D, 0xCC]);
    assert_eq!(judged, Answer::DONE);
}
