//! End and gap of List's records: at their edges, and in the sum of a track's pieces.

use crate::alike::*;
use crate::common::*;
use crate::write::{add_to, correct_in, L};
use reference::generate::*;
use std::collections::BTreeMap;

/// Check and end byte of an empty block.
const TRAILER: [u8; 3] = [0xFF, 0xFF, 0xCC];

/// The records of an accepted track.
fn listed(track: &[u8], marks: &[u8]) -> Vec<Sector> {
    let mut records = [Sector::default(); 67];
    let (done, number) = list(track, marks, &mut records);
    assert_eq!(done, answer(0, 0));
    records[..number].to_vec()
}

/// End and gap of each sector of a built track.
fn ends_and_gaps(built: &Built) -> Vec<(usize, usize)> {
    let records = listed(&built.track, &built.marks);
    let both = records.iter().map(|record| (record.end, record.gap));
    both.collect()
}

/// The gap that is written behind a block.
fn rule(kl: usize, dl: usize) -> usize {
    21 + (kl + dl) / 20
}

/// The three-sector plan with the last sector moved right until so many bytes follow its block.
fn last_gap_of(mut plan: Plan, gap: usize) -> Plan {
    let end = build(&plan).places[2].end;
    plan.sectors[1].gap += plan.length - gap - end;
    plan
}

/// The worked case of two sectors, and a third one behind them.
#[test]
fn number_5() {
    let (mut track, mut marks) = (vec![0; L], vec![0; L]);
    let done = blank(&mut track, &mut marks, HERE, 0, HERE, 0, &[], &[0xD1; 8]);
    assert_eq!(done, answer(0, 0));
    let blank = Built {
        track,
        marks,
        places: vec![],
    };
    assert_eq!(ends_and_gaps(&blank), [(101, L - 101)]);
    let (_, two) = add_to(&blank, 0, 1, &[1, 2, 3], &[0xD2; 80]);
    assert_eq!(ends_and_gaps(&two), [(101, 21), (265, L - 265)]);
    let (_, three) = add_to(&two, 0, 2, &[], &[7]);
    let third = 290 + 20 + 11 + 10;
    assert_eq!(
        ends_and_gaps(&three),
        [(101, 21), (265, 25), (third, L - third)]
    );
}

/// The row has the record's fields in their order.
#[test]
fn rows_of_records() {
    let built = build(&plan());
    let records = listed(&built.track, &built.marks);
    let rows: Vec<[u16; 8]> = records.iter().map(Sector::row).collect();
    let wanted = [
        [0x00, 5, 0, 8, 0, 90, 101, 40],
        [0x80, 6, 3, 80, 178, 201, 284, 40],
        [0x00, 7, 0, 0, 0, 361, 362, 3_544],
    ];
    assert_eq!(rows, wanted);
}

/// An empty block of seven bytes and of ten, first, within and last, with and without a key, with each gap from the least on.
#[test]
fn empty_blocks() {
    for (index, kl) in (0..3).flat_map(|index| [0, 1, 255].map(|kl| (index, kl))) {
        let least = if index == 2 { 13 } else { 21 };
        for (closed, gap) in (least..least + 5).flat_map(|gap| [(false, gap), (true, gap)]) {
            let mut plan = plan();
            let old = &plan.sectors[index];
            plan.sectors[index] = PlannedSector {
                closed,
                gap,
                ..sector(old.flag, old.s, kl, 0)
            };
            let plan = if index == 2 {
                last_gap_of(plan, gap)
            } else {
                plan
            };
            let built = build(&plan);
            let opening = built.places[index].data - 6;
            let length = if closed { 10 } else { 7 };
            let both = ends_and_gaps(&built)[index];
            assert_eq!(both, (opening + length, gap), "{index} {kl} {closed}");
            let key = if kl == 0 { 0 } else { 11 + 9 + kl };
            let count = if index == 0 { 18 } else { 20 };
            assert_eq!(built.places[index].count + count + key + 11, opening);
        }
    }
}

/// The three bytes behind the zero byte are the block's wherever they come from, once, and otherwise the gap's.
#[test]
fn empty_blocks_by_the_gap() {
    let bytes: [(&[u8], usize); 6] = [
        (&TRAILER, 10),
        (&[0xFF, 0xFF, 0xCC, 0xFF, 0xFF, 0xCC], 10),
        (&[0xFF, 0xFF, 0xCD], 7),
        (&[0xFF, 0xFE, 0xCC], 7),
        (&[0x00, 0xFF, 0xFF, 0xCC], 7),
        (&[0xFF, 0xFF, 0xFF, 0xCC], 7),
    ];
    for (bytes, length) in bytes {
        for index in 0..3 {
            let mut plan = plan();
            plan.sectors[index].data.clear();
            let mut built = build(&plan);
            let zero = built.places[index].data;
            built.track[zero + 1..][..bytes.len()].copy_from_slice(bytes);
            let end = zero - 6 + length;
            let after = built.span_end(index);
            assert_eq!(ends_and_gaps(&built)[index], (end, after - end));
        }
    }
}

/// A block with data ends with its own end byte, whatever follows.
#[test]
fn blocks_with_data() {
    for (index, dl) in (0..3).flat_map(|index| [1, 2, 300].map(|dl| (index, dl))) {
        for kl in [0, 1, 16, 255] {
            let mut plan = plan();
            let old = &plan.sectors[index];
            plan.sectors[index] = sector(old.flag, old.s, kl, dl);
            let mut built = build(&plan);
            let end = built.places[index].data + dl + 3;
            built.track[end..end + 3].copy_from_slice(&TRAILER);
            let gap = built.span_end(index) - end;
            assert_eq!(ends_and_gaps(&built)[index], (end, gap));
            assert!(index == 2 || gap == 40);
        }
    }
}

/// Least gaps, the rule's gap, and more than that, each with the next opening or index behind it.
#[test]
fn gaps_at_their_edges() {
    for (gap, last) in [(21, 13), (22, 14), (25, 21), (26, 3_000), (500, 13)] {
        let mut plan = plan();
        plan.sectors[0].gap = gap;
        plan.sectors[1].gap = gap;
        let built = build(&last_gap_of(plan, last));
        let both = ends_and_gaps(&built);
        let next = built.places[1].count;
        assert_eq!((both[0].1, both[0].0 + both[0].1), (gap, next));
        assert_eq!(both[1].0 + both[1].1, built.places[2].count);
        assert!(both[1].1 >= gap);
        assert_eq!(both[2], (3_906 - last, last));
    }
}

/// Shortest and longest track, home at both ends of its window: everything moves with home, and the last gap takes up the rest.
#[test]
fn homes_and_lengths() {
    let lengths = [3_815, 3_906, 4_002];
    for (home, length) in lengths.iter().flat_map(|&l| [23, 30, 37].map(|h| (h, l))) {
        let plan = Plan {
            home,
            length,
            ..plan()
        };
        let wanted = [
            (home + 71, 40),
            (home + 254, 40),
            (home + 332, length - home - 332),
        ];
        assert_eq!(ends_and_gaps(&build(&plan)), wanted);
        let most = length - home - 25 - 18 - 11 - 9 - 13;
        let full = Plan {
            sectors: vec![sector(0, 0, 0, most)],
            ..plan
        };
        assert_eq!(ends_and_gaps(&build(&full)), [(length - 13, 13)]);
    }
}

/// The largest number of sectors: each takes 59 bytes, three more where its block has ten.
#[test]
fn sixty_seven_sectors() {
    let shortest = |s: u8| PlannedSector {
        gap: 21,
        ..sector(s % 2 * 0x80, s, 0, 0)
    };
    for tens in 0..4 {
        let mut plan = Plan {
            length: 4_002,
            home: 23,
            sectors: (0..67).map(shortest).collect(),
            ..plan()
        };
        for nth in 0..tens {
            plan.sectors[nth * 33].closed = true;
        }
        let both = ends_and_gaps(&build(&plan));
        assert_eq!(both.len(), 67);
        let mut end = 23 + 25 + 18 + 11 + 7;
        for (index, &(at, gap)) in both.iter().enumerate() {
            end += if plan.sectors[index].closed { 3 } else { 0 };
            assert_eq!(at, end, "{tens} {index}");
            let last = 4_002 - end;
            assert_eq!(gap, if index == 66 { last } else { 21 });
            end += 59;
        }
        assert_eq!(both[66].1, 24 - 3 * tens);
    }
}

/// How many bytes of a sector's span the layout gives, by what was planned and by the bytes behind an empty block's zero byte.
fn planned_length(sound: &Sound, index: usize) -> usize {
    let (sector, places) = (&sound.plan.sectors[index], sound.built.places[index]);
    let behind = &sound.built.track[places.data + 1..];
    let key = match sector.key.len() {
        0 => 0,
        kl => kl + 9 + 11,
    };
    let block = match sector.data.len() {
        0 if sector.closed || behind.starts_with(&TRAILER) => 10,
        0 => 7,
        dl => dl + 9,
    };
    (if index == 0 { 18 } else { 20 }) + 11 + key + block
}

/// Home's start, the fixed pieces, the blocks and the gaps add up to L, and each end with its gap reaches the next opening.
#[test]
fn the_sum() {
    let mut met = BTreeMap::<_, usize>::new();
    for seed in 0..6_000 {
        let sound = sound_plan(seed);
        let built = &sound.built;
        let both = ends_and_gaps(built);
        let mut place = sound.plan.home + 14 + 11;
        for (index, &(end, gap)) in both.iter().enumerate() {
            assert_eq!(place, built.places[index].count, "seed {seed}");
            place += planned_length(&sound, index);
            assert_eq!(place, end, "seed {seed}");
            let last = index + 1 == both.len();
            let (planned, ten) = (&sound.plan.sectors[index], built.places[index].is_ten());
            let by_gap = if ten && !planned.closed { 3 } else { 0 };
            assert!(last || gap == planned.gap - by_gap, "seed {seed}");
            *met.entry((last, gap.min(22), ten)).or_default() += 1;
            place += gap;
        }
        assert_eq!(place, sound.plan.length, "seed {seed}");
    }
    println!("sectors by last, gap up to 22 and ten bytes: {met:?}");
    for ten in [false, true] {
        for (last, gap) in [(false, 21), (false, 22), (true, 13), (true, 22)] {
            let times = met.get(&(last, gap, ten));
            assert!(times > Some(&20), "{last} {gap} {ten}: {times:?}");
        }
    }
}

/// What Add leaves: the sector that was last gets the rule's gap, the new one's runs to index, the others are as before.
#[test]
fn added_gaps() {
    for number in 1..4 {
        for (kl, dl) in [(0, 0), (0, 19), (1, 19), (255, 500)] {
            let mut plan = plan();
            plan.sectors.truncate(number);
            let old = build(&plan);
            let (done, new) = add_to(&old, 0, 99, &vec![1; kl], &vec![2; dl]);
            assert_eq!(done, answer(0, 0));
            let (mut wanted, both) = (ends_and_gaps(&old), ends_and_gaps(&new));
            let last = &plan.sectors[number - 1];
            wanted[number - 1].1 = rule(last.key.len(), last.data.len());
            let key = if kl == 0 { 0 } else { kl + 9 + 11 };
            let block = if dl == 0 { 7 } else { dl + 9 };
            let opening = wanted[number - 1].0 + wanted[number - 1].1;
            let end = opening + 20 + 11 + key + block;
            wanted.push((end, L - end));
            assert_eq!(both, wanted);
        }
    }
}

/// What Correct leaves: the rule's gaps from the corrected sector on, the last one's to index, the others as before.
#[test]
fn corrected_gaps() {
    for index in 0..3 {
        for (kl, dl) in [(0, 0), (0, 19), (1, 19), (255, 500)] {
            let mut plan = plan();
            for sector in &mut plan.sectors {
                sector.closed = true;
            }
            let old = build(&plan);
            let s = plan.sectors[index].s;
            let (done, new) = correct_in(&old, s, &vec![1; kl], &vec![2; dl]);
            assert_eq!(done, answer(0, 0));
            let (before, both) = (ends_and_gaps(&old), ends_and_gaps(&new));
            assert_eq!(both[..index], before[..index]);
            (plan.sectors[index].key, plan.sectors[index].data) = (vec![1; kl], vec![2; dl]);
            for (nth, sector) in plan.sectors.iter().enumerate().skip(index) {
                let wanted = match nth {
                    2 => L - both[2].0,
                    _ => rule(sector.key.len(), sector.data.len()),
                };
                assert_eq!(both[nth].1, wanted);
            }
            // The last sector has neither key nor data but where it is corrected, and then seven bytes.
            let last = listed(&new.track, &new.marks)[2];
            assert!(index == 2 || last.end == last.data_place + 1);
        }
    }
}
