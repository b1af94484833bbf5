//! Blank, Add and Correct around data blocks of DL = 0 that have seven or ten bytes.

use crate::alike::*;
use crate::common::*;
use crate::write::{add_to, correct_in, first_written, L};
use reference::generate::{Built, Places, Plan, PlannedSector};

/// Check and end byte of an empty block.
const TRAILER: [u8; 3] = [0xFF, 0xFF, 0xCC];

/// Four sectors 5 to 8 without data whose blocks have ten bytes, the second and fourth with a key.
fn all_ten() -> Plan {
    let mut plan = plan();
    let ten = |s: u8, kl| PlannedSector {
        closed: true,
        gap: 21,
        ..sector((s + 1) % 2 * 0x80, s, kl, 0)
    };
    plan.sectors = vec![ten(5, 0), ten(6, 45), ten(7, 0), ten(8, 3)];
    plan
}

/// The plan with all blocks of seven bytes, as they are written.
fn all_seven(mut plan: Plan) -> Plan {
    for sector in &mut plan.sectors {
        sector.closed = false;
    }
    plan
}

/// Demands that nothing but FF and no mark follows from a place to index.
fn blank_from(built: &Built, place: usize) {
    assert!(built.track[place..].iter().all(|&byte| byte == 0xFF));
    assert!(built.marks[place..].iter().all(|&mark| mark == 0));
}

/// Demands the old bytes and marks up to a place, then so many FF, then one sector as first written, then FF.
fn added_behind(new: &Built, old: &Built, end: usize, gap: usize, added: &PlannedSector) {
    assert_eq!(new.track[..end], old.track[..end]);
    assert_eq!(new.marks[..end], old.marks[..end]);
    assert_eq!(new.track[end..end + gap], vec![0xFF; gap]);
    let form = sector_form(added);
    let after = end + gap + form.0.len();
    assert_eq!(new.track[end + gap..after], form.0);
    assert_eq!(new.marks[end..end + gap], vec![0; gap]);
    assert_eq!(new.marks[end + gap..after], form.1);
    blank_from(new, after);
    assert_eq!(accepted(new), answer(0, 0));
}

/// Bytes and marks of a first-written sector after sector 0.
fn sector_form(sector: &PlannedSector) -> (Vec<u8>, Vec<u8>) {
    let mut plan = plan();
    plan.sectors.truncate(1);
    plan.sectors.push(sector.clone());
    let form = first_written(&plan);
    let Places { count, end, .. } = form.places[1];
    (
        form.track[count..end].to_vec(),
        form.marks[count..end].to_vec(),
    )
}

/// All ten bytes are kept, and the gap is counted behind them.
#[test]
fn add_behind_ten_bytes() {
    for number in 1..5 {
        for (kl, dl) in [(0, 0), (0, 1), (3, 0), (20, 500)] {
            let mut plan = all_ten();
            plan.sectors.truncate(number);
            let old = build(&plan);
            let last = &plan.sectors[number - 1];
            let end = old.places[number - 1].data + 4;
            assert_eq!(old.track[end - 4..end], [0x00, 0xFF, 0xFF, 0xCC]);
            let added = sector((last.flag ^ 0x80) | 0x40, 9, kl, dl);
            let (done, new) = add_to(&old, 1, 9, &added.key, &added.data);
            assert_eq!(done, answer(0, 0));
            added_behind(&new, &old, end, 21 + last.key.len() / 20, &added);
        }
    }
}

/// Also where the three bytes stand in a gap with more behind them, and once more behind the ten.
#[test]
fn add_behind_ten_bytes_made_by_the_gap() {
    for times in 1..4 {
        let mut old = build(&plan());
        let end = old.places[2].end;
        old.track[end..end + 3 * times].copy_from_slice(&TRAILER.repeat(times));
        let added = sector(0x80, 9, 2, 40);
        let (done, new) = add_to(&old, 0, 9, &added.key, &added.data);
        assert_eq!(done, answer(0, 0));
        added_behind(&new, &old, end + 3, 21, &added);
    }
}

/// Seven bytes are kept where other bytes follow, and these are gap and go.
#[test]
fn add_behind_seven_bytes() {
    let junk: [&[u8]; 6] = [
        &[0x55; 40],
        &[0xFF, 0xFF, 0xCD],
        &[0xFF, 0xFE, 0xCC],
        &[0x7F, 0xFF, 0xCC],
        &[0x00, 0xFF, 0xFF, 0xCC],
        &[0xFF, 0xFF, 0xFF, 0xCC],
    ];
    for bytes in junk {
        let mut old = build(&plan());
        let end = old.places[2].end;
        old.track[end..end + bytes.len()].copy_from_slice(bytes);
        let added = sector(0x80, 9, 0, 0);
        let (done, new) = add_to(&old, 0, 9, &[], &[]);
        assert_eq!(done, answer(0, 0));
        added_behind(&new, &old, end, 21, &added);
    }
}

/// What is written with DL = 0 has seven bytes and is read so: each further sector stands 59 bytes behind the one before.
#[test]
fn written_blocks_have_seven_bytes() {
    let (mut track, mut marks) = (vec![0xA5; L], vec![0x5A; L]);
    let done = blank(&mut track, &mut marks, HERE, 0, HERE, 0, &[], &[]);
    assert_eq!(done, answer(0, 0));
    let mut built = Built {
        track,
        marks,
        places: Vec::new(),
    };
    for s in 1..64 {
        let (done, new) = add_to(&built, 0, s, &[], &[]);
        assert_eq!(done, answer(0, 0), "{s}");
        built = new;
    }
    let mut records = [Sector::default(); 67];
    let (done, number) = list(&built.track, &built.marks, &mut records);
    assert_eq!((done, number), (answer(0, 0), 64));
    for (index, record) in records[..number].iter().enumerate() {
        assert_eq!(record.data_place, 90 + 59 * index);
        assert_eq!(built.track[record.data_place + 1..][..13], [0xFF; 13]);
    }
}

/// The three bytes take three bytes of room from an added sector.
#[test]
fn add_answer_15() {
    let plan = all_ten();
    let (ten, seven) = (build(&plan), build(&all_seven(plan.clone())));
    for (built, end) in [(&ten, ten.places[3].end), (&seven, seven.places[3].end)] {
        let room = L - 13 - end - 21 - 20 - 11 - 9;
        let number = |dl| add_to(built, 0, 9, &[], &vec![1; dl]).0;
        for dl in [room - 1, room] {
            assert_eq!(number(dl), answer(0, 0));
        }
        for dl in [room + 1, room + 2, room + 3] {
            assert_eq!(number(dl), answer(15, 0));
        }
    }
    // A last block of ten bytes with 13 behind it has room for none.
    let mut full = plan;
    full.sectors[2].gap += L - 13 - ten.places[3].end;
    let built = build(&full);
    assert_eq!(accepted(&built), answer(0, 0));
    assert_eq!(add_to(&built, 0, 9, &[], &[]).0, answer(15, 0));
}

/// The last block with just the room for one more sector without key and data, which three bytes more take.
#[test]
fn add_the_smallest_sector() {
    for (closed, more, number) in [(false, 0, 0), (false, 1, 15), (true, 0, 15), (true, -3, 0)] {
        let mut plan = all_ten();
        plan.sectors[3].closed = closed;
        let end = build(&all_seven(plan.clone())).places[3].end;
        // Counted from all blocks of seven bytes: the three before the last have ten.
        let room = L - 13 - 38 - 21 - (end + 9);
        plan.sectors[2].gap += room.wrapping_add_signed(more);
        let built = build(&plan);
        assert_eq!(accepted(&built), answer(0, 0));
        assert_eq!(add_to(&built, 0, 9, &[], &[]).0, answer(number, 0));
    }
}

/// From the corrected sector on all empty blocks have seven bytes with FF behind them; those before it keep their ten.
#[test]
fn correct_among_ten_bytes() {
    let plan = all_ten();
    let old = build(&plan);
    for index in 0..4 {
        for (kl, dl) in [(0, 0), (30, 0), (0, 101), (7, 1)] {
            let mut wanted = all_seven(plan.clone());
            let filled = sector(0, 0, kl, dl);
            (wanted.sectors[index].key, wanted.sectors[index].data) = (filled.key, filled.data);
            let changed = &wanted.sectors[index];
            let (done, new) = correct_in(&old, changed.s, &changed.key, &changed.data);
            assert_eq!(done, answer(0, 0));
            assert_eq!(accepted(&new), answer(0, 0));
            let place = old.places[index].count;
            assert_eq!(new.track[..place], old.track[..place]);
            assert_eq!(new.marks[..place], old.marks[..place]);
            for before in &old.places[..index] {
                assert_eq!(new.track[before.data + 1..before.data + 4], TRAILER);
            }
            let form = first_written(&wanted);
            let (start, end) = (form.places[index].count, form.places[3].end);
            let after = place + end - start;
            assert_eq!(new.track[place..after], form.track[start..end]);
            assert_eq!(new.marks[place..after], form.marks[start..end]);
            blank_from(&new, after);
        }
    }
}

/// Where the last block ends with so much data in one sector, and all from its opening on as first written.
fn corrected_end(plan: &Plan, opening: usize, index: usize, dl: usize) -> usize {
    let mut end = opening;
    for (place, sector) in plan.sectors.iter().enumerate().skip(index) {
        let kl = sector.key.len();
        let key = if kl == 0 { 0 } else { 11 + 9 + kl };
        let (data, more) = if place == index { (9 + dl, dl) } else { (7, 0) };
        end += if place == 0 { 18 } else { 20 } + key + 11 + data;
        end += if place == 3 { 0 } else { 21 + (kl + more) / 20 };
    }
    end
}

/// The corrected sector may grow by what the blocks behind it lose, and not by more.
#[test]
fn correct_answer_15() {
    let plan = all_ten();
    let old = build(&plan);
    for index in 0..4 {
        let end = |dl| corrected_end(&plan, old.places[index].count, index, dl);
        let most = (1..L).rev().find(|&dl| end(dl) <= L - 13).unwrap();
        let corrected = |dl| {
            let sector = &plan.sectors[index];
            correct_in(&old, sector.s, &sector.key, &vec![1; dl])
        };
        // With a block of ten bytes behind it the track would be too short.
        assert!(end(most) + 3 > L - 13);
        let (done, new) = corrected(most);
        assert_eq!((done, accepted(&new)), (answer(0, 0), answer(0, 0)));
        assert_eq!(
            new.track[end(most) - 1],
            if index == 3 { 0xCC } else { 0x00 }
        );
        blank_from(&new, end(most));
        assert_eq!(corrected(most + 1).0, answer(15, 0));
    }
}

/// A track of ten-byte blocks that is full to the last byte can be corrected with the same contents.
#[test]
fn correct_on_a_full_track() {
    let mut plan = all_ten();
    plan.sectors[0].gap += L - 13 - build(&plan).places[3].end;
    let old = build(&plan);
    assert_eq!(old.places[3].end, L - 13);
    for sector in &plan.sectors {
        let (done, new) = correct_in(&old, sector.s, &sector.key, &sector.data);
        assert_eq!((done, accepted(&new)), (answer(0, 0), answer(0, 0)));
    }
    // The last may have one byte of data, which makes ten bytes again, and not two.
    let last = &plan.sectors[3];
    for (dl, number) in [(1, 0), (2, 15)] {
        let (done, _) = correct_in(&old, last.s, &last.key, &vec![6; dl]);
        assert_eq!(done, answer(number, 0));
    }
}

/// With ten bytes before, between, at and behind the two sectors the two orders give one track.
#[test]
fn two_corrections_in_both_orders() {
    let old = build(&all_ten());
    let bodies: [(&[u8], &[u8]); 4] = [(&[], &[]), (&[1; 44], &[2; 500]), (&[3], &[]), (&[], &[4])];
    for (a, b) in (5..9).flat_map(|a| (5..9).map(move |b| (a, b))) {
        for (of_a, of_b) in bodies.iter().flat_map(|one| bodies.map(|two| (*one, two))) {
            if a >= b {
                continue;
            }
            let (_, first) = correct_in(&old, a, of_a.0, of_a.1);
            let (done, one) = correct_in(&first, b, of_b.0, of_b.1);
            let (_, second) = correct_in(&old, b, of_b.0, of_b.1);
            let (same, other) = correct_in(&second, a, of_a.0, of_a.1);
            assert_eq!((done, same), (answer(0, 0), answer(0, 0)));
            assert_eq!((&one.track, &one.marks), (&other.track, &other.marks));
            let left = usize::from(a) - 5;
            let end = old.places[left].count;
            assert_eq!(one.track[..end], old.track[..end]);
        }
    }
}
