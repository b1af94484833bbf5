//! From cells and To cells against the reference: answers, places, and every byte of the buffers.

mod common;

use common::{
    alike, answer, expected, lent, new_body, new_sector, new_track, noise, reads_back,
    same_buffers, Tally, Track,
};
use reference::generate::{
    bit_cells_of, sound, wanted_add, wanted_blank, wanted_correct, wanted_from_cells,
    wanted_to_cells,
};
use station::{Answer, Lent};

/// Numbers that both calls can give.
const NUMBERS: [u8; 3] = [0, 1, 17];

/// A buffer full of noise.
fn noisy_cells(seed: u64, length: usize) -> Vec<u8> {
    noise(seed ^ 0x0B17_CE11, length, 0).0
}

/// Demands equal bit cells; says where the first difference is.
fn same_cells(ours: &[u8], theirs: &[u8], note: &str) {
    assert_eq!(ours.len(), theirs.len(), "bit cells, {note}");
    if let Some(place) = (0..ours.len()).find(|&place| ours[place] != theirs[place]) {
        let (a, b) = (ours[place], theirs[place]);
        panic!("cell byte {place}: {a:02x} and {b:02x}, {note}");
    }
}

/// From cells by both, into buffers of equal noise, which a refusal leaves; gives the answer and what was written.
fn read_by_both(bit_cells: &[u8], before: Track, note: &str) -> (Answer, Track) {
    let (mut ours, mut theirs) = (before.clone(), before.clone());
    let done = station::from_cells(bit_cells, &mut ours.0, &mut ours.1);
    let same = reference::from_cells(bit_cells, &mut theirs.0, &mut theirs.1);
    assert_eq!(done, expected(same), "{note}");
    same_buffers(&ours, &theirs, note);
    match done.is_done() {
        true => drop(alike::accept(&ours.0, &ours.1)),
        false => same_buffers(&ours, &before, note),
    }
    (done, ours)
}

/// To cells by both, into buffers of equal noise, which a refusal leaves; gives the answer and what was written.
fn send_by_both((track, marks): Lent, before: Vec<u8>, note: &str) -> (Answer, Vec<u8>) {
    let (mut ours, mut theirs) = (before.clone(), before.clone());
    let done = station::to_cells(track, marks, &mut ours);
    let same = reference::to_cells(track, marks, &mut theirs);
    let _ = alike::accept(track, marks);
    assert_eq!(done, expected(same), "{note}");
    same_cells(&ours, &theirs, note);
    if !done.is_done() {
        same_cells(&ours, &before, note);
    }
    (done, ours)
}

/// Demands that a track is sent to these bit cells.
fn sent_to(track: Lent, bit_cells: &[u8], seed: u64, note: &str) {
    let before = noisy_cells(seed, bit_cells.len());
    let (done, sent) = send_by_both(track, before, note);
    assert_eq!(done, Answer::DONE, "{note}");
    same_cells(&sent, bit_cells, note);
}

/// Demands that this track and these marks are read from bit cells; gives them as they were read.
fn read_from(bit_cells: &[u8], track: &Track, seed: u64, note: &str) -> Track {
    let before = noise(seed, track.0.len(), track.1.len());
    let (done, read) = read_by_both(bit_cells, before, note);
    assert_eq!(done, Answer::DONE, "{note}");
    same_buffers(&read, track, note);
    read
}

#[test]
fn from_cells_as_the_reference() {
    let mut tally = Tally::new("from cells", 20_000);
    for seed in tally.seeds() {
        let note = format!("seed {seed}");
        let w = wanted_from_cells(seed);
        let before = noise(seed, w.length, w.marks_length);
        let (done, read) = read_by_both(&w.bit_cells, before, &note);
        tally.count(done);
        if done.is_done() {
            sent_to(lent(&read), &w.bit_cells, seed, &note);
        }
    }
    tally.finish(20_000, &NUMBERS);
}

#[test]
fn to_cells_as_the_reference() {
    let mut tally = Tally::new("to cells", 20_000);
    for seed in tally.seeds() {
        let note = format!("seed {seed}");
        let w = wanted_to_cells(seed);
        let track = (w.track, w.marks);
        let before = noisy_cells(seed, w.bit_cells_length);
        let (done, sent) = send_by_both(lent(&track), before, &note);
        tally.count(done);
        if done.is_done() {
            read_from(&sent, &track, seed, &note);
        }
    }
    tally.finish(20_000, &NUMBERS);
}

/// A written track goes to bit cells and comes back, is accepted, and gives one sector's key and data.
fn through_the_drive(written: &Track, seed: u64, s: u8, key: &[u8], data: &[u8], note: &str) {
    let bit_cells = bit_cells_of(&written.0, &written.1);
    sent_to(lent(written), &bit_cells, seed, note);
    let read = read_from(&bit_cells, written, seed, note);
    reads_back(lent(&read), s, key, data, note);
}

/// Tracks made by Blank, Add and Correct survive the way to bit cells and back.
#[test]
fn written_tracks_survive() {
    let mut tally = Tally::new("written, sent and read", 4_000);
    let mut marked = 0;
    for seed in tally.seeds() {
        let note = format!("seed {seed}");
        let w = wanted_blank(seed);
        let mut track = noise(seed, w.length, w.marks_length);
        if !station::blank(&mut track.0, &mut track.1, &new_track(&w)).is_done() {
            continue;
        }
        through_the_drive(&track, seed, w.s, &w.key, &w.data, &note);
        tally.count(Answer::DONE);
        for step in 1..=3 {
            let w = wanted_add(seed ^ step << 40, &track.0, &track.1);
            let mut new = noise(step, track.0.len(), track.1.len());
            let done = alike::add(lent(&track), &mut new.0, &mut new.1, &new_sector(&w));
            if done.is_done() {
                through_the_drive(&new, seed, w.s, &w.key, &w.data, &note);
                tally.count(Answer::DONE);
                track = new;
            }
        }
        let w = wanted_correct(seed, &track.0, &track.1);
        let mut new = noise(4, track.0.len(), track.1.len());
        let done = alike::correct(lent(&track), &mut new.0, &mut new.1, &new_body(&w));
        if done.is_done() {
            through_the_drive(&new, seed, w.s, &w.key, &w.data, &note);
            tally.count(Answer::DONE);
            marked += u64::from(new.1.contains(&1));
        }
    }
    assert!(marked >= 1_000, "only {marked} corrected tracks with marks");
    tally.finish(6_000, &[0]);
}

/// Every pattern of two cell bytes: exactly those of the 256 bytes and of the marked one are legal.
#[test]
fn all_patterns() {
    let (mut bit_cells, place) = (vec![0xAA; 2 * 3_815], 2_000);
    let before = noise(0, 3_815, 3_815);
    let mut legal = 0;
    for pattern in 0..=0xFFFF_u16 {
        bit_cells[2 * place..2 * place + 2].copy_from_slice(&pattern.to_be_bytes());
        let note = format!("pattern {pattern:04x}");
        let (done, _) = read_by_both(&bit_cells, before.clone(), &note);
        legal += u64::from(done.is_done());
        assert!(done.is_done() || done == answer(17, place), "{note}");
    }
    assert_eq!(legal, 257);
}

/// Every byte with every mark.
#[test]
fn all_bytes_and_marks() {
    let (mut track, place) = ((vec![0; 3_815], vec![0; 3_815]), 2_000);
    let before = noisy_cells(0, 2 * 3_815);
    for (byte, mark) in (0..=255).flat_map(|byte| (0..=255).map(move |mark| (byte, mark))) {
        (track.0[place], track.1[place]) = (byte, mark);
        let note = format!("byte {byte:02x}, mark {mark}");
        let (done, _) = send_by_both(lent(&track), before.clone(), &note);
        let wanted = match (byte, mark) {
            (_, 0) | (0xFF, 1) => answer(0, 0),
            (_, 1) => answer(17, place),
            _ => answer(1, 0),
        };
        assert_eq!(done, wanted, "{note}");
    }
}

/// One fault at each place of a sound track, from index to index, is named with its place.
#[test]
fn faults_at_every_place() {
    for (seed, length) in [(0, 3_815), (1, 4_002)] {
        let mut track = sound(seed);
        track.0.resize(length, 0x0E);
        track.1.resize(length, 0);
        let mut bit_cells = bit_cells_of(&track.0, &track.1);
        for place in 0..length {
            let note = format!("place {place} of {length}");
            bit_cells[2 * place + 1] ^= 0x02;
            let (done, _) = read_by_both(&bit_cells, noise(seed, length, length), &note);
            assert_eq!(done, answer(17, place), "{note}");
            bit_cells[2 * place + 1] ^= 0x02;
            let (byte, mark) = (track.0[place], track.1[place]);
            (track.0[place], track.1[place]) = (0x7F, 1);
            let (done, _) = send_by_both(lent(&track), noisy_cells(seed, 2 * length), &note);
            assert_eq!(done, answer(17, place), "{note}");
            (track.0[place], track.1[place]) = (byte, mark);
        }
    }
}

/// Lengths next to the limits and to each other; only those that agree are not refused.
#[test]
fn lengths_at_their_edges() {
    let mut done_both = 0;
    for length in [0_usize, 1, 1_907, 3_814, 3_815, 3_906, 4_002, 4_003, 7_812] {
        for marks_length in [0, length.saturating_sub(1), length, length + 1, 2 * length] {
            let right = 2 * length;
            let near = right.saturating_sub(2)..=right + 2;
            for bit_cells_length in near.chain([0, length, 4 * length]) {
                let note = format!("lengths {length}, {marks_length}, {bit_cells_length}");
                let in_range = (3_815..=4_002).contains(&length);
                let agree = marks_length == length && bit_cells_length == right;
                let wanted = answer(u8::from(!in_range || !agree), 0);
                let buffers = noise(1, length, marks_length);
                let (done, _) = read_by_both(&vec![0xAA; bit_cells_length], buffers, &note);
                assert_eq!(done, wanted, "{note}");
                let track = (vec![0xFF; length], vec![1; marks_length]);
                let buffer = noisy_cells(1, bit_cells_length);
                let (done, _) = send_by_both(lent(&track), buffer, &note);
                assert_eq!(done, wanted, "{note}");
                done_both += u64::from(done.is_done());
            }
        }
    }
    assert_eq!(done_both, 3);
}
