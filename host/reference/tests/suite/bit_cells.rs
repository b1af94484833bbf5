//! From cells and To cells.

use crate::alike::*;
use crate::common::*;
use reference::generate::*;
use std::collections::BTreeSet;

const L: usize = 3_906;

/// A track and its marks.
type Pair = (Vec<u8>, Vec<u8>);

/// Two buffers full of noise.
fn noise(length: usize, marks_length: usize) -> Pair {
    (vec![0xA5; length], vec![0x5A; marks_length])
}

/// From cells into noise of these lengths; a refusal leaves it.
fn read_into(bit_cells: &[u8], length: usize, marks_length: usize) -> (Answer, Pair) {
    let mut pair = noise(length, marks_length);
    let done = from_cells(bit_cells, &mut pair.0, &mut pair.1);
    if done.number != 0 {
        assert!(pair == noise(length, marks_length), "{done:?}");
    }
    (done, pair)
}

/// From cells into noise of the length the bit cells ask for.
fn read(bit_cells: &[u8]) -> (Answer, Pair) {
    read_into(bit_cells, bit_cells.len() / 2, bit_cells.len() / 2)
}

/// To cells into noise of this length; a refusal leaves it.
fn send_into(track: &[u8], marks: &[u8], bit_cells_length: usize) -> (Answer, Vec<u8>) {
    let mut bit_cells = vec![0xC3; bit_cells_length];
    let done = to_cells(track, marks, &mut bit_cells);
    if done.number != 0 {
        assert!(bit_cells.iter().all(|&byte| byte == 0xC3), "{done:?}");
    }
    (done, bit_cells)
}

/// To cells into noise of the length the track asks for.
fn send(track: &[u8], marks: &[u8]) -> (Answer, Vec<u8>) {
    send_into(track, marks, 2 * track.len())
}

/// A track of zeros whose first bytes are these.
fn starting_with(bytes: &[u8]) -> Vec<u8> {
    let mut track = bytes.to_vec();
    track.resize(L, 0);
    track
}

/// Bytes, marks and cell bytes, worked out by hand.
const WORKED: [(u8, u8, [u8; 2]); 10] = [
    (0x00, 0, [0xAA, 0xAA]),
    (0x0E, 0, [0xAA, 0xFE]),
    (0xFF, 0, [0xFF, 0xFF]),
    (0xFF, 1, [0x55, 0x7F]),
    (0x80, 0, [0xEA, 0xAA]),
    (0x01, 0, [0xAA, 0xAB]),
    (0xCC, 0, [0xFA, 0xFA]),
    (0x55, 0, [0xBB, 0xBB]),
    (0xAA, 0, [0xEE, 0xEE]),
    (0x64, 0, [0xBE, 0xBA]),
];

#[test]
fn worked_bytes() {
    for (byte, mark, two) in WORKED {
        for place in [0, 1, 2_000, L - 1] {
            let (mut track, mut marks) = (vec![0; L], vec![0; L]);
            (track[place], marks[place]) = (byte, mark);
            let mut bit_cells = vec![0xAA; 2 * L];
            bit_cells[2 * place..2 * place + 2].copy_from_slice(&two);
            let (done, sent) = send(&track, &marks);
            assert_eq!((done, sent == bit_cells), (answer(0, 0), true), "{byte}");
            let (done, pair) = read(&bit_cells);
            let same = pair == (track, marks);
            assert_eq!((done, same), (answer(0, 0), true), "{byte}");
        }
    }
}

/// The opening of a later count, from index on.
#[test]
fn worked_opening() {
    let track = starting_with(&LONG);
    let marks = starting_with(&[0, 0, 0, 0, 0, 1, 1, 0]);
    let (done, bit_cells) = send(&track, &marks);
    assert_eq!(done, answer(0, 0));
    let opening = [
        0xAA, 0xAA, 0xAA, 0xAA, 0xAA, 0xAA, 0xAA, 0xAA, 0xFF, 0xFF, 0x55, 0x7F, 0x55, 0x7F, 0xAA,
        0xFE, 0xAA,
    ];
    assert_eq!(bit_cells[..17], opening);
    let (done, pair) = read(&bit_cells);
    assert_eq!((done, pair == (track, marks)), (answer(0, 0), true));
}

/// Of all patterns of two cell bytes exactly those of the 256 bytes and of the marked one are legal.
#[test]
fn all_patterns() {
    let (mut legal, mut count) = (BTreeSet::new(), 0);
    let mut bit_cells = vec![0xAA; 2 * 3_815];
    let (mut track, mut marks) = noise(3_815, 3_815);
    for pattern in 0..=0xFFFF_u16 {
        bit_cells[..2].copy_from_slice(&pattern.to_be_bytes());
        match from_cells(&bit_cells, &mut track, &mut marks) {
            done if done == answer(17, 0) => {}
            done => {
                assert_eq!(done, answer(0, 0));
                legal.insert((track[0], marks[0]));
                count += 1;
                let (done, same) = send(&track, &marks);
                assert!(done == answer(0, 0) && same == bit_cells, "{pattern:04x}");
            }
        }
    }
    let expected = (0..=255).map(|byte| (byte, 0)).chain([(0xFF, 1)]);
    assert_eq!(legal, expected.collect());
    assert_eq!(count, 257);
}

/// Every byte with each of the two marks, written and read.
#[test]
fn all_bytes() {
    for byte in 0..=255 {
        let track = starting_with(&[byte, byte, byte]);
        let marks = starting_with(&[0, 1, 0]);
        let (done, bit_cells) = send(&track, &marks);
        match byte {
            0xFF => {
                assert_eq!(done, answer(0, 0));
                assert_eq!(bit_cells[..6], [0xFF, 0xFF, 0x55, 0x7F, 0xFF, 0xFF]);
            }
            _ => assert_eq!(done, answer(17, 1)),
        }
        let (done, bit_cells) = send(&track, &[0; L]);
        assert_eq!(done, answer(0, 0));
        assert_eq!(read(&bit_cells), (done, (track, vec![0; L])));
    }
}

#[test]
fn lengths_in_range() {
    for (length, number) in [(3_814, 1), (3_815, 0), (4_002, 0), (4_003, 1)] {
        assert_eq!(read(&vec![0xAA; 2 * length]).0, answer(number, 0));
        let done = send(&vec![0xFF; length], &vec![1; length]).0;
        assert_eq!(done, answer(number, 0));
    }
    assert_eq!(read(&[]).0, answer(1, 0));
    assert_eq!(send(&[], &[]).0, answer(1, 0));
}

#[test]
fn lengths_that_differ() {
    let bit_cells = vec![0xAA; 2 * L];
    for (length, marks_length) in [
        (L, L - 1),
        (L, L + 1),
        (L - 1, L),
        (L + 1, L),
        (L, 0),
        (0, L),
    ] {
        let done = read_into(&bit_cells, length, marks_length).0;
        assert_eq!(done, answer(1, 0), "{length} {marks_length}");
        let done = send_into(&vec![0; length], &vec![0; marks_length], 2 * L).0;
        assert_eq!(done, answer(1, 0), "{length} {marks_length}");
    }
    for other in [0, 1, L, 2 * L - 2, 2 * L - 1, 2 * L + 1, 2 * L + 2, 4 * L] {
        let done = read_into(&vec![0xAA; other], L, L).0;
        assert_eq!(done, answer(1, 0), "{other}");
        let done = send_into(&[0; L], &[0; L], other).0;
        assert_eq!(done, answer(1, 0), "{other}");
    }
}

#[test]
fn marks_out_of_rule() {
    for place in [0, 1, 2_000, L - 1] {
        for mark in 2..=255 {
            let mut marks = vec![0; L];
            marks[place] = mark;
            assert_eq!(send(&[0xFF; L], &marks).0, answer(1, 0), "{place} {mark}");
        }
    }
}

#[test]
fn answer_17_reading() {
    for place in [0, 1, 2, 1_953, L - 2, L - 1] {
        for two in [[0x2A, 0xAA], [0xAA, 0xA8], [0x55, 0x7E], [0x57, 0x7F]] {
            let mut bit_cells = vec![0xAA; 2 * L];
            bit_cells[2 * place..2 * place + 2].copy_from_slice(&two);
            assert_eq!(read(&bit_cells).0, answer(17, place));
            // The first of two places is named.
            bit_cells[2 * L - 1] = 0;
            assert_eq!(read(&bit_cells).0, answer(17, place));
            bit_cells[1] = 0;
            assert_eq!(read(&bit_cells).0, answer(17, 0));
            // A length comes before it.
            bit_cells.push(0);
            assert_eq!(read_into(&bit_cells, L, L).0, answer(1, 0));
        }
    }
}

/// What is nearly the marked pattern is no legal one, nor is the marked pattern across two bytes.
#[test]
fn patterns_that_are_nearly_marked() {
    let near = [
        [0x7F, 0x55], // the halves exchanged
        [0x55, 0xFF], // four clocks lost
        [0x55, 0x5F], // six
        [0x55, 0x55], // all
        [0xFD, 0x55], // the last five
        [0x55, 0x7D], // the first five and the last
        [0x55, 0x7E], // another value
        [0x15, 0x7F], // another value
        [0x55, 0x3F], // another value
    ];
    for two in near {
        let mut bit_cells = vec![0xAA; 2 * L];
        bit_cells[100..102].copy_from_slice(&two);
        assert_eq!(read(&bit_cells).0, answer(17, 50), "{two:02x?}");
        bit_cells[99..103].copy_from_slice(&[0x55, 0x7F, 0xAA, 0xAA]);
        assert_eq!(read(&bit_cells).0, answer(17, 49));
    }
}

#[test]
fn answer_17_writing() {
    for place in [0, 1, 2, 1_953, L - 2, L - 1] {
        let (mut track, mut marks) = (vec![0xFF; L], vec![1; L]);
        track[place] = 0xFE;
        assert_eq!(send(&track, &marks).0, answer(17, place));
        // The first of two places is named.
        track[L - 1] = 0x00;
        assert_eq!(send(&track, &marks).0, answer(17, place));
        track[0] = 0x7F;
        assert_eq!(send(&track, &marks).0, answer(17, 0));
        // Without a mark any value will do.
        for place in [0, place, L - 1] {
            marks[place] = 0;
        }
        assert_eq!(send(&track, &marks).0, answer(0, 0));
        // A mark out of rule and a length come before it.
        marks[0] = 1;
        assert_eq!(send(&track, &marks).0, answer(17, 0));
        assert_eq!(send_into(&track, &marks, 2 * L + 1).0, answer(1, 0));
        marks[L - 1] = 2;
        assert_eq!(send(&track, &marks).0, answer(1, 0));
    }
}

/// What the generator lays out bit by bit is what To cells writes, and From cells restores it.
#[test]
fn sound_tracks_there_and_back() {
    for seed in 0..500 {
        let (track, marks) = sound(seed);
        let (done, bit_cells) = send(&track, &marks);
        assert_eq!(done, answer(0, 0));
        assert!(bit_cells == bit_cells_of(&track, &marks), "seed {seed}");
        let (done, pair) = read(&bit_cells);
        assert_eq!(done, answer(0, 0));
        assert!(pair == (track, marks), "seed {seed}");
    }
}

/// The first place, if any, whose bit cells are not those of a byte or of a marked `FF`.
fn first_illegal(bit_cells: &[u8]) -> Option<usize> {
    let legal = |two: &[u8]| {
        let all_clocks = two.iter().all(|byte| byte & 0xAA == 0xAA);
        all_clocks || two == [0x55, 0x7F]
    };
    bit_cells.chunks(2).position(|two| !legal(two))
}

/// Demands often 0, 1 and 17, nothing else, and 17 at many places.
fn check_mix(seen: [usize; 18], places: &BTreeSet<usize>, calls: usize) {
    println!(
        "0, 1 and 17 of {calls}: {} {} {}",
        seen[0], seen[1], seen[17]
    );
    assert_eq!(seen[0] + seen[1] + seen[17], calls);
    for number in [0, 1, 17] {
        assert!(seen[number] * 8 > calls, "{number} of {seen:?}");
    }
    assert!(places.contains(&0) && places.len() > 300, "{places:?}");
    assert!(places.iter().any(|&place| place >= 3_814));
}

#[test]
fn wanted_readings() {
    let (mut seen, mut places) = ([0; 18], BTreeSet::new());
    for seed in 0..3_000 {
        let w = wanted_from_cells(seed);
        let (done, pair) = read_into(&w.bit_cells, w.length, w.marks_length);
        seen[usize::from(done.number)] += 1;
        match done.number {
            0 => {
                let back = bit_cells_of(&pair.0, &pair.1);
                assert!(back == w.bit_cells, "seed {seed}");
                assert!(send(&pair.0, &pair.1) == (done, back), "seed {seed}");
            }
            17 => {
                assert_eq!(Some(done.place), first_illegal(&w.bit_cells), "seed {seed}");
                places.insert(done.place);
            }
            _ => assert_eq!(done, answer(1, 0), "seed {seed}"),
        }
    }
    check_mix(seen, &places, 3_000);
}

#[test]
fn wanted_sendings() {
    let (mut seen, mut places) = ([0; 18], BTreeSet::new());
    for seed in 0..3_000 {
        let w = wanted_to_cells(seed);
        let (done, bit_cells) = send_into(&w.track, &w.marks, w.bit_cells_length);
        seen[usize::from(done.number)] += 1;
        match done.number {
            0 => {
                assert!(bit_cells == bit_cells_of(&w.track, &w.marks), "seed {seed}");
                assert!(
                    read(&bit_cells) == (done, (w.track, w.marks)),
                    "seed {seed}"
                );
            }
            17 => {
                let illegal = first_illegal(&bit_cells_of(&w.track, &w.marks));
                assert_eq!(Some(done.place), illegal, "seed {seed}");
                places.insert(done.place);
            }
            _ => assert_eq!(done, answer(1, 0), "seed {seed}"),
        }
    }
    check_mix(seen, &places, 3_000);
}

/// Wrong lengths of every kind are among the wanted ones.
#[test]
fn wanted_lengths_are_varied() {
    let mut kinds = BTreeSet::new();
    for seed in 0..3_000 {
        let w = wanted_from_cells(seed);
        kinds.insert(("from", kind(w.length, w.marks_length, w.bit_cells.len())));
        let w = wanted_to_cells(seed);
        let lengths = kind(w.track.len(), w.marks.len(), w.bit_cells_length);
        kinds.insert(("to", lengths));
    }
    for name in ["from", "to"] {
        for lengths in [
            "right",
            "marks",
            "range and no more",
            "odd cells",
            "even cells",
        ] {
            assert!(kinds.contains(&(name, lengths)), "{name} {lengths}");
        }
    }
}

/// What is wrong with the lengths.
fn kind(length: usize, marks: usize, bit_cells: usize) -> &'static str {
    let in_range = (3_815..=4_002).contains(&length);
    match (in_range, marks == length, bit_cells == 2 * length) {
        (true, true, true) => "right",
        (true, false, true) => "marks",
        (false, true, true) => "range and no more",
        (true, true, false) if bit_cells % 2 == 1 => "odd cells",
        (true, true, false) => "even cells",
        _ => "several",
    }
}
