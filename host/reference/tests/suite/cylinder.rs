//! Read cylinder and Write cylinder.

use crate::alike::*;
use crate::common::*;
use reference::generate::*;
use std::collections::{BTreeMap, BTreeSet};

/// Numbers that Read cylinder can give.
const READ: [u8; 7] = [0, 1, 18, 19, 20, 21, 24];
/// Numbers that Write cylinder can give.
const WRITE: [u8; 4] = [0, 1, 18, 24];

/// Read cylinder into noise of these lengths, which stays behind what is read, and whole where it is refused; gives what was read.
fn read_into(file: &[u8], rooms: [usize; 3]) -> (Answer, Cylinder) {
    let before = noisy_cylinder(0, rooms);
    let mut read = before.clone();
    let (done, count) = read_cylinder(file, &mut read.tracks, &mut read.marks, &mut read.lengths);
    assert_eq!(count > 0, done == answer(0, 0), "{done:?}");
    let sum = sum_of(&read.lengths[..count]);
    assert!(read.tracks.split_off(sum) == before.tracks[sum..]);
    assert!(read.marks.split_off(sum) == before.marks[sum..]);
    assert!(read.lengths.split_off(count) == before.lengths[count..]);
    (done, read)
}

/// Read cylinder into buffers that hold any ten tracks.
fn read(file: &[u8]) -> (Answer, Cylinder) {
    read_into(file, [40_020, 40_020, 10])
}

/// Write cylinder into noise of this length, which stays behind the file, and whole where it is refused; gives the file.
fn write_into(cylinder: &Cylinder, room: usize) -> (Answer, Vec<u8>) {
    let before = noisy_file(0, room);
    let mut file = before.clone();
    let c = cylinder;
    let (done, length) = write_cylinder(&c.tracks, &c.marks, &c.lengths, &mut file);
    assert_eq!(length > 0, done == answer(0, 0), "{done:?}");
    assert!(file.split_off(length) == before[length..], "{done:?}");
    (done, file)
}

/// Write cylinder into a buffer that holds any file.
fn write(cylinder: &Cylinder) -> (Answer, Vec<u8>) {
    write_into(cylinder, 45_094)
}

/// Demands that these tracks and this file are read and written as each other, with no byte more than they need.
fn there_and_back(tracks: &[Track], file: &[u8], note: &str) {
    let cylinder = cylinder_of(tracks);
    let sum = cylinder.tracks.len();
    let (done, written) = write_into(&cylinder, file.len());
    assert!((done, &written[..]) == (answer(0, 0), file), "{note}");
    let (done, back) = read_into(file, [sum, sum, tracks.len()]);
    assert!((done, back) == (answer(0, 0), cylinder), "{note}");
}

/// Three tracks, each of one value, with a few marks.
fn worked_tracks() -> Vec<Track> {
    let track = |length, value, marked: &[usize]| {
        let mut marks = vec![0; length];
        marked.iter().for_each(|&place| marks[place] = 1);
        (vec![value; length], marks)
    };
    vec![
        track(3_815, 0x11, &[0, 7, 8, 3_814]),
        track(3_906, 0x22, &[3_905]),
        track(4_002, 0x33, &[4, 4_001]),
    ]
}

/// Header and table of their file, worked out by hand.
const WORKED_TABLE: [u8; 22] = [
    0x00, 0x03, 0x00, 0x00, // three tracks
    0x0E, 0xE7, 0x00, 0x00, 0x00, 0x16, // 3,815 bytes at 22
    0x0F, 0x42, 0x00, 0x00, 0x10, 0xDA, // 3,906 bytes at 4,314
    0x0F, 0xA2, 0x00, 0x00, 0x22, 0x05, // 4,002 bytes at 8,709
];

/// The value of each track, where it starts, where its marks do, and where they end.
const WORKED_PARTS: [(u8, usize, usize, usize); 3] = [
    (0x11, 22, 3_837, 4_314),
    (0x22, 4_314, 8_220, 8_709),
    (0x33, 8_709, 12_711, 13_212),
];

/// The bytes of their marks that are not zero.
const WORKED_MARKS: [(usize, u8); 6] = [
    (3_837, 0x81),
    (3_838, 0x80),
    (4_313, 0x02),
    (8_708, 0x40),
    (12_711, 0x08),
    (13_211, 0x40),
];

/// Three tracks with a few marks, and the bytes of their file that were worked out by hand.
#[test]
fn worked_file() {
    let tracks = worked_tracks();
    let (done, file) = write(&cylinder_of(&tracks));
    assert_eq!((done, file.len()), (answer(0, 0), 13_212));
    assert_eq!(file[..22], WORKED_TABLE);
    let mut set = vec![];
    for (value, start, marks, end) in WORKED_PARTS {
        assert!(file[start..marks].iter().all(|&byte| byte == value));
        set.extend((marks..end).filter(|&place| file[place] != 0));
    }
    let set: Vec<_> = set.into_iter().map(|place| (place, file[place])).collect();
    assert_eq!(set, WORKED_MARKS);
    there_and_back(&tracks, &file, "worked");
    assert!(file == cylinder_file(&tracks));
}

/// The table of the longest file.
#[test]
fn worked_table_of_ten() {
    let tracks = tracks_of(&[4_002; 10]);
    let (done, file) = write(&cylinder_of(&tracks));
    assert_eq!((done, file.len()), (answer(0, 0), 45_094));
    assert_eq!(file[..4], [0x00, 0x0A, 0x00, 0x00]);
    assert_eq!(file[4..10], [0x0F, 0xA2, 0x00, 0x00, 0x00, 0x40]);
    assert_eq!(file[10..16], [0x0F, 0xA2, 0x00, 0x00, 0x11, 0xD7]);
    assert_eq!(file[58..64], [0x0F, 0xA2, 0x00, 0x00, 0x9E, 0x8F]);
    there_and_back(&tracks, &file, "ten");
}

/// Each number of tracks, each with the shortest, the longest and mixed lengths.
#[test]
fn numbers_of_tracks() {
    for count in 1..=10 {
        let mixed: Vec<usize> = (0..count).map(|place| 3_815 + 18 * place).collect();
        for lengths in [vec![3_815; count], vec![4_002; count], mixed] {
            let tracks = tracks_of(&lengths);
            let file = cylinder_file(&tracks);
            there_and_back(&tracks, &file, &format!("{lengths:?}"));
        }
    }
}

/// Every length, alone: the last mark stands in the lowest bit that is not spare.
#[test]
fn every_length() {
    for length in 3_815..=4_002_usize {
        let tracks = tracks_of(&[length]);
        let file = cylinder_file(&tracks);
        let spare = spare_bits(length);
        assert_eq!(file.len(), 10 + length + (length + spare) / 8);
        let lowest = file.last().map(|byte| byte.trailing_zeros() as usize);
        assert_eq!(lowest, Some(spare), "{length}");
        there_and_back(&tracks, &file, &format!("L {length}"));
    }
}

/// Each remainder of L by eight leaves another number of spare bits; each of them is refused, in each track, and no mark is.
#[test]
fn answer_21() {
    let mut spare_counts = BTreeSet::new();
    for length in 3_815..3_823_usize {
        for tracks in [tracks_of(&[length]), tracks_of(&[length, 3_906, length])] {
            let file = cylinder_file(&tracks);
            let first = 4 + 6 * tracks.len();
            let last_bytes = [first + length + length.div_ceil(8) - 1, file.len() - 1];
            for place in last_bytes {
                for bit in 0..8 {
                    let spare = spare_bits(length);
                    spare_counts.insert(spare);
                    let mut file = file.clone();
                    file[place] ^= 1 << bit;
                    let number = if bit < spare { 21 } else { 0 };
                    assert_eq!(read(&file).0, answer(number, 0), "{length} {place} {bit}");
                }
            }
        }
    }
    assert_eq!(spare_counts, (0..8).collect());
}

/// Under four bytes there is no header, whatever they are.
#[test]
fn answer_20_for_the_header() {
    for length in 0..4 {
        for byte in [0x00, 0x01, 0xFF] {
            assert_eq!(read(&vec![byte; length]).0, answer(20, 0));
        }
        let file = cylinder_file(&tracks_of(&[3_906]));
        assert_eq!(read(&file[..length]).0, answer(20, 0));
    }
}

/// Numbers of tracks next to the range and far from it, many zero fields, and files that are laid out for none, eleven and twelve tracks.
#[test]
fn answer_18_reading() {
    let whole = cylinder_file(&tracks_of(&[3_906]));
    for count in [
        0, 1, 10, 11, 12, 255, 256, 257, 266, 0x0A00, 0x7FFF, 0xFFFF_u16,
    ] {
        let mut header = [0; 4];
        header[..2].copy_from_slice(&count.to_be_bytes());
        // The header alone: a number in rule lacks its table.
        let number = if (1..=10).contains(&count) { 20 } else { 18 };
        assert_eq!(read(&header).0, answer(number, 0), "{count}");
    }
    for field in (1..=0xFFFF_u16).step_by(7).chain([0x0100, 0x8000, 0x0080]) {
        let mut file = whole.clone();
        file[2..4].copy_from_slice(&field.to_be_bytes());
        assert_eq!(read(&file).0, answer(18, 0), "{field}");
        assert_eq!(read(&file[..4]).0, answer(18, 0), "{field}");
    }
    for count in [0, 11, 12] {
        let file = cylinder_file(&tracks_of(&vec![3_906; count]));
        assert_eq!(read_into(&file, [50_000, 50_000, 12]).0, answer(18, 0));
    }
}

/// A table cut short at every place, and a file of nothing but its table.
#[test]
fn answer_20_for_the_table() {
    for count in 1..=10 {
        let file = cylinder_file(&tracks_of(&vec![3_906; count]));
        for length in 4..=4 + 6 * count {
            assert_eq!(read(&file[..length]).0, answer(20, 0), "{count} {length}");
        }
        // Faults of the table show once it is whole.
        let mut wrong = file.clone();
        wrong[4] = 0;
        wrong[9] ^= 1;
        let end = 4 + 6 * count;
        assert_eq!(read(&wrong[..end - 1]).0, answer(20, 0));
        assert_eq!(read(&wrong[..end]).0, answer(1, 0));
        wrong[4] = file[4];
        assert_eq!(read(&wrong[..end - 1]).0, answer(20, 0));
        assert_eq!(read(&wrong[..end]).0, answer(19, 0));
    }
}

/// Lengths next to the range, in each entry, in files that are laid out for them.
#[test]
fn answer_1_reading() {
    for count in [1, 2, 10] {
        for entry in 0..count {
            for (length, number) in [(3_814, 1), (3_815, 0), (4_002, 0), (4_003, 1)] {
                let mut lengths = vec![3_906; count];
                lengths[entry] = length;
                let mut file = cylinder_file(&tracks_of(&lengths));
                assert_eq!(read(&file).0, answer(number, 0), "{entry} {length}");
                // All lengths are judged before any offset.
                file[9] ^= 1;
                let number = if number == 0 { 19 } else { 1 };
                assert_eq!(read(&file).0, answer(number, 0), "{entry} {length}");
            }
        }
    }
    for length in [0, 1, 0x420F, 0x8F42, 0xFFFF_u16] {
        let mut file = cylinder_file(&tracks_of(&[3_906]));
        file[4..6].copy_from_slice(&length.to_be_bytes());
        assert_eq!(read(&file).0, answer(1, 0), "{length}");
    }
}

/// Each offset one less, one more and with its top bit set, and lengths that the offsets do not follow.
#[test]
fn answer_19() {
    for count in [1, 3, 10] {
        let whole = cylinder_file(&tracks_of(&vec![3_906; count]));
        for entry in (0..count).map(|entry| 6 + 6 * entry..10 + 6 * entry) {
            let right = u32::from_be_bytes(whole[entry.clone()].try_into().unwrap());
            for offset in [right - 1, right + 1, right | 1 << 31] {
                let mut file = whole.clone();
                file[entry.clone()].copy_from_slice(&offset.to_be_bytes());
                assert_eq!(read(&file).0, answer(19, 0), "{entry:?} {offset}");
                // All offsets are judged before the file's length.
                file.pop();
                assert_eq!(read(&file).0, answer(19, 0), "{entry:?} {offset}");
            }
        }
    }
    // A length in range that the offsets behind it do not follow; of the last track only the file's length tells.
    let mut file = cylinder_file(&vec![(vec![0x11; 3_906], vec![0; 3_906]); 2]);
    file[5] += 1;
    assert_eq!(read(&file).0, answer(19, 0));
    file[5] -= 1;
    file[11] += 1;
    assert_eq!(read(&file).0, answer(20, 0));
    // 3,905 and 3,907, whose sum is the same, with an offset that follows: they take 4,394 and 4,396 bytes, together as many as twice 4,395.
    file[5] -= 1;
    file[15] -= 1;
    assert_eq!(read(&file).0, answer(0, 0));
}

/// A file with a byte less, with a byte more, with the same file once more behind it, and without its first track.
#[test]
fn answer_20_for_the_file() {
    for count in [1, 2, 10] {
        let whole = cylinder_file(&tracks_of(&vec![3_906; count]));
        let lengths = [whole.len() - 1, whole.len() - 489, 4 + 6 * count + 1];
        for length in lengths {
            assert_eq!(read(&whole[..length]).0, answer(20, 0), "{count} {length}");
        }
        for more in [1, 2, 489, 3_906, whole.len()] {
            let mut file = whole.clone();
            file.extend(vec![0; more]);
            assert_eq!(read(&file).0, answer(20, 0), "{count} {more}");
        }
        let mut file = whole.clone();
        file.extend(&whole);
        assert_eq!(read(&file).0, answer(20, 0), "{count} twice");
        // The length is judged before the spare bits.
        let mut file = whole.clone();
        file[4 + 6 * count + 4_394] |= 1;
        assert_eq!(read(&file).0, answer(21, 0), "{count}");
        file.push(0);
        assert_eq!(read(&file).0, answer(20, 0), "{count}");
        // A track of 3,906 bytes takes 4,395.
        let mut file = whole.clone();
        let first = 4 + 6 * count;
        file.drain(first..first + 4_395);
        assert_eq!(read(&file).0, answer(20, 0), "{count} without the first");
    }
}

/// What is lent for writing may be longer than needed, and not shorter.
#[test]
fn answer_24_reading() {
    for lengths in [&[3_815][..], &[3_815, 4_002], &[3_999; 10]] {
        let tracks = tracks_of(lengths);
        let (cylinder, file) = (cylinder_of(&tracks), cylinder_file(&tracks));
        let (sum, count) = (cylinder.tracks.len(), lengths.len());
        let mut spoiled = file.clone();
        spoiled[4 + 6 * count + lengths[0] + lengths[0] / 8] |= 1;
        for rooms in [
            [sum - 1, sum, count],
            [sum, sum - 1, count],
            [sum, sum, count - 1],
            [0, sum, count],
            [sum, 0, count],
            [sum, sum, 0],
            [0, 0, 0],
            [sum - 1, sum + 1, count + 1],
        ] {
            assert_eq!(read_into(&file, rooms).0, answer(24, 0), "{rooms:?}");
            // The spare bits are judged before.
            assert_eq!(read_into(&spoiled, rooms).0, answer(21, 0), "{rooms:?}");
        }
        for rooms in [
            [sum, sum, count],
            [sum + 1, sum, count],
            [sum, sum + 1, count],
            [sum, sum, count + 1],
            [sum + 4_002, sum + 3_906, 300],
        ] {
            let (done, back) = read_into(&file, rooms);
            assert!((done, &back) == (answer(0, 0), &cylinder), "{rooms:?}");
        }
    }
}

/// Lists of none, of eleven and of far more lengths, before anything else that is wrong.
#[test]
fn answer_18_writing() {
    for count in [0, 11, 12, 100, 256, 257, 266, 65_536, 65_537] {
        let mut cylinder = cylinder_of(&tracks_of(&[3_906]));
        cylinder.lengths.resize(count, 3_906);
        assert_eq!(write(&cylinder).0, answer(18, 0), "{count}");
        assert_eq!(write_into(&cylinder, 0).0, answer(18, 0), "{count}");
    }
    for count in [0, 11] {
        // Slices of the right sum, and a length and a mark out of rule.
        let mut cylinder = cylinder_of(&tracks_of(&vec![3_906; count]));
        assert_eq!(write_into(&cylinder, 60_000).0, answer(18, 0));
        cylinder.marks.push(2);
        cylinder.lengths.iter_mut().for_each(|length| *length = 0);
        assert_eq!(write_into(&cylinder, 60_000).0, answer(18, 0));
    }
}

/// Lengths next to the range, in each place of the list.
#[test]
fn answer_1_writing() {
    for count in [1, 2, 10] {
        for entry in 0..count {
            for (length, number) in [(3_814, 1), (3_815, 0), (4_002, 0), (4_003, 1)] {
                let mut lengths = vec![3_906; count];
                lengths[entry] = length;
                let cylinder = cylinder_of(&tracks_of(&lengths));
                assert_eq!(write(&cylinder).0, answer(number, 0), "{entry} {length}");
                // Room is judged last.
                let number = if number == 0 { 24 } else { 1 };
                assert_eq!(write_into(&cylinder, 0).0, answer(number, 0));
            }
        }
    }
    // Two lengths out of range, whose sum is that of two in range.
    let mut cylinder = cylinder_of(&tracks_of(&[3_906, 3_906]));
    for (lengths, number) in [
        ([3_815, 3_997], 0),
        ([3_810, 4_002], 1),
        ([3_809, 4_003], 1),
    ] {
        cylinder.lengths = lengths.to_vec();
        assert_eq!(write(&cylinder).0, answer(number, 0), "{lengths:?}");
    }
}

/// Slices next to the sum of the lengths, and empty ones.
#[test]
fn slices_of_another_length() {
    for count in [1, 2, 10] {
        let right = cylinder_of(&tracks_of(&vec![3_906; count]));
        let sum = 3_906 * count;
        for (tracks, marks) in [
            (sum - 1, sum),
            (sum + 1, sum),
            (sum, sum - 1),
            (sum, sum + 1),
            (sum - 1, sum - 1),
            (sum + 1, sum + 1),
            (0, sum),
            (sum, 0),
        ] {
            let mut cylinder = right.clone();
            cylinder.tracks.resize(tracks, 0);
            cylinder.marks.resize(marks, 0);
            assert_eq!(write(&cylinder).0, answer(1, 0), "{tracks} {marks}");
            assert_eq!(write_into(&cylinder, 0).0, answer(1, 0));
        }
    }
}

/// Every value but 0 and 1, as the first and the last mark of the first and of the last track, and as the second mark.
#[test]
fn marks_out_of_rule() {
    for count in [1, 10] {
        let right = cylinder_of(&tracks_of(&vec![3_906; count]));
        let sum = 3_906 * count;
        for place in [0, 1, 3_905, sum - 3_906, sum - 1] {
            for mark in 2..=255 {
                let mut cylinder = right.clone();
                cylinder.marks[place] = mark;
                assert_eq!(write(&cylinder).0, answer(1, 0), "{place} {mark}");
            }
        }
    }
}

/// A buffer of exactly the file's length, one byte less, and longer ones.
#[test]
fn answer_24_writing() {
    for lengths in [&[3_815][..], &[3_816], &[3_815, 4_002], &[3_999; 10]] {
        let tracks = tracks_of(lengths);
        let (cylinder, file) = (cylinder_of(&tracks), cylinder_file(&tracks));
        for room in [0, 4, cylinder.tracks.len(), file.len() - 1] {
            assert_eq!(write_into(&cylinder, room).0, answer(24, 0), "{room}");
        }
        for room in [file.len(), file.len() + 1, 60_000] {
            let (done, written) = write_into(&cylinder, room);
            assert_eq!((done, written == file), (answer(0, 0), true), "{room}");
        }
    }
}

/// How often each number was met; each of the call is met often, and no other.
fn check_mix(name: &str, met: &BTreeMap<u8, usize>, numbers: &[u8], least: usize) {
    println!("{name}: {met:?}");
    assert_eq!(met.keys().copied().collect::<Vec<_>>(), numbers);
    assert!(met.values().all(|&times| times >= least), "{met:?}");
}

/// What is read from a wanted file writes back to it.
#[test]
fn wanted_readings() {
    let (mut met, mut counts) = (BTreeMap::new(), BTreeSet::new());
    for seed in 0..4_000 {
        let w = wanted_read_cylinder(seed);
        let rooms = [w.tracks_length, w.marks_length, w.lengths_count];
        let (done, back) = read_into(&w.file, rooms);
        *met.entry(done.number).or_default() += 1;
        assert_eq!(done, answer(done.number, 0), "seed {seed}");
        if done.number == 0 {
            counts.insert(back.lengths.len());
            let (done, file) = write(&back);
            assert!(done == answer(0, 0) && file == w.file, "seed {seed}");
        }
    }
    check_mix("read", &met, &READ, 80);
    assert_eq!(counts, (1..=10).collect());
}

/// What is written of wanted tracks reads back.
#[test]
fn wanted_writings() {
    let (mut met, mut counts) = (BTreeMap::new(), BTreeSet::new());
    for seed in 0..4_000 {
        let w = wanted_write_cylinder(seed);
        let (done, file) = write_into(&w.cylinder, w.file_length);
        *met.entry(done.number).or_default() += 1;
        assert_eq!(done, answer(done.number, 0), "seed {seed}");
        if done.number == 0 {
            counts.insert(w.cylinder.lengths.len());
            let (done, back) = read(&file);
            assert!(done == answer(0, 0) && back == w.cylinder, "seed {seed}");
        }
    }
    check_mix("write", &met, &WRITE, 200);
    assert_eq!(counts, (1..=10).collect());
}

/// The lengths and offsets in a file's table, which is whole.
fn table_of(file: &[u8]) -> Vec<(usize, usize)> {
    let number = |bytes: &[u8]| {
        bytes
            .iter()
            .fold(0, |sum, &byte| sum << 8 | usize::from(byte))
    };
    let entries = file[4..].chunks(6).take(file[1].into());
    entries
        .map(|entry| (number(&entry[..2]), number(&entry[2..])))
        .collect()
}

/// How many spare bits are set in a file that has no other fault.
fn spare_bits_set(file: &[u8]) -> u32 {
    let set_in = |(length, offset): (usize, usize)| {
        let last = file[offset + length + length.div_ceil(8) - 1];
        let spare = spare_bits(length);
        (last & ((1 << spare) - 1)).count_ones()
    };
    table_of(file).into_iter().map(set_in).sum()
}

/// Every kind of wanted reading.
const READ_KINDS: [&str; 19] = [
    "1 for a length above the range",
    "1 for a length below the range",
    "18 for the number of tracks",
    "18 for the zero field",
    "19 for a later offset",
    "19 for the first offset",
    "20 for the file",
    "20 for the header",
    "20 for the table",
    "21 for one spare bit",
    "21 for several spare bits",
    "24 for both",
    "24 for the list",
    "24 for the marks",
    "24 for the tracks",
    "done",
    "done with a longer list",
    "done with more marks",
    "done with more tracks",
];

/// Every kind of wanted writing.
const WRITE_KINDS: [&str; 11] = [
    "1 for a length",
    "1 for a mark",
    "1 for both",
    "1 for the marks",
    "1 for the tracks",
    "18 for eleven",
    "18 for many",
    "18 for none",
    "24 for less",
    "24 for nothing",
    "done",
];

/// Why a file is refused, or with what it is read, as far as its table, its spare bits and the lengths of the file and of what is lent show.
fn kind_of_reading(w: &WantedReadCylinder, number: u8) -> &'static str {
    let count = w.file.get(1).copied().map_or(0, usize::from);
    let zero_field = w.file.get(2..4) == Some(&[0, 0]);
    match number {
        1 => {
            let mut lengths = table_of(&w.file).into_iter().map(|(length, _)| length);
            match lengths.find(|length| !(3_815..=4_002).contains(length)) {
                Some(4_003..) => "1 for a length above the range",
                _ => "1 for a length below the range",
            }
        }
        18 if !zero_field => "18 for the zero field",
        18 => "18 for the number of tracks",
        19 if table_of(&w.file)[0].1 != 4 + 6 * count => "19 for the first offset",
        19 => "19 for a later offset",
        20 if w.file.len() < 4 => "20 for the header",
        20 if w.file.len() < 4 + 6 * count => "20 for the table",
        20 => "20 for the file",
        21 if spare_bits_set(&w.file) == 1 => "21 for one spare bit",
        21 => "21 for several spare bits",
        24 if w.lengths_count < count => "24 for the list",
        24 if w.tracks_length < w.marks_length => "24 for the tracks",
        24 if w.marks_length < w.tracks_length => "24 for the marks",
        24 => "24 for both",
        0 if w.tracks_length > w.marks_length => "done with more tracks",
        0 if w.marks_length > w.tracks_length => "done with more marks",
        0 if w.lengths_count > count => "done with a longer list",
        0 => "done",
        _ => "no number of the call",
    }
}

/// Why tracks are refused, as far as their lengths show.
fn kind_of_writing(w: &WantedWriteCylinder, number: u8) -> &'static str {
    let Cylinder {
        tracks,
        marks,
        lengths,
    } = &w.cylinder;
    let sum = sum_of(lengths);
    let in_range = |length| (3_815..=4_002).contains(length);
    match number {
        18 if lengths.is_empty() => "18 for none",
        18 if lengths.len() == 11 => "18 for eleven",
        18 => "18 for many",
        1 if !lengths.iter().all(in_range) => "1 for a length",
        1 if (tracks.len(), marks.len()) == (sum, sum) => "1 for a mark",
        1 if tracks.len() == sum => "1 for the marks",
        1 if marks.len() == sum => "1 for the tracks",
        1 => "1 for both",
        24 if w.file_length == 0 => "24 for nothing",
        24 => "24 for less",
        0 => "done",
        _ => "no number of the call",
    }
}

/// Each answer by each of its reasons is among the wanted ones.
#[test]
fn wanted_reasons_are_varied() {
    let (mut reading, mut writing) = (BTreeMap::<_, usize>::new(), BTreeMap::<_, usize>::new());
    for seed in 0..4_000 {
        let w = wanted_read_cylinder(seed);
        let rooms = [w.tracks_length, w.marks_length, w.lengths_count];
        let number = read_into(&w.file, rooms).0.number;
        *reading.entry(kind_of_reading(&w, number)).or_default() += 1;
        let w = wanted_write_cylinder(seed);
        let number = write_into(&w.cylinder, w.file_length).0.number;
        *writing.entry(kind_of_writing(&w, number)).or_default() += 1;
    }
    for (met, kinds) in [(reading, &READ_KINDS[..]), (writing, &WRITE_KINDS)] {
        println!("{met:?}");
        assert_eq!(met.keys().copied().collect::<Vec<_>>(), kinds);
        assert!(met.values().all(|&times| times >= 5), "{met:?}");
    }
}

/// Accepted tracks are accepted as before when they were in a file.
#[test]
fn sound_tracks_there_and_back() {
    for seed in 0..100 {
        let tracks: Vec<Track> = (0..seed % 10 + 1)
            .map(|head| sound(10 * seed + head))
            .collect();
        let file = cylinder_file(&tracks);
        there_and_back(&tracks, &file, &format!("seed {seed}"));
        let mut back = read(&file).1;
        for length in back.lengths {
            let rest = back.tracks.split_off(length.into());
            let track = std::mem::replace(&mut back.tracks, rest);
            let rest = back.marks.split_off(length.into());
            let marks = std::mem::replace(&mut back.marks, rest);
            assert_eq!(accept(&track, &marks), answer(0, 0), "seed {seed}");
        }
    }
}
