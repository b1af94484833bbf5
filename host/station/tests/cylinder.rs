//! Read cylinder and Write cylinder against the reference: answers, what they give, and everything lent for writing.

mod common;

use common::{alike, answer, expected, new_sector, new_track, noise, reads_back, Tally, Track};
use reference::generate::{
    cylinder_file, cylinder_of, noisy_cylinder, noisy_file, spare_bits, sum_of, tracks_of,
    wanted_add, wanted_blank, wanted_read_cylinder, wanted_write_cylinder, Cylinder, WantedAdd,
    WantedBlank,
};
use station::{Answer, LONGEST_FILE, MOST_TRACKS};
use std::collections::{BTreeMap, BTreeSet};
use std::fmt::Debug;

/// Numbers that Read cylinder can give.
const READ: [u8; 7] = [0, 1, 18, 19, 20, 21, 24];
/// Numbers that Write cylinder can give.
const WRITE: [u8; 4] = [0, 1, 18, 24];
/// As many bytes as the tracks of any file have.
const MOST_BYTES: usize = MOST_TRACKS * 4_002;

/// Demands equal lists; says where the first difference is.
fn same<T: PartialEq + Debug>(name: &str, ours: &[T], theirs: &[T], note: &str) {
    if ours != theirs {
        assert_eq!(ours.len(), theirs.len(), "{name}, {note}");
        let place = ours.iter().zip(theirs).position(|(a, b)| a != b).unwrap();
        let (a, b) = (&ours[place], &theirs[place]);
        panic!("{name} at {place}: {a:?} and {b:?}, {note}");
    }
}

/// Demands equal tracks, marks and lengths.
fn same_cylinder(ours: &Cylinder, theirs: &Cylinder, note: &str) {
    same("tracks", &ours.tracks, &theirs.tracks, note);
    same("marks", &ours.marks, &theirs.marks, note);
    same("lengths", &ours.lengths, &theirs.lengths, note);
}

/// Demands the same behind what was read: so many bytes and marks, and so many lengths.
fn same_rest(ours: &Cylinder, before: &Cylinder, sum: usize, count: usize, note: &str) {
    same(
        "behind the tracks",
        &ours.tracks[sum..],
        &before.tracks[sum..],
        note,
    );
    same(
        "behind the marks",
        &ours.marks[sum..],
        &before.marks[sum..],
        note,
    );
    same(
        "behind the lengths",
        &ours.lengths[count..],
        &before.lengths[count..],
        note,
    );
}

/// What the reference answers and gives, in the wrapper's type; a refusal has place 0 and gives nothing.
fn given((done, count): (reference::Answer, usize)) -> Result<usize, Answer> {
    match expected(done) {
        Answer::DONE => Ok(count),
        refusal => {
            assert_eq!((refusal, count), (answer(refusal.number, 0), 0));
            Err(refusal)
        }
    }
}

/// The answer of a call.
fn answer_of<T>(done: &Result<T, Answer>) -> Answer {
    done.as_ref().err().copied().unwrap_or(Answer::DONE)
}

/// Read cylinder by both, into buffers of equal noise, which stays behind what is read, and whole where it is refused; gives what was read.
fn read_by_both(file: &[u8], before: &Cylinder, note: &str) -> Result<Cylinder, Answer> {
    let (mut ours, mut theirs) = (before.clone(), before.clone());
    let (a, b) = (&mut ours, &mut theirs);
    let done = station::read_cylinder(file, &mut a.tracks, &mut a.marks, &mut a.lengths);
    let expected = reference::read_cylinder(file, &mut b.tracks, &mut b.marks, &mut b.lengths);
    assert_eq!(done, given(expected), "{note}");
    same_cylinder(&ours, &theirs, note);
    let count = done.unwrap_or(0);
    let sum = sum_of(&ours.lengths[..count]);
    same_rest(&ours, before, sum, count, note);
    ours.tracks.truncate(sum);
    ours.marks.truncate(sum);
    ours.lengths.truncate(count);
    judge_each(&ours);
    done.map(|_| ours)
}

/// Has each track of a cylinder judged.
fn judge_each(cylinder: &Cylinder) {
    let mut start = 0;
    for length in cylinder.lengths.iter().map(|&length| usize::from(length)) {
        let place = start..start + length;
        let _ = alike::accept(&cylinder.tracks[place.clone()], &cylinder.marks[place]);
        start += length;
    }
}

/// Write cylinder by both, into buffers of equal noise, which stays behind the file, and whole where it is refused; gives the file.
fn write_by_both(cylinder: &Cylinder, before: &[u8], note: &str) -> Result<Vec<u8>, Answer> {
    let (mut ours, mut theirs) = (before.to_vec(), before.to_vec());
    let c = cylinder;
    let done = station::write_cylinder(&c.tracks, &c.marks, &c.lengths, &mut ours);
    let expected = reference::write_cylinder(&c.tracks, &c.marks, &c.lengths, &mut theirs);
    assert_eq!(done, given(expected), "{note}");
    same("file", &ours, &theirs, note);
    let length = done.unwrap_or(0);
    same("behind the file", &ours[length..], &before[length..], note);
    ours.truncate(length);
    done.map(|_| ours)
}

/// Demands that these tracks are written to this file, with just enough room.
fn written_to(cylinder: &Cylinder, file: &[u8], seed: u64, note: &str) {
    let before = noisy_file(seed, file.len());
    let written = write_by_both(cylinder, &before, note).expect(note);
    same("file", &written, file, note);
}

/// Demands that these tracks are read from a file, with just enough room; gives them as they were read.
fn read_from(file: &[u8], cylinder: &Cylinder, seed: u64, note: &str) -> Cylinder {
    let sum = cylinder.tracks.len();
    let before = noisy_cylinder(seed, [sum, sum, cylinder.lengths.len()]);
    let read = read_by_both(file, &before, note).expect(note);
    same_cylinder(&read, cylinder, note);
    read
}

/// Buffers for any file.
fn room_for_any() -> Cylinder {
    noisy_cylinder(0, [MOST_BYTES, MOST_BYTES, MOST_TRACKS])
}

/// Read cylinder into these buffers; gives the number of its answer.
fn number_read(file: &[u8], before: &Cylinder, note: &str) -> u8 {
    answer_of(&read_by_both(file, before, note)).number
}

/// Demands each number of tracks from one to ten, each so many times.
fn each_number_of_tracks(met: &BTreeMap<usize, u64>, least: u64) {
    assert_eq!(
        met.keys().copied().collect::<Vec<_>>(),
        Vec::from_iter(1..=MOST_TRACKS)
    );
    assert!(met.values().all(|&times| times >= least), "{met:?}");
}

/// What is read writes back to the same file.
#[test]
fn read_cylinder_as_the_reference() {
    let (mut tally, mut met) = (Tally::new("read cylinder", 20_000), BTreeMap::new());
    for seed in tally.seeds() {
        let (w, note) = (wanted_read_cylinder(seed), format!("seed {seed}"));
        let before = noisy_cylinder(seed, [w.tracks_length, w.marks_length, w.lengths_count]);
        let done = read_by_both(&w.file, &before, &note);
        tally.count(answer_of(&done));
        if let Ok(read) = done {
            written_to(&read, &w.file, seed, &note);
            *met.entry(read.lengths.len()).or_default() += 1;
        }
    }
    each_number_of_tracks(&met, 50);
    tally.finish(20_000, &READ);
}

/// What is written reads back: the number of tracks, their lengths, bytes and marks.
#[test]
fn write_cylinder_as_the_reference() {
    let (mut tally, mut met) = (Tally::new("write cylinder", 20_000), BTreeMap::new());
    for seed in tally.seeds() {
        let (w, note) = (wanted_write_cylinder(seed), format!("seed {seed}"));
        let before = noisy_file(seed, w.file_length);
        let done = write_by_both(&w.cylinder, &before, &note);
        tally.count(answer_of(&done));
        if let Ok(file) = done {
            let read = read_from(&file, &w.cylinder, seed, &note);
            *met.entry(read.lengths.len()).or_default() += 1;
        }
    }
    each_number_of_tracks(&met, 50);
    tally.finish(20_000, &WRITE);
}

/// A track by Blank, with one more sector by Add where it can be added, and the last one's S, key and data.
type Written = (Track, (u8, Vec<u8>, Vec<u8>));

/// What Blank writes, if it does what is wanted.
fn blanked(w: WantedBlank) -> Option<Written> {
    let mut new = noise(w.s.into(), w.length, w.marks_length);
    let done = station::blank(&mut new.0, &mut new.1, &new_track(&w));
    done.is_done().then_some((new, (w.s, w.key, w.data)))
}

/// What Add writes, if it does what is wanted.
fn added(old: &Track, w: WantedAdd) -> Option<Written> {
    let mut new = noise(w.s.into(), old.0.len(), old.1.len());
    let done = alike::add((&old.0, &old.1), &mut new.0, &mut new.1, &new_sector(&w));
    done.is_done().then_some((new, (w.s, w.key, w.data)))
}

/// One track of a seed.
fn written(seed: u64) -> Written {
    let wanted = |nth: u64| wanted_blank(seed ^ nth << 40);
    let blank = (0..).find_map(|nth| blanked(wanted(nth)));
    let blank = blank.expect("Blank does one of these");
    let w = wanted_add(seed, &blank.0 .0, &blank.0 .1);
    added(&blank.0, w).unwrap_or(blank)
}

/// Tracks made by Blank and Add go to a file and come back, are accepted, and give each its sector's key and data.
#[test]
fn written_tracks_survive() {
    let mut tally = Tally::new("written, sent to a file and read", 1_000);
    for seed in tally.seeds() {
        let note = format!("seed {seed}");
        let count = seed % MOST_TRACKS as u64 + 1;
        let (tracks, sectors): (Vec<_>, Vec<_>) = (0..count)
            .map(|head| written(seed.wrapping_mul(10).wrapping_add(head)))
            .unzip();
        let (file, cylinder) = (cylinder_file(&tracks), cylinder_of(&tracks));
        written_to(&cylinder, &file, seed, &note);
        let read = read_from(&file, &cylinder, seed, &note);
        let mut start = 0;
        for (&length, (s, key, data)) in read.lengths.iter().zip(&sectors) {
            let part = start..start + usize::from(length);
            let track = (&read.tracks[part.clone()], &read.marks[part.clone()]);
            reads_back(track, *s, key, data, &note);
            start = part.end;
        }
        assert_eq!(start, read.tracks.len(), "{note}");
        tally.count(Answer::DONE);
    }
    tally.finish(1_000, &[0]);
}

/// Every length in range goes there and back, as the only track, the first, one between others and the last; of its last byte of marks exactly the spare bits are refused.
#[test]
fn every_length_and_its_spare_bits() {
    let (room, mut spare_counts) = (room_for_any(), BTreeSet::new());
    for length in 3_815..=4_002 {
        for (before, behind) in [(0, 0), (0, 1), (1, 1), (1, 0)] {
            let lengths = [vec![3_906; before], vec![length], vec![3_906; behind]].concat();
            let tracks = tracks_of(&lengths);
            let (mut file, cylinder) = (cylinder_file(&tracks), cylinder_of(&tracks));
            let note = format!("{lengths:?}");
            written_to(&cylinder, &file, 0, &note);
            read_from(&file, &cylinder, 0, &note);
            let spare = spare_bits(length);
            spare_counts.insert(spare);
            // A track of 3,906 bytes takes 4,395.
            let start = 4 + 6 * lengths.len() + 4_395 * before;
            let last = start + length + length.div_ceil(8) - 1;
            for bit in 0..8 {
                file[last] ^= 1 << bit;
                let number = if bit < spare { 21 } else { 0 };
                assert_eq!(
                    number_read(&file, &room, &note),
                    number,
                    "bit {bit}, {note}"
                );
                file[last] ^= 1 << bit;
            }
        }
    }
    assert_eq!(spare_counts, (0..8).collect());
}

/// Every number of tracks that a header can have, alone and with the table of one track, and every byte of the zero field.
#[test]
fn every_header() {
    let mut file = cylinder_file(&tracks_of(&[3_906]));
    let (room, mut met) = (noisy_cylinder(0, [8, 8, 2]), BTreeMap::<_, u32>::new());
    for count in 0..=0xFFFF_u16 {
        let note = format!("{count} tracks");
        file[..2].copy_from_slice(&count.to_be_bytes());
        let numbers = [4, 10].map(|length| number_read(&file[..length], &room, &note));
        *met.entry(numbers).or_default() += 1;
    }
    assert_eq!(met, [([18, 18], 65_526), ([20, 20], 10)].into());
    let room = room_for_any();
    file[..2].copy_from_slice(&[0, 1]);
    for (place, byte) in (2..4).flat_map(|place| (0..=255).map(move |byte| (place, byte))) {
        file[place] = byte;
        let wanted = if byte == 0 { 0 } else { 18 };
        let note = format!("{byte} at {place}");
        assert_eq!(number_read(&file, &room, &note), wanted, "{note}");
        file[place] = 0;
    }
}

/// Whether the first so many entries of a file's table have lengths in range.
fn in_range(file: &[u8], count: usize) -> bool {
    let mut entries = file[4..].chunks(6).take(count);
    entries.all(|entry| (3_815..=4_002).contains(&u16::from_be_bytes([entry[0], entry[1]])))
}

/// The number for a file of so many tracks that is in rule but for one bit, at this place of its header or its table.
fn number_for_bit(file: &[u8], count: usize, place: usize) -> u8 {
    let named = usize::from(file[1]);
    match (place, place.wrapping_sub(4) % 6) {
        (0 | 2 | 3, _) => 18,
        (1, _) if !(1..=MOST_TRACKS).contains(&named) => 18,
        // With more tracks than there are, bytes of the first track stand where their entries would be.
        (1, _) if !in_range(file, named) => 1,
        // The first offset is that behind a table of another length.
        (1, _) => 19,
        (_, 2..) => 19,
        _ if !in_range(file, count) => 1,
        // Another length moves the offsets behind it, and the last one the file's end.
        _ if place < 4 + 6 * (count - 1) => 19,
        _ => 20,
    }
}

/// Every bit of the header and of the table is looked at, and told by the number of its field.
#[test]
fn every_bit_of_header_and_table() {
    let (room, mut met) = (room_for_any(), BTreeMap::<_, BTreeSet<_>>::new());
    for lengths in [&[3_906][..], &[3_815, 4_002, 3_906], &[3_912; 10]] {
        let mut file = cylinder_file(&tracks_of(lengths));
        for place in 0..4 + 6 * lengths.len() {
            for bit in 0..8 {
                let note = format!("bit {bit} at {place} of {lengths:?}");
                file[place] ^= 1 << bit;
                let wanted = number_for_bit(&file, lengths.len(), place);
                assert_eq!(number_read(&file, &room, &note), wanted, "{note}");
                file[place] ^= 1 << bit;
                let field = match place {
                    0 | 1 => "number of tracks",
                    2 | 3 => "zero field",
                    _ if (place - 4) % 6 < 2 => "length",
                    _ => "offset",
                };
                met.entry(field).or_default().insert(wanted);
            }
        }
        assert_eq!(number_read(&file, &room, "as it was"), 0);
    }
    let numbers = [
        ("number of tracks", [1, 18, 19].into()),
        ("zero field", [18].into()),
        ("length", [1, 19, 20].into()),
        ("offset", [19].into()),
    ];
    assert_eq!(met, numbers.into());
}

/// Of every length that a file may be cut to or lengthened to, only its own is not refused.
#[test]
fn every_length_of_a_file() {
    let room = room_for_any();
    for lengths in [&[3_815][..], &[3_816, 3_817]] {
        let mut file = cylinder_file(&tracks_of(lengths));
        let right = file.len();
        file.extend([0; 600]);
        for length in 0..=file.len() {
            let note = format!("{length} bytes of {lengths:?}");
            let number = if length == right { 0 } else { 20 };
            assert_eq!(number_read(&file[..length], &room, &note), number, "{note}");
        }
    }
}

/// Buffers and a list next to what a file needs.
#[test]
fn rooms_at_their_edges() {
    for lengths in [&[3_815][..], &[4_002, 3_816], &[4_002; 10]] {
        let tracks = tracks_of(lengths);
        let (file, cylinder) = (cylinder_file(&tracks), cylinder_of(&tracks));
        let (sum, count) = (cylinder.tracks.len(), lengths.len());
        let (near, counts) = ([0, sum - 1, sum, sum + 1], [0, count - 1, count, count + 1]);
        let mut done = 0;
        for (tracks, marks) in near.iter().flat_map(|&a| near.map(|b| (a, b))) {
            for list in counts {
                let note = format!("{tracks}, {marks}, {list} for {sum}, {count}");
                let read = read_by_both(&file, &noisy_cylinder(1, [tracks, marks, list]), &note);
                let enough = tracks >= sum && marks >= sum && list >= count;
                let number = if enough { 0 } else { 24 };
                assert_eq!(answer_of(&read), answer(number, 0), "{note}");
                done += usize::from(enough);
            }
        }
        assert_eq!(done, 8);
        for room in [0, 3, 4, sum, file.len() - 1, file.len(), file.len() + 1] {
            let note = format!("room of {room} for {}", file.len());
            let written = write_by_both(&cylinder, &noisy_file(1, room), &note);
            let number = if room >= file.len() { 0 } else { 24 };
            assert_eq!(answer_of(&written), answer(number, 0), "{note}");
        }
    }
}

/// Lists of any number of lengths, each length next to the range, and slices next to the sum.
#[test]
fn lists_and_slices_at_their_edges() {
    let (room, file_room) = (room_for_any(), noisy_file(2, 60_000));
    let number = |cylinder: &Cylinder, note: &str| {
        answer_of(&write_by_both(cylinder, &file_room, note)).number
    };
    for count in (0..=12).chain([255, 256, 257, 266, 65_535, 65_536, 65_537]) {
        let mut cylinder = cylinder_of(&tracks_of(&vec![3_906; count.min(12)]));
        cylinder.lengths.resize(count, 3_906);
        let wanted = if (1..=10).contains(&count) { 0 } else { 18 };
        assert_eq!(number(&cylinder, "count"), wanted, "{count}");
    }
    for count in [1, 2, 10] {
        for entry in 0..count {
            for (length, wanted) in [(0, 1), (3_814, 1), (3_815, 0), (4_002, 0), (4_003, 1)] {
                let mut lengths = vec![3_906; count];
                lengths[entry] = length;
                let tracks = tracks_of(&lengths);
                assert_eq!(number(&cylinder_of(&tracks), "L"), wanted, "{length}");
                // The same in a file that is laid out for it.
                let file = cylinder_file(&tracks);
                assert_eq!(number_read(&file, &room, "L"), wanted, "{length}");
            }
        }
        let right = cylinder_of(&tracks_of(&vec![3_906; count]));
        let sum = 3_906 * count;
        let near = [0, sum - 1, sum, sum + 1, sum + 3_906];
        for (tracks, marks) in near.iter().flat_map(|&a| near.map(|b| (a, b))) {
            let mut cylinder = right.clone();
            cylinder.tracks.resize(tracks, 0);
            cylinder.marks.resize(marks, 0);
            let wanted = u8::from((tracks, marks) != (sum, sum));
            assert_eq!(number(&cylinder, "slices"), wanted, "{tracks} {marks}");
        }
    }
}

/// A mark out of rule at every place of two tracks, and every value of one mark.
#[test]
fn marks_out_of_rule() {
    let mut cylinder = cylinder_of(&tracks_of(&[3_815, 3_816]));
    let room = noisy_file(3, LONGEST_FILE);
    let places = (0..cylinder.marks.len()).map(|place| (place, 2));
    for (place, mark) in places.chain((0..=255).map(|mark| (3_815, mark))) {
        let old = std::mem::replace(&mut cylinder.marks[place], mark);
        let note = format!("mark {mark} at {place}");
        let done = answer_of(&write_by_both(&cylinder, &room, &note));
        assert_eq!(done, answer(u8::from(mark > 1), 0), "{note}");
        cylinder.marks[place] = old;
    }
}

/// A file and the lengths of the buffers that are lent for it.
type Reading = (Vec<u8>, [usize; 3]);

/// One cause of a fault of a reading.
#[derive(Clone, Copy, Debug)]
enum Cause {
    /// The file gets this length.
    Length(usize),
    /// This byte stands at a place of the file.
    Byte(usize, u8),
    /// This number of two bytes stands at a place of the file.
    Two(usize, u16),
    /// This bit is set in the byte at a place of the file.
    Bit(usize, u8),
    /// The tracks (0), the marks (1) or the list (2) get this length.
    Room(usize, usize),
}
use Cause::*;

impl Cause {
    /// Puts the fault into a reading.
    fn put(self, (file, rooms): &mut Reading) {
        match self {
            Length(length) => file.resize(length, 0),
            Byte(place, byte) => file[place] = byte,
            Two(place, number) => file[place..place + 2].copy_from_slice(&number.to_be_bytes()),
            Bit(place, bit) => file[place] |= 1 << bit,
            Room(which, length) => rooms[which] = length,
        }
    }
}

/// A fault's number and its causes.
type Fault = (u8, &'static [Cause]);

/// The faults of reading in the order of the text.
///
/// They are for a file of 8,703 bytes, with tracks of 3,815 bytes at 16 and of 3,906 bytes at 4,308, one spare bit at 4,307 and six at 8,702.
const FAULTS: [Fault; 8] = [
    // The header cut short.
    (20, &[Length(0), Length(1), Length(3)]),
    // The number of tracks, and both bytes of the zero field.
    (
        18,
        &[Byte(1, 0), Byte(1, 11), Byte(0, 1), Byte(2, 1), Byte(3, 1)],
    ),
    // The table cut short.
    (20, &[Length(4), Length(15)]),
    // Both lengths.
    (
        1,
        &[
            Two(4, 3_814),
            Two(4, 4_003),
            Two(4, 0),
            Two(4, 65_535),
            Two(10, 3_814),
            Two(10, 4_003),
            Two(10, 0),
            Two(10, 65_535),
        ],
    ),
    // Both offsets: one less, one more, and with the top byte set.
    (
        19,
        &[
            Byte(9, 15),
            Byte(9, 17),
            Byte(6, 1),
            Byte(15, 0xD3),
            Byte(15, 0xD5),
            Byte(12, 1),
        ],
    ),
    // Another length.
    (20, &[Length(8_702), Length(8_704)]),
    // Each spare bit.
    (
        21,
        &[
            Bit(4_307, 0),
            Bit(8_702, 0),
            Bit(8_702, 1),
            Bit(8_702, 2),
            Bit(8_702, 3),
            Bit(8_702, 4),
            Bit(8_702, 5),
        ],
    ),
    // Both slices and the list, one less and none.
    (
        24,
        &[
            Room(0, 7_720),
            Room(0, 0),
            Room(1, 7_720),
            Room(1, 0),
            Room(2, 1),
            Room(2, 0),
        ],
    ),
];

/// A fault by one of its causes, with its place in the order.
type Caused = (usize, Cause);

/// Every fault by each of its causes.
fn all_caused() -> Vec<Caused> {
    let caused =
        |(place, (_, causes)): (usize, &Fault)| causes.iter().map(move |&cause| (place, cause));
    FAULTS.iter().enumerate().flat_map(caused).collect()
}

/// Every fault by one of its causes, in each turn by another one.
fn caused_in(turn: usize) -> Vec<Caused> {
    let caused = |(place, (_, causes)): (usize, &Fault)| (place, causes[turn % causes.len()]);
    FAULTS.iter().enumerate().map(caused).collect()
}

/// Sets of faults, each in the order of the text: each fault by each cause, each two of these, and each set of the eight by one cause each, in eight turns.
fn sets_of_faults() -> Vec<Vec<Caused>> {
    let all = all_caused();
    let mut sets: Vec<Vec<Caused>> = all.iter().map(|&one| vec![one]).collect();
    for &first in &all {
        let later = all.iter().filter(|second| first.0 < second.0);
        sets.extend(later.map(|&second| vec![first, second]));
    }
    for turn in (0..8).map(caused_in) {
        for set in 0..1_u32 << turn.len() {
            let chosen = turn.iter().filter(|(place, _)| set >> place & 1 == 1);
            sets.push(chosen.copied().collect());
        }
    }
    sets
}

/// A reading with these faults; the last one is put in first, so that each finds the bytes that it alters.
fn with_faults(right: &Reading, faults: &[Caused]) -> Reading {
    let mut reading = right.clone();
    let causes = faults.iter().rev();
    causes.for_each(|(_, cause)| cause.put(&mut reading));
    reading
}

/// Every set of faults gives the first of them.
#[test]
fn order_of_the_answers_reading() {
    let right = (
        cylinder_file(&tracks_of(&[3_815, 3_906])),
        [7_721, 7_721, 2],
    );
    let sets = sets_of_faults();
    assert_eq!(sets.len(), 39 + 647 + 8 * 256);
    for set in sets {
        let number = set.first().map_or(0, |&(place, _)| FAULTS[place].0);
        let (reading, note) = (with_faults(&right, &set), format!("{set:?}"));
        // Only another length of the file can take other faults with it.
        let others = set.len() > 1 && number != 20;
        assert!(
            !others || reading != with_faults(&right, &set[..1]),
            "{note}"
        );
        let done = read_by_both(&reading.0, &noisy_cylinder(4, reading.1), &note);
        assert_eq!(answer_of(&done), answer(number, 0), "{note}");
    }
}

/// The numbers of writing in the order of the text.
const WRITING_ORDER: [u8; 3] = [18, 1, 24];

/// Eleven lengths, with these first and last.
const fn eleven(first: usize, last: usize) -> [usize; 11] {
    let mut lengths = [3_906; 11];
    lengths[0] = first;
    lengths[10] = last;
    lengths
}

/// Lists of two, no and eleven lengths, all in range, the first one below it or the last one above it; each list with its first fault.
const LISTS: [(u8, &[usize]); 7] = [
    (0, &[3_815, 3_906]),
    (1, &[3_814, 3_906]),
    (1, &[3_815, 4_003]),
    (18, &[]),
    (18, &eleven(3_815, 3_906)),
    (18, &eleven(3_814, 3_906)),
    (18, &eleven(3_815, 4_003)),
];

/// The marks with this length: as they are, and, where there are any, with a 2 first and with a 2 last.
fn marks_with_a_two(marks: &[u8], length: usize) -> Vec<Vec<u8>> {
    let mut right = marks.to_vec();
    right.resize(length, 1);
    let mut all = vec![right.clone()];
    for place in [0, length.wrapping_sub(1)] {
        let mut wrong = right.clone();
        if let Some(mark) = wrong.get_mut(place) {
            *mark = 2;
            all.push(wrong);
        }
    }
    all
}

/// These tracks with slices next to the sum of their lengths, and with a wrong mark; each with 1 if that is a fault.
fn with_slices_near(right: &Cylinder) -> Vec<(u8, Cylinder)> {
    let sum = right.tracks.len();
    let near = || sum.saturating_sub(1)..=sum + 1;
    let mut all = vec![];
    for (length, marks_length) in near().flat_map(|a| near().map(move |b| (a, b))) {
        let mut cylinder = right.clone();
        cylinder.tracks.resize(length, 0x5A);
        for marks in marks_with_a_two(&right.marks, marks_length) {
            let fits = (length, marks_length) == (sum, sum) && !marks.contains(&2);
            let cylinder = Cylinder {
                marks,
                ..cylinder.clone()
            };
            all.push((u8::from(!fits), cylinder));
        }
    }
    all
}

/// Every combination of the faults of writing gives the first of them.
#[test]
fn order_of_the_answers_writing() {
    let mut met = BTreeMap::<_, u32>::new();
    for (list, lengths) in LISTS {
        let tracks = tracks_of(lengths);
        let length = cylinder_file(&tracks).len();
        for (slices, cylinder) in with_slices_near(&cylinder_of(&tracks)) {
            for (buffer, room) in [(24, length - 1), (0, length)] {
                let faults = [list, slices, buffer];
                let first = WRITING_ORDER.into_iter().find(|n| faults.contains(n));
                let number = first.unwrap_or(0);
                let note = format!("{faults:?}, {lengths:?}, room {room}");
                let done = write_by_both(&cylinder, &noisy_file(5, room), &note);
                assert_eq!(answer_of(&done), answer(number, 0), "{note}");
                *met.entry(number).or_default() += 1;
            }
        }
    }
    assert_eq!(met, [(0, 1), (1, 160), (18, 178), (24, 1)].into());
}
