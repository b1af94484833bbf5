//! The calls for a cylinder's file over a full pack, ten tracks to a file, beside the reference and beside a plain copy.
//!
//! The bytes that are counted are those of the file: each call goes at least once over all of them, Read cylinder from the file and Write cylinder to it.
//! The plain copy is that of one slice of the file's length to another. It moves less: in memory each mark is a byte, and the calls judge what they move.

use crate::{time, TURNS};
use reference::generate::{cylinder_file, cylinder_of, sound, Cylinder};
use std::time::Duration;

/// Cylinders of a pack.
const CYLINDERS: u64 = 203;
/// Tracks of a cylinder, which are as many as a file holds.
const TRACKS: u64 = 10;

/// One cylinder in memory and as a file, and buffers of the same lengths to write to.
struct Job {
    cylinder: Cylinder,
    file: Vec<u8>,
    new: Buffers,
}

/// What a call may write to.
#[derive(Clone, PartialEq, Eq)]
struct Buffers {
    cylinder: Cylinder,
    file: Vec<u8>,
}

/// One call on one cylinder: its answer's number, and how many tracks it read or how many bytes it wrote.
type Call = fn(&mut Job) -> (u8, usize);

/// A call's name, and the call by the proved library and by the reference.
type Row = (&'static str, Call, Call);

/// Both calls.
const CALLS: [Row; 2] = [
    ("read_cylinder", read_ours, read_theirs),
    ("write_cylinder", write_ours, write_theirs),
];

impl Job {
    /// The cylinder of a number, of sound tracks.
    fn of(number: u64) -> Job {
        let tracks: Vec<_> = (0..TRACKS)
            .map(|head| sound(TRACKS * number + head))
            .collect();
        let (cylinder, file) = (cylinder_of(&tracks), cylinder_file(&tracks));
        let new = Buffers {
            cylinder: Cylinder {
                tracks: vec![0xA5; cylinder.tracks.len()],
                marks: vec![0x5A; cylinder.marks.len()],
                lengths: vec![0x3C5A; cylinder.lengths.len()],
            },
            file: vec![0xC3; file.len()],
        };
        Job {
            cylinder,
            file,
            new,
        }
    }
}

/// What the proved library gives.
fn ours(given: Result<usize, station::Answer>) -> (u8, usize) {
    match given {
        Ok(count) => (0, count),
        Err(answer) => (answer.number, 0),
    }
}

/// Read cylinder by the proved library.
fn read_ours(job: &mut Job) -> (u8, usize) {
    let new = &mut job.new.cylinder;
    ours(station::read_cylinder(
        &job.file,
        &mut new.tracks,
        &mut new.marks,
        &mut new.lengths,
    ))
}

/// Read cylinder by the reference.
fn read_theirs(job: &mut Job) -> (u8, usize) {
    let new = &mut job.new.cylinder;
    let (answer, count) =
        reference::read_cylinder(&job.file, &mut new.tracks, &mut new.marks, &mut new.lengths);
    (answer.number, count)
}

/// Write cylinder by the proved library.
fn write_ours(job: &mut Job) -> (u8, usize) {
    let old = &job.cylinder;
    ours(station::write_cylinder(
        &old.tracks,
        &old.marks,
        &old.lengths,
        &mut job.new.file,
    ))
}

/// Write cylinder by the reference.
fn write_theirs(job: &mut Job) -> (u8, usize) {
    let old = &job.cylinder;
    let (answer, length) =
        reference::write_cylinder(&old.tracks, &old.marks, &old.lengths, &mut job.new.file);
    (answer.number, length)
}

/// A plain copy of the file's bytes.
fn copy(job: &mut Job) -> (u8, usize) {
    job.new.file.copy_from_slice(&job.file);
    (0, job.file.len())
}

/// Demands that both do what is asked and give and write the same.
fn compare(jobs: &mut [Job], ours: Call, theirs: Call) {
    for (number, job) in jobs.iter_mut().enumerate() {
        let before = job.new.clone();
        let given = ours(job);
        let written = std::mem::replace(&mut job.new, before);
        assert_eq!(given, theirs(job), "cylinder {number}");
        assert_eq!(given.0, 0, "cylinder {number}");
        assert!(written == job.new, "written buffers, cylinder {number}");
    }
}

/// One line of the table.
fn measure(jobs: &mut [Job], (name, ours, theirs): Row) {
    compare(jobs, ours, theirs);
    let bytes: usize = jobs.iter().map(|job| job.file.len()).sum();
    let mut best = [Duration::MAX; 3];
    for _ in 0..TURNS {
        for (least, call) in best.iter_mut().zip([ours, theirs, copy]) {
            *least = time(jobs, call).min(*least);
        }
    }
    let [fast, other, plain] = best;
    let rate = |whole: Duration| bytes as f64 / whole.as_secs_f64() / 1e6;
    let ratio = |whole: Duration| fast.as_secs_f64() / whole.as_secs_f64();
    println!(
        "{name:<28} {:>9.1} {:>9.1} {:>9.1} {:>9.2} {:>7.2}",
        rate(fast),
        rate(other),
        rate(plain),
        ratio(other),
        ratio(plain)
    );
}

/// One line for each call.
pub fn measure_all() {
    println!("{CYLINDERS} files of {TRACKS} tracks, best of {TURNS} turns; the file's bytes in millions a second, ratios of the times");
    println!(
        "{:<28} {:>9} {:>9} {:>9} {:>9} {:>7}",
        "", "MB/s", "(ref.)", "(copy)", "to ref.", "to copy"
    );
    let mut jobs: Vec<_> = (0..CYLINDERS).map(Job::of).collect();
    for row in CALLS {
        measure(&mut jobs, row);
    }
}
