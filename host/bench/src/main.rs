//! Times of Accept, List, Find, Add, Correct, From cells, To cells, Read cylinder and Write cylinder over a full pack, and of the check alone, beside those of the reference;
//! times of Accept, Find, Walk, Correct and Add over the packs in files beside those of the fast implementation.
//!
//! Both get the same tracks in the same buffers, as they come and uncleared, and take turns within one run.

mod calls;
mod checks;
mod cylinders;
mod fast_calls;
mod growth;
mod jobs;
mod pace;
mod walks;

use bench::packs::PACK;
use calls::*;
use jobs::{pack, spoil_cells, Generator, Job};
use reference::generate::{damaged, sound};
use std::hint::black_box;
use std::path::PathBuf;
use std::time::{Duration, Instant};

/// Turns of each; the fastest one counts.
const TURNS: usize = 7;

/// A call's name, and the call by the proved library and by the reference.
type Row = (&'static str, Call, Call);

/// The calls on bytes and marks.
const TRACK_CALLS: [Row; 7] = [
    ("accept", accept_ours, accept_theirs),
    ("list", list_ours, list_theirs),
    ("find", find_ours, find_theirs),
    ("add", add_ours, add_theirs),
    ("add by rule two", add_two_ours, add_two_theirs),
    ("correct", correct_ours, correct_theirs),
    ("correct by rule two", correct_two_ours, correct_two_theirs),
];
/// The calls for bit cells.
const CELL_CALLS: [Row; 2] = [
    ("from_cells", from_cells_ours, from_cells_theirs),
    ("to_cells", to_cells_ours, to_cells_theirs),
];

/// The time of one call over a whole pack, of tracks or of cylinders.
fn time<J, R>(jobs: &mut [J], call: fn(&mut J) -> R) -> Duration {
    let start = Instant::now();
    for job in jobs {
        black_box(call(black_box(job)));
    }
    start.elapsed()
}

/// Demands the same outcomes and the same written bytes, marks, rows and bit cells.
fn compare(jobs: &mut [Job], ours: Call, theirs: Call) {
    for (seed, job) in jobs.iter_mut().enumerate() {
        let before = job.new.clone();
        let outcome = ours(job);
        let written = std::mem::replace(&mut job.new, before);
        assert_eq!(outcome, theirs(job), "seed {seed}");
        assert!(written == job.new, "written buffers, seed {seed}");
    }
}

/// One line of the table.
fn measure(kind: &str, jobs: &mut [Job], (name, ours, theirs): Row) {
    compare(jobs, ours, theirs);
    let (mut fast, mut other) = (Duration::MAX, Duration::MAX);
    for _ in 0..TURNS {
        fast = fast.min(time(jobs, ours));
        other = other.min(time(jobs, theirs));
    }
    let each = |whole: Duration| whole.as_secs_f64() * 1e6 / PACK as f64;
    println!(
        "{:<28} {:>9.2} {:>9.2} {:>9.2} {:>9.2} {:>7.2}",
        format!("{name}, {kind}"),
        fast.as_secs_f64() * 1e3,
        other.as_secs_f64() * 1e3,
        each(fast),
        each(other),
        fast.as_secs_f64() / other.as_secs_f64()
    );
}

/// One line for each of these calls.
fn measure_all(kind: &str, jobs: &mut [Job], rows: &[Row]) {
    for &row in rows {
        measure(kind, jobs, row);
    }
}

/// The calls over a pack of each kind, beside the reference.
fn measure_beside_reference() {
    println!(
        "{PACK} tracks, best of {TURNS} turns; pack in ms, track in us, ratio proved to reference"
    );
    println!(
        "{:<28} {:>9} {:>9} {:>9} {:>9} {:>7}",
        "", "pack", "(ref.)", "track", "(ref.)", "ratio"
    );
    let packs: [(&str, Generator); 2] = [("sound", sound), ("damaged", damaged)];
    for (kind, generator) in packs {
        measure_all(kind, &mut pack(generator), &TRACK_CALLS);
    }
    let mut jobs = pack(sound);
    measure_all("sound", &mut jobs, &CELL_CALLS);
    spoil_cells(&mut jobs);
    measure_all("damaged", &mut jobs, &CELL_CALLS);
}

fn main() {
    let folder = std::env::args().nth(1);
    let folder = PathBuf::from(folder.unwrap_or("../build/packs".into()));
    pace::measure_all(&folder);
    growth::measure_all();
    measure_beside_reference();
    cylinders::measure_all();
    checks::measure_all();
}
