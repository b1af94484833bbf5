//! The calls over the packs in files, beside the fast implementation; Accept also beside one plain pass over bytes and marks.

use crate::calls::{accept_ours, add_ours, correct_ours, find_ours, Call};
use crate::fast_calls::{accept_fast, add_fast, correct_fast, find_fast, pass};
use crate::jobs::Job;
use crate::walks::{steps_fast, steps_ours, walk_fast, walk_ours};
use crate::{compare, time};
use bench::packs::{read, KINDS};
use std::path::Path;
use std::time::{Duration, Instant};

/// Turns of each.
pub const TURNS: usize = 30;
/// Tracks whose times are taken together, as many as a cylinder has; so another program on the machine spoils few of them.
const PIECE: usize = 10;
/// From so many turns on a call that takes long gets no more, when so much time is gone.
const LEAST_TURNS: usize = 7;
const ENOUGH: Duration = Duration::from_millis(1_500);

/// A call's name, and the call by the proved library and by the fast implementation.
type Row = (&'static str, Call, Call);

/// The calls besides Accept.
const CALLS: [Row; 5] = [
    ("find", find_ours, find_fast),
    ("walk", walk_ours, walk_fast),
    ("walk by single calls", steps_ours, steps_fast),
    ("correct", correct_ours, correct_fast),
    ("add", add_ours, add_fast),
];

/// Whether a call's tracks were last read a turn before, or right before by an untimed call, so that the time says nothing of memory.
#[derive(Clone, Copy, PartialEq, Eq)]
pub enum Tracks {
    FromMemory,
    InCache,
}

/// The time of each call over the tracks, in microseconds a track: they take turns over all tracks, and of every ten tracks the least time counts.
pub fn best<const N: usize>(jobs: &mut [Job], tracks: Tracks, calls: [Call; N]) -> [f64; N] {
    let start = Instant::now();
    let mut best = calls.map(|_| vec![Duration::MAX; jobs.len().div_ceil(PIECE)]);
    for turn in 0..TURNS {
        if turn >= LEAST_TURNS && start.elapsed() > ENOUGH {
            break;
        }
        for (times, call) in best.iter_mut().zip(calls) {
            for (least, piece) in times.iter_mut().zip(jobs.chunks_mut(PIECE)) {
                if tracks == Tracks::InCache {
                    time(piece, call);
                }
                *least = time(piece, call).min(*least);
            }
        }
    }
    let whole = best.map(|times| times.iter().sum::<Duration>());
    whole.map(|time| time.as_secs_f64() * 1e6 / jobs.len() as f64)
}

/// The line of Accept over a pack.
fn measure_accept(name: String, jobs: &mut [Job], tracks: Tracks) {
    compare(jobs, accept_ours, accept_fast);
    let [proved, fast, plain] = best(jobs, tracks, [accept_ours, accept_fast, pass]);
    println!(
        "{name:<28} {proved:>9.3} {fast:>9.3} {:>9.2} {plain:>9.3} {:>9.2} {:>9.2}",
        proved / fast,
        proved / plain,
        fast / plain
    );
}

/// The line of another call over a pack.
fn measure(kind: &str, jobs: &mut [Job], (name, ours, theirs): Row) {
    compare(jobs, ours, theirs);
    let [proved, fast] = best(jobs, Tracks::FromMemory, [ours, theirs]);
    println!(
        "{:<28} {proved:>9.3} {fast:>9.3} {:>9.2}",
        format!("{name}, {kind}"),
        proved / fast
    );
}

/// The pack in the file of a kind, with what is asked of each track.
fn jobs_of(folder: &Path, kind: &str) -> Vec<Job> {
    let tracks = read(folder, kind).unwrap_or_else(|error| {
        panic!("the pack {kind} in {}: {error}", folder.display());
    });
    let seeds = 0..;
    let jobs = seeds.zip(tracks).map(|(seed, track)| Job::of(seed, track));
    jobs.collect()
}

/// One line for each pack and call.
pub fn measure_all(folder: &Path) {
    println!("drive's pace: the packs in files, of every {PIECE} tracks the best of at most {TURNS} turns; track in us, ratios of the times");
    println!(
        "{:<28} {:>9} {:>9} {:>9} {:>9} {:>9} {:>9}",
        "", "proved", "fast", "to fast", "(pass)", "to pass", "(fast)"
    );
    let mut packs = KINDS.map(|kind| (kind, jobs_of(folder, kind)));
    for (kind, jobs) in &mut packs {
        measure_accept(format!("accept, {kind}"), jobs, Tracks::FromMemory);
    }
    for (kind, jobs) in &mut packs {
        measure_accept(format!("accept, {kind}, in cache"), jobs, Tracks::InCache);
    }
    for row in CALLS {
        for (kind, jobs) in &mut packs {
            measure(kind, jobs, row);
        }
    }
}
