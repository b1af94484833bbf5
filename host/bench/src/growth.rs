//! How the time of Accept grows with the number of sectors and with L, by the proved library and by the fast implementation.

use crate::calls::accept_ours;
use crate::compare;
use crate::fast_calls::accept_fast;
use crate::jobs::Job;
use crate::pace::{best, Tracks, TURNS};
use bench::first_written::{seven_bits, with_first, with_more};
use bench::Track;
use reference::generate::Rng;
use reference::Address;

/// Tracks of one kind that are measured together, which differ in address and data.
const TRACKS: u64 = 200;
/// L of the tracks with more and more sectors, and the data bytes of each sector.
const LENGTH: usize = 3_906;
const DATA: usize = 8;
/// Numbers of sectors.
const SECTORS: [usize; 6] = [1, 10, 20, 30, 40, 50];
/// Some L from the least to the greatest.
const LENGTHS: [usize; 5] = [3_815, 3_862, 3_906, 3_954, 4_002];
/// All of a track but the largest data that sector 0 can have.
const BUT_DATA: usize = 106;

/// An address for a seed.
fn address(seed: u64) -> Address {
    Address {
        cylinder: (seed / 10) as u16,
        head: (seed % 10) as u16,
    }
}

/// A track with so many sectors of one kind.
fn with_sectors(seed: u64, number: usize) -> Track {
    let mut rng = Rng::new(seed);
    let data = seven_bits(&mut rng, DATA);
    let first = with_first(LENGTH, address(seed), &data);
    with_more(first, &mut rng, DATA, number)
}

/// A track of this L with as much data as sector 0 can have.
fn of_length(seed: u64, length: usize) -> Track {
    let data = Rng::new(seed).bytes(length - BUT_DATA);
    with_first(length, address(seed), &data)
}

/// The times of Accept over tracks of one kind, in microseconds a track.
fn measure(track: impl Fn(u64) -> Track) -> [f64; 2] {
    let job = |seed| Job::of(seed, track(seed));
    let mut jobs: Vec<Job> = (0..TRACKS).map(job).collect();
    compare(&mut jobs, accept_ours, accept_fast);
    best(&mut jobs, Tracks::InCache, [accept_ours, accept_fast])
}

/// One line for each number of sectors.
fn measure_sectors() {
    println!("accept by the number of sectors: L {LENGTH}, {DATA} bytes of data in each");
    println!(
        "{:<28} {:>9} {:>9} {:>9}",
        "sectors", "proved", "fast", "ratio"
    );
    for number in SECTORS {
        let [proved, fast] = measure(|seed| with_sectors(seed, number));
        println!(
            "{number:<28} {proved:>9.3} {fast:>9.3} {:>9.2}",
            proved / fast
        );
    }
}

/// One line for each L.
fn measure_lengths() {
    println!("accept by L: sector 0 alone, with as much data as it can have; a byte in ns");
    println!(
        "{:<28} {:>9} {:>9} {:>9} {:>9} {:>9}",
        "L", "proved", "fast", "ratio", "a byte", "(fast)"
    );
    for length in LENGTHS {
        let [proved, fast] = measure(|seed| of_length(seed, length));
        let each = |whole: f64| whole * 1e3 / length as f64;
        println!(
            "{length:<28} {proved:>9.3} {fast:>9.3} {:>9.2} {:>9.3} {:>9.3}",
            proved / fast,
            each(proved),
            each(fast)
        );
    }
}

/// Both tables.
pub fn measure_all() {
    println!("{TRACKS} tracks of a kind, in cache, best of {TURNS} turns; track in us");
    measure_sectors();
    measure_lengths();
}
