//! The check alone, over information of a few lengths, beside that of the reference.

use crate::TURNS;
use reference::generate::Rng;
use std::hint::black_box;
use std::time::{Duration, Instant};

/// How many bytes: a count's, and those of three data blocks.
const LENGTHS: [usize; 4] = [9, 80, 1_000, 3_800];
/// How many lists of bytes of each length.
const LISTS: u64 = 64;
/// At most so many bytes are gone through in each turn.
const BYTES: usize = 16_000_000;

/// The check as it is stored.
type Check = fn(&[u8]) -> [u8; 2];

/// The time of one turn over the lists.
fn time(lists: &[Vec<u8>], rounds: usize, check: Check) -> Duration {
    let start = Instant::now();
    for _ in 0..rounds {
        for list in lists {
            black_box(check(black_box(list)));
        }
    }
    start.elapsed()
}

/// One line of the table.
fn measure(length: usize) {
    let (ours, theirs): (Check, Check) = (crc::check_of, reference::check::check);
    let lists: Vec<_> = (0..LISTS)
        .map(|seed| Rng::new(seed).bytes(length))
        .collect();
    for list in &lists {
        assert_eq!(ours(list), theirs(list), "{length} bytes");
    }
    let rounds = BYTES / (length * lists.len());
    let (mut fast, mut other) = (Duration::MAX, Duration::MAX);
    for _ in 0..TURNS {
        fast = fast.min(time(&lists, rounds, black_box(ours)));
        other = other.min(time(&lists, rounds, black_box(theirs)));
    }
    let each = |whole: Duration| whole.as_secs_f64() * 1e9 / (rounds * lists.len()) as f64;
    println!(
        "{:<28} {:>29.1} {:>9.1} {:>7.2}",
        format!("check, {length} bytes"),
        each(fast),
        each(other),
        fast.as_secs_f64() / other.as_secs_f64()
    );
}

/// One line for each length.
pub fn measure_all() {
    println!("the check alone, best of {TURNS} turns of at most {BYTES} bytes; call in ns");
    println!("{:<28} {:>29} {:>9} {:>7}", "", "call", "(ref.)", "ratio");
    LENGTHS.into_iter().for_each(measure);
}
