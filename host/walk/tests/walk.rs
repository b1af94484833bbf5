//! A walk from its start against the reference, step by step, on sound, damaged and jumbled tracks.

use reference::generate::{damaged, jumbled, sound, spoiled};
use std::io::Write;
use walk::{nth_candidate, Candidate};

/// Seeds of a usual run.
const USUAL: u64 = 2_000;
/// Steps behind the last candidate that are compared too.
const MORE: usize = 2;

/// A number from the environment.
fn number_from(name: &str) -> Option<u64> {
    let text = std::env::var(name).ok()?;
    let number = text.parse();
    Some(number.unwrap_or_else(|_| panic!("{name} is not a number: {text}")))
}

/// A track drawn from a seed: each kind in turn, and now and then a mark that is neither 0 nor 1.
fn track_of(seed: u64) -> (Vec<u8>, Vec<u8>) {
    let (track, mut marks) = match seed % 4 {
        0 => sound(seed),
        1 => damaged(seed),
        2 => spoiled(seed),
        _ => jumbled(seed),
    };
    if seed % 37 == 0 {
        let place = seed as usize % marks.len();
        marks[place] = 2;
    }
    (track, marks)
}

/// Demands what the reference gives at every step, up to some behind the first refusal; how many steps were compared.
fn same_walk(track: &[u8], marks: &[u8], note: &str) -> usize {
    let mut walk = reference::Walk::new(track, marks);
    let (mut n, mut refused) = (0, 0);
    while refused <= MORE {
        let theirs = walk.step().map(|c| Candidate {
            place: c.place,
            flag: c.flag,
            s: c.s,
            kl: c.kl,
            dl: c.dl,
        });
        let theirs = theirs.map_err(|answer| answer.number);
        assert_eq!(nth_candidate(track, marks, n), theirs, "step {n}, {note}");
        refused += usize::from(theirs.is_err());
        n += 1;
    }
    n
}

/// Every step of a walk over each track.
#[test]
fn walk_as_the_reference() {
    let start = number_from("ISO3561_SEED").unwrap_or(0);
    let count = number_from("ISO3561_SOAK").unwrap_or(USUAL).max(USUAL);
    let seeds = start..start + count;
    let steps: usize = seeds
        .clone()
        .map(|seed| {
            let (track, marks) = track_of(seed);
            same_walk(&track, &marks, &format!("seed {seed}"))
        })
        .sum();
    let line = format!("walk from its start: {steps} steps, seeds {seeds:?}");
    writeln!(std::io::stderr(), "{line}").expect("standard error takes a line");
}
