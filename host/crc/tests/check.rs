//! The check against the reference, folded and divided, at every length up to that of the longest track and at some beyond.

use crc::check_of;
use reference::check::{check, check_by_division};
use reference::generate::Rng;
use reference::layout::LONGEST;
use std::io::Write;

/// Lengths from none to the longest track.
const LENGTHS: u64 = LONGEST as u64 + 1;
/// Kinds of bytes; at least every length with every kind is run.
const KINDS: u64 = 5;

/// A number from the environment.
fn number_from(name: &str) -> Option<u64> {
    let text = std::env::var(name).ok()?;
    let number = text.parse();
    Some(number.unwrap_or_else(|_| panic!("{name} is not a number: {text}")))
}

/// Bytes drawn from a seed: each length in turn, and each kind of bytes.
fn information(seed: u64) -> Vec<u8> {
    let mut rng = Rng::new(seed);
    let length = (seed % LENGTHS) as usize;
    let mut drawn = |values: &[u8]| (0..length).map(|_| rng.pick(values)).collect();
    match seed / LENGTHS % KINDS {
        0 => vec![0xFF; length],
        1 => drawn(&[0x00, 0xFF]),
        2 => drawn(&[0x00, 0x01, 0x80]),
        3 => lone_byte(&mut rng, length),
        _ => rng.bytes(length),
    }
}

/// Zero bytes with any byte at one place; no bytes where the length is 0.
fn lone_byte(rng: &mut Rng, length: usize) -> Vec<u8> {
    let mut bytes = vec![0; length];
    if length > 0 {
        bytes[rng.below(length)] = rng.byte();
    }
    bytes
}

/// Demands what the reference gives in both of its ways.
fn same_check(information: &[u8], note: &str) {
    let stored = check_of(information);
    assert_eq!(stored, check(information), "{note}");
    assert_eq!(stored, check_by_division(information), "{note}");
}

/// Demands the check of the bytes behind the first, with the first exclusive-ored into its half.
fn first_byte_in_its_half(information: &[u8], note: &str) {
    let (first, rest) = information.split_first().expect("a byte");
    let [high, low] = check_of(rest);
    let expected = match rest.len() % 2 {
        0 => [high, low ^ first],
        _ => [high ^ first, low],
    };
    assert_eq!(check_of(information), expected, "{note}");
}

/// Every length up to the longest track's with every kind of bytes, alone and with a byte before.
#[test]
fn check_as_the_reference() {
    let usual = KINDS * LENGTHS;
    let start = number_from("ISO3561_SEED").unwrap_or(0);
    let count = number_from("ISO3561_SOAK").unwrap_or(usual).max(usual);
    for seed in start..start + count {
        let mut longer = vec![Rng::new(!seed).byte()];
        longer.extend(information(seed));
        let note = format!("seed {seed}");
        same_check(&longer[1..], &note);
        same_check(&longer, &note);
        first_byte_in_its_half(&longer, &note);
    }
    let seeds = start..start + count;
    let line = format!(
        "check: {count} lists of bytes, each alone and with a byte before it, seeds {seeds:?}"
    );
    writeln!(std::io::stderr(), "{line}").expect("standard error takes a line");
}

/// The same beyond the longest track.
#[test]
fn check_of_long_lists() {
    for length in [65_534, 65_535, 65_536, 65_537, 1_000_001] {
        let longer = Rng::new(length).bytes(length as usize + 1);
        let note = format!("{length} bytes");
        same_check(&longer[1..], &note);
        same_check(&longer, &note);
        first_byte_in_its_half(&longer, &note);
    }
}
