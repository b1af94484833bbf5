//! Seeds, tallies, buffers and wanted fields of the comparisons; each test file uses a part.
#![allow(dead_code)]

pub mod alike;
pub mod bursts;
pub mod by_both;
pub mod sectors;

use reference::generate::{
    damaged, jumbled, sound, spoiled, Rng, WantedAdd, WantedBlank, WantedCorrect,
};
use station::{Address, Answer, Fault, GapRule, Lent, NewBody, NewSector, NewTrack, Wanted};
use std::collections::{BTreeMap, BTreeSet};
use std::io::Write;
use std::ops::Range;

/// Bytes and marks of one track.
pub type Track = (Vec<u8>, Vec<u8>);

/// The seeds of one comparison, and how often each answer number with its second number was met.
pub struct Tally {
    name: &'static str,
    seeds: Range<u64>,
    met: BTreeMap<(u8, u8), u64>,
}

impl Tally {
    /// The usual seeds from 0 on; ISO3561_SEED names another start, ISO3561_SOAK a greater count.
    pub fn new(name: &'static str, usual: u64) -> Tally {
        let count = number_from("ISO3561_SOAK").unwrap_or(usual).max(usual);
        Tally::fixed(name, count)
    }

    /// So many seeds, in long runs too.
    pub fn fixed(name: &'static str, count: u64) -> Tally {
        let start = number_from("ISO3561_SEED").unwrap_or(0);
        let seeds = start..start + count;
        println!("{name}: seeds {seeds:?}");
        Tally {
            name,
            seeds,
            met: BTreeMap::new(),
        }
    }

    /// The seeds to go through.
    pub fn seeds(&self) -> Range<u64> {
        self.seeds.clone()
    }

    /// One more call that gave this answer.
    pub fn count(&mut self, answer: Answer) {
        let second = answer.fault.map_or(0, Fault::number);
        *self.met.entry((answer.number, second)).or_default() += 1;
    }

    /// How many calls were counted.
    fn calls(&self) -> u64 {
        self.met.values().sum()
    }

    /// The summary line, shown even if the test passes.
    fn summary(&self) -> String {
        let mut line = format!(
            "{}: {} calls, seeds {:?},",
            self.name,
            self.calls(),
            self.seeds
        );
        for (&(number, second), times) in &self.met {
            line += &format!(" {}:{times}", dotted(number, second));
        }
        line
    }

    /// Demands so many calls, and that exactly these numbers were met, 10 and 11 with each of their second numbers.
    pub fn finish(self, least_calls: u64, numbers: &[u8]) {
        let summary = self.summary();
        writeln!(std::io::stderr(), "{summary}").expect("standard error takes a line");
        assert!(self.calls() >= least_calls, "too few calls: {summary}");
        let wanted: BTreeSet<_> = numbers.iter().flat_map(|&n| with_seconds(n)).collect();
        let met: BTreeSet<_> = self.met.keys().copied().collect();
        let (missing, odd) = (&wanted - &met, &met - &wanted);
        assert!(missing.is_empty(), "not met: {missing:?}, {summary}");
        assert!(odd.is_empty(), "not expected: {odd:?}, {summary}");
    }
}

/// A number with each second number that goes with it.
fn with_seconds(number: u8) -> Vec<(u8, u8)> {
    match number {
        10 | 11 => vec![(number, 1), (number, 2), (number, 3)],
        _ => vec![(number, 0)],
    }
}

/// A number, and the second number behind a dot where there is one.
fn dotted(number: u8, second: u8) -> String {
    match second {
        0 => number.to_string(),
        _ => format!("{number}.{second}"),
    }
}

/// An answer as the programs print it, without its place.
pub fn told(answer: Answer) -> String {
    dotted(answer.number, answer.fault.map_or(0, Fault::number))
}

/// A number from the environment.
fn number_from(name: &str) -> Option<u64> {
    let text = std::env::var(name).ok()?;
    let number = text.parse();
    Some(number.unwrap_or_else(|_| panic!("{name} is not a number: {text}")))
}

/// The reference's answer in the wrapper's type.
pub fn expected(answer: reference::Answer) -> Answer {
    let fault = match answer.fault {
        0 => None,
        1 => Some(Fault::Opening),
        2 => Some(Fault::Check),
        3 => Some(Fault::Closing),
        other => panic!("no second number: {other}"),
    };
    Answer {
        number: answer.number,
        fault,
        place: answer.place,
    }
}

/// An answer in short, without a fault.
pub fn answer(number: u8, place: usize) -> Answer {
    Answer {
        number,
        fault: None,
        place,
    }
}

/// One of four tracks is sound, one of eight is sound but for a block, and one of eight is jumbled.
pub fn any_track(seed: u64) -> Track {
    match seed % 8 {
        0 | 4 => sound(seed),
        6 => spoiled(seed),
        7 => jumbled(seed),
        _ => damaged(seed),
    }
}

/// Both slices of a track.
pub fn lent(track: &Track) -> Lent<'_> {
    (&track.0, &track.1)
}

/// Two buffers full of noise.
pub fn noise(seed: u64, track_length: usize, marks_length: usize) -> Track {
    let mut rng = Rng::new(seed ^ 0x4015_E000);
    (rng.bytes(track_length), rng.bytes(marks_length))
}

/// Demands equal buffers; says where the first difference is.
pub fn same_buffers(ours: &Track, theirs: &Track, note: &str) {
    for (name, a, b) in [("track", &ours.0, &theirs.0), ("marks", &ours.1, &theirs.1)] {
        assert_eq!(a.len(), b.len(), "{name}, {note}");
        if let Some(place) = (0..a.len()).find(|&place| a[place] != b[place]) {
            panic!("{name} at {place}: {} and {}, {note}", a[place], b[place]);
        }
    }
}

/// Demands that a written track is accepted and gives back what one sector got.
pub fn reads_back((track, marks): Lent, s: u8, key: &[u8], data: &[u8], note: &str) {
    assert_eq!(alike::accept(track, marks), Answer::DONE, "{note}");
    let found = |wanted| alike::find(track, marks, s, wanted);
    assert_eq!(found(Wanted::Key), Ok(key), "{note}");
    assert_eq!(found(Wanted::Data), Ok(data), "{note}");
}

/// The wrapper's form of an address.
fn address(from: reference::Address) -> Address {
    Address {
        cylinder: from.cylinder,
        head: from.head,
    }
}

/// The wrapper's form of a wanted track.
pub fn new_track(w: &WantedBlank) -> NewTrack<'_> {
    NewTrack {
        address: address(w.address),
        flag: w.flag,
        partner: address(w.partner),
        sector: w.s,
        key: &w.key,
        data: &w.data,
    }
}

/// The wrapper's form of a gap rule.
pub fn gap_rule(rule: reference::GapRule) -> GapRule {
    match rule {
        reference::GapRule::One => GapRule::One,
        reference::GapRule::Two { a, b } => GapRule::Two { a, b },
    }
}

/// The wrapper's form of a wanted sector.
pub fn new_sector(w: &WantedAdd) -> NewSector<'_> {
    NewSector {
        b7: w.b7,
        sector: w.s,
        key: &w.key,
        data: &w.data,
        rule: gap_rule(w.rule),
    }
}

/// The wrapper's form of a correction.
pub fn new_body(w: &WantedCorrect) -> NewBody<'_> {
    NewBody {
        sector: w.s,
        key: &w.key,
        data: &w.data,
        rule: gap_rule(w.rule),
    }
}
