//! What stands on a track, what is asked for by hand, and the lengths that the layout and the gap rules give.

use super::{alike, lent, new_sector, noise, Track};
use reference::generate::{WantedAdd, WantedCorrect};
use reference::GapRule;
use station::{Address, Answer, Candidate, Lent, NewTrack, Sector, Wanted};

/// More sectors than any track holds.
pub const MANY: usize = 300;

/// Flag, number, key and data of a sector.
pub type Contents = (u8, u8, Vec<u8>, Vec<u8>);

/// The contents of every sector from left to right.
pub fn contents((track, marks): Lent) -> Vec<Contents> {
    let contents_of = |step: Result<Candidate, Answer>| {
        let Candidate { flag, s, .. } = step.expect("a written track can be walked");
        let found = |wanted| alike::find(track, marks, s, wanted).expect("a sound sector");
        let (key, data) = (found(Wanted::Key), found(Wanted::Data));
        (flag, s, key.to_vec(), data.to_vec())
    };
    let steps = alike::candidates(track, marks).take(MANY);
    steps.map(contents_of).collect()
}

/// The same sectors with one key and data replaced.
pub fn with_body(mut sectors: Vec<Contents>, w: &WantedCorrect) -> Vec<Contents> {
    for sector in sectors.iter_mut().filter(|sector| sector.1 == w.s) {
        (sector.2, sector.3) = (w.key.clone(), w.data.clone());
    }
    sectors
}

/// The sectors of an accepted track.
pub fn sectors_of(track: &Track, note: &str) -> Vec<Sector> {
    let sectors = station::list(&track.0, &track.1);
    sectors.unwrap_or_else(|refused| panic!("{refused}, {note}"))
}

/// The contents of these sectors of a track.
pub fn contents_of(track: &Track, sectors: &[Sector]) -> Vec<Contents> {
    let contents_of = |sector: &Sector| {
        let key = &track.0[sector.key_place..][..sector.kl.into()];
        let data = &track.0[sector.data_place..][..sector.dl.into()];
        (sector.flag, sector.s, key.to_vec(), data.to_vec())
    };
    sectors.iter().map(contents_of).collect()
}

/// Rule two in short.
pub fn two(a: u16, b: u16) -> GapRule {
    GapRule::Two { a, b }
}

/// Bytes of a first-written sector from its opening to its block's end.
pub fn sector_length(first: bool, kl: usize, dl: usize) -> usize {
    let count = if first { 18 } else { 20 };
    let key = if kl == 0 { 0 } else { 11 + 9 + kl };
    let block = if dl == 0 { 7 } else { 9 + dl };
    count + key + 11 + block
}

/// The gap that a rule sets behind a block with so many bytes of key and data.
pub fn rule_gap(rule: GapRule, kl: usize, dl: usize) -> usize {
    match rule {
        GapRule::One => 21 + (kl + dl) / 20,
        GapRule::Two { a, b } => 21 + (kl + dl) * usize::from(a) / usize::from(b),
    }
}

/// A sector without B7 to be added by rule one.
pub fn wanted_sector(s: u8, kl: usize, dl: usize) -> WantedAdd {
    WantedAdd {
        b7: 0,
        s,
        key: vec![0x41; kl],
        data: vec![0x42; dl],
        rule: GapRule::One,
    }
}

/// A key and data for a sector by rule one.
pub fn wanted_body(s: u8, kl: usize, dl: usize) -> WantedCorrect {
    WantedCorrect {
        s,
        key: vec![0x41; kl],
        data: vec![0x42; dl],
        rule: GapRule::One,
    }
}

/// One more sector by the wrapper.
fn with_added(old: &Track, w: &WantedAdd) -> Track {
    let mut new = noise(5, old.0.len(), old.1.len());
    let done = alike::add(lent(old), &mut new.0, &mut new.1, &new_sector(w));
    assert_eq!(done, Answer::DONE);
    new
}

/// Cylinder 100, head 7: sector 0 with eight zero bytes, sector 1 with a key of three and 80 bytes, sector 2 without both.
pub fn worked() -> Track {
    let mut first = noise(4, 3_906, 3_906);
    let wanted = NewTrack {
        address: Address {
            cylinder: 100,
            head: 7,
        },
        data: &[0; 8],
        ..NewTrack::default()
    };
    let done = station::blank(&mut first.0, &mut first.1, &wanted);
    assert_eq!(done, Answer::DONE);
    let two = with_added(&first, &wanted_sector(1, 3, 80));
    with_added(&two, &wanted_sector(2, 0, 0))
}
