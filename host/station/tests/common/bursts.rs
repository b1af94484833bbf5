//! Information with its check on a track, patterns of bits to alter in it, and what Accept and Find give of the altered track.

use super::sectors::sectors_of;
use super::{alike, expected, lent, Track};
use reference::generate::Rng;
use reference::Part;
use station::{Answer, Fault, Lent, Wanted};
use std::collections::BTreeSet;

/// What a field belongs to.
#[derive(Clone, Copy, PartialEq, Eq, PartialOrd, Ord, Debug)]
pub enum Kind {
    Home,
    Count,
    Key,
    Data,
}

/// A field of a track: its information bytes and the two check bytes behind them; the closing byte is left out, as no burst reaches it.
#[derive(Clone, Copy, Debug)]
pub struct Field {
    pub kind: Kind,
    /// The number of its sector; home goes with the first one.
    pub s: u8,
    pub opening: usize,
    /// Where the information starts.
    pub place: usize,
    /// How many bytes of information it has.
    pub length: usize,
}

impl Field {
    /// How many bits it has; the first is the top bit of its first byte.
    pub fn bits(&self) -> usize {
        8 * (self.length + 2)
    }

    /// Accept's answer where its check is wrong and nothing else.
    pub fn refusal(&self) -> Answer {
        let (number, fault) = match self.kind {
            Kind::Home => (3, None),
            Kind::Count => (7, None),
            Kind::Key => (10, Some(Fault::Check)),
            Kind::Data => (11, Some(Fault::Check)),
        };
        Answer {
            number,
            fault,
            place: self.opening,
        }
    }
}

/// From home's opening to the one of sector 0's count.
pub const HOME_TO_COUNT: usize = 25;

/// The fields of an accepted track: home, and of each sector its count, its key if it has one and its data block unless that is empty.
pub fn fields_of(track: &Track) -> Vec<Field> {
    let sectors = sectors_of(track, "a track to be altered");
    let counts = alike::candidates(&track.0, &track.1).flatten();
    let mut fields = Vec::new();
    for (index, (count, sector)) in counts.zip(&sectors).enumerate() {
        let (home, opening) = match index {
            0 => (Some(count.place - HOME_TO_COUNT), 6),
            _ => (None, 8),
        };
        let (kl, dl) = (sector.kl.into(), sector.dl.into());
        let home = home.map(|home| (Kind::Home, home, home + 6, 5));
        let count = (Kind::Count, count.place, count.place + opening, 9);
        let key = (kl > 0).then(|| (Kind::Key, sector.key_place - 6, sector.key_place, kl));
        let data = (dl > 0).then(|| (Kind::Data, sector.data_place - 6, sector.data_place, dl));
        for (kind, opening, place, length) in [home, Some(count), key, data].into_iter().flatten() {
            fields.push(Field {
                kind,
                s: sector.s,
                opening,
                place,
                length,
            });
        }
    }
    fields
}

/// How many bits from the highest to the lowest 1 of a pattern, both counted; a pattern is odd.
pub fn width(pattern: u32) -> usize {
    (32 - pattern.leading_zeros()) as usize
}

/// The bits to alter in a field: the highest 1 of the pattern stands for the bit at the start, the lowest for the last altered bit.
#[derive(Clone, Copy, Debug)]
pub struct Change {
    pub field: Field,
    pub start: usize,
    pub pattern: u32,
}

impl Change {
    /// The bits of the field that are altered.
    pub fn bits(&self) -> impl Iterator<Item = usize> {
        let Change { start, pattern, .. } = *self;
        let last = start + width(pattern) - 1;
        (start..=last).filter(move |bit| pattern >> (last - bit) & 1 == 1)
    }

    /// Alters these bits; a second time restores the track.
    pub fn apply(&self, track: &mut [u8]) {
        for bit in self.bits() {
            track[self.field.place + bit / 8] ^= 0x80 >> (bit % 8);
        }
    }
}

/// Each of these patterns at each start where it lies in the field.
pub fn changes(field: Field, patterns: &[u32]) -> impl Iterator<Item = Change> + '_ {
    let starts = move |pattern| 0..=field.bits() - width(pattern);
    patterns.iter().flat_map(move |&pattern| {
        starts(pattern).map(move |start| Change {
            field,
            start,
            pattern,
        })
    })
}

/// All patterns of one bit, of two bits and of a width up to `up_to`; of each greater width up to sixteen the one of ones alone, and `random` others.
pub fn patterns(up_to: usize, random: usize) -> Vec<u32> {
    let mut patterns: BTreeSet<u32> = (0..16).map(|distance| 1 << distance | 1).collect();
    patterns.extend((1..1 << up_to).step_by(2));
    let mut rng = Rng::new(0xB175);
    for wide in up_to + 1..=16 {
        patterns.insert((1 << wide) - 1);
        let wanted = patterns.len() + random;
        while patterns.len() < wanted {
            let between = rng.below(1 << (wide - 2)) as u32;
            patterns.insert(1 << (wide - 1) | between << 1 | 1);
        }
    }
    patterns.into_iter().collect()
}

/// Accept's answer, which is that of the reference.
pub fn accepted((track, marks): Lent, change: Change) -> Answer {
    let ours = alike::accept(track, marks);
    let theirs = reference::accept(track, marks);
    assert_eq!(ours, expected(theirs), "{change:?}");
    ours
}

/// What Find gives, which is that of the reference.
pub fn found<'t>(
    (track, marks): Lent<'t>,
    s: u8,
    wanted: Wanted,
    change: Change,
) -> Result<&'t [u8], Answer> {
    let part = match wanted {
        Wanted::Key => Part::Key,
        Wanted::Data => Part::Data,
    };
    let ours = alike::find(track, marks, s, wanted);
    let theirs = match reference::find(track, marks, s, part) {
        (reference::Answer::OK, range) => Ok(&track[range]),
        (refused, _) => Err(expected(refused)),
    };
    assert_eq!(ours, theirs, "{wanted:?} of {s}, {change:?}");
    ours
}

/// What Find gives for key and data of a sector.
pub fn both_found<'t>(lent: Lent<'t>, s: u8, change: Change) -> [Result<&'t [u8], Answer>; 2] {
    [Wanted::Key, Wanted::Data].map(|wanted| found(lent, s, wanted, change))
}

/// Key and data of a sector of an accepted track.
pub fn parts_of(track: &Track, s: u8) -> [&[u8]; 2] {
    [Wanted::Key, Wanted::Data].map(|wanted| {
        let found = alike::find(&track.0, &track.1, s, wanted);
        found.expect("a sound sector")
    })
}

/// Makes each change alone on an accepted track and has it judged; gives how many there were.
pub fn each_alone(
    track: &Track,
    changes: impl Iterator<Item = Change>,
    mut judge: impl FnMut(Lent, Change),
) -> usize {
    assert_eq!(alike::accept(&track.0, &track.1), Answer::DONE);
    assert_eq!(reference::accept(&track.0, &track.1), reference::Answer::OK);
    let (mut altered, mut tried) = (track.clone(), 0);
    for change in changes {
        change.apply(&mut altered.0);
        judge(lent(&altered), change);
        change.apply(&mut altered.0);
        tried += 1;
    }
    assert_eq!(altered, *track);
    tried
}
