//! Hand-made tracks for the tests.

use crate::alike::accept;
use reference::generate::{Built, Plan, PlannedSector};
use reference::{Address, Answer};

pub const HERE: Address = Address {
    cylinder: 100,
    head: 7,
};
pub const THERE: Address = Address {
    cylinder: 201,
    head: 3,
};

/// An answer in short, with second number 0.
pub fn answer(number: u8, place: usize) -> Answer {
    Answer {
        number,
        fault: 0,
        place,
    }
}

/// An answer about a block in short: 10 or 11, its second number, and the block's opening.
pub fn faulty(number: u8, fault: u8, place: usize) -> Answer {
    Answer {
        number,
        fault,
        place,
    }
}

/// Accept on a built track.
pub fn accepted(built: &Built) -> Answer {
    accept(&built.track, &built.marks)
}

/// A sector with key and data of given lengths and a gap of 40 after it.
pub fn sector(flag: u8, s: u8, kl: usize, dl: usize) -> PlannedSector {
    PlannedSector {
        flag,
        s,
        key: (0..kl).map(|i| (i * 7 + 1) as u8).collect(),
        data: (0..dl).map(|i| (i * 11 + 3) as u8).collect(),
        closed: false,
        gap: 40,
    }
}

/// Three sectors 5, 6 and 7 at length 3,906 with home at 30: no key, a key, and neither key nor data.
pub fn plan() -> Plan {
    Plan {
        length: 3_906,
        home: 30,
        flag: 0,
        address: HERE,
        named: HERE,
        sectors: vec![
            sector(0x00, 5, 0, 8),
            sector(0x80, 6, 3, 80),
            sector(0x00, 7, 0, 0),
        ],
    }
}

/// The plan with a changed home flag, the counts following it, and a named address.
pub fn flagged(flag: u8, named: Address) -> Plan {
    let mut plan = plan();
    plan.flag = flag;
    plan.named = named;
    for sector in &mut plan.sectors {
        sector.flag |= flag;
    }
    plan
}

/// A plan's track with 55 in every gap.
pub fn build(plan: &Plan) -> Built {
    plan.build(&mut |length| vec![0x55; length])
}

/// The bytes of a plain opening.
pub const SHORT: [u8; 6] = [0x00, 0x00, 0x00, 0x00, 0xFF, 0x0E];
/// The bytes of a count opening.
pub const LONG: [u8; 8] = [0x00, 0x00, 0x00, 0x00, 0xFF, 0xFF, 0xFF, 0x0E];

/// A marked opening at a place.
pub fn plant(built: &mut Built, place: usize) {
    built.track[place..place + 8].copy_from_slice(&LONG);
    built.marks[place..place + 8].copy_from_slice(&[0, 0, 0, 0, 0, 1, 1, 0]);
}

/// A marked opening and a count with the right check at a place.
pub fn plant_count(built: &mut Built, place: usize, information: [u8; 9]) {
    plant(built, place);
    built.track[place + 8..place + 17].copy_from_slice(&information);
    reference::generate::recheck(&mut built.track, place + 8, 9);
    built.track[place + 19] = 0xCC;
}

/// The sets of one or more of a block's three parts, each with the first of them: opening, check, end byte.
pub const SETS: [([bool; 3], u8); 7] = [
    ([true, false, false], 1),
    ([false, true, false], 2),
    ([false, false, true], 3),
    ([true, true, false], 1),
    ([true, false, true], 1),
    ([false, true, true], 2),
    ([true, true, true], 1),
];

/// One byte changed in each part that the set has: in the opening, in the information, and the end byte.
pub fn spoil(built: &mut Built, opening: usize, length: usize, set: [bool; 3]) {
    let places = [opening + 4, opening + 6, opening + 6 + length + 2];
    for (place, changed) in places.into_iter().zip(set) {
        built.track[place] ^= if changed { 0x11 } else { 0 };
    }
}
