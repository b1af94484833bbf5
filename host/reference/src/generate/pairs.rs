//! Pairs of a defective track and its alternative.

use super::damage::damage;
use super::rng::Rng;
use super::sound::{other_address, random_address, sound_with};
use crate::layout::Address;

/// Bytes and marks of one track.
pub type Track = (Vec<u8>, Vec<u8>);

/// Two tracks, and whether they belong together and are both sound.
#[derive(Clone, Debug)]
pub struct Pair {
    pub first: Track,
    pub second: Track,
    pub agrees: bool,
}

/// What is done to a pair.
#[derive(Clone, Copy, PartialEq, Eq)]
enum Variant {
    /// Both tracks name each other.
    Agrees,
    /// The second has another flag than 01.
    SecondFlag,
    /// The second is another track than the one named.
    SecondAddress,
    /// The second names another track than the first.
    SecondNames,
    /// The first has another flag than 10.
    FirstFlag,
    /// The first is damaged.
    FirstDamaged,
    /// The second is damaged.
    SecondDamaged,
}

/// One of the variants; half of the pairs agree.
fn random_variant(rng: &mut Rng) -> Variant {
    match rng.below(12) {
        0 => Variant::SecondFlag,
        1 => Variant::SecondAddress,
        2 => Variant::SecondNames,
        3 => Variant::FirstFlag,
        4 => Variant::FirstDamaged,
        5 => Variant::SecondDamaged,
        _ => Variant::Agrees,
    }
}

/// An address near the first one that is neither of the two.
fn third_address(rng: &mut Rng, near: Address, other: Address) -> Address {
    loop {
        let third = other_address(rng, near);
        if third != other {
            return third;
        }
    }
}

/// A defective track and its alternative, or a variant that does not agree.
pub fn pair(seed: u64) -> Pair {
    let mut rng = Rng::new(seed ^ 0x5EC0_4D00);
    let variant = random_variant(&mut rng);
    let first_address = random_address(&mut rng);
    let second_address = other_address(&mut rng, first_address);
    let first_flag = match variant {
        Variant::FirstFlag => rng.pick(&[0, 1, 3]),
        _ => 2,
    };
    let first = sound_with(&mut rng, first_flag, first_address, second_address);
    let second_flag = match variant {
        Variant::SecondFlag => rng.pick(&[0, 2, 3]),
        _ => 1,
    };
    let (address, names) = match variant {
        Variant::SecondAddress => (
            third_address(&mut rng, second_address, first_address),
            first_address,
        ),
        Variant::SecondNames => (
            second_address,
            third_address(&mut rng, first_address, second_address),
        ),
        _ => (second_address, first_address),
    };
    let second = sound_with(&mut rng, second_flag, address, names);
    Pair {
        agrees: variant == Variant::Agrees,
        first: match variant {
            Variant::FirstDamaged => damage(&mut rng, first),
            _ => (first.built.track, first.built.marks),
        },
        second: match variant {
            Variant::SecondDamaged => damage(&mut rng, second),
            _ => (second.built.track, second.built.marks),
        },
    }
}
