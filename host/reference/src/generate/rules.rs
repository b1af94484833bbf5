//! Gap rules: rule one, and rule two within its ranges, often at their ends, or out of them.

use super::rng::Rng;
use crate::gap::{GapRule, GREATEST_B};

/// A gap rule in range or not; more than half are rule two.
pub fn any_rule(rng: &mut Rng) -> GapRule {
    match rng.below(20) {
        0..=7 => GapRule::One,
        8..=17 => rule_two(rng),
        _ => rule_two_out_of_range(rng),
    }
}

/// Rule two with a and b in range.
pub fn rule_two(rng: &mut Rng) -> GapRule {
    let any_b = rng.between(1, GREATEST_B.into());
    let (a, b) = match rng.below(12) {
        0 => (0, any_b),
        1 => (any_b, any_b),
        2 => (rng.below(2), 1),
        3 => (rng.between(0, GREATEST_B.into()), GREATEST_B.into()),
        // The ratio of rule one.
        4 => rng.pick(&[(1, 20), (2, 40), (7, 140), (50, 1_000)]),
        5 => rng.pick(&[(1, 19), (1, 21), (49, 1_000), (51, 1_000), (1, 1_000)]),
        6..=8 => (rng.below(any_b.min(100)), any_b),
        _ => (rng.between(0, any_b), any_b),
    };
    two(a, b)
}

/// Rule two with a or b out of range, or both.
pub fn rule_two_out_of_range(rng: &mut Rng) -> GapRule {
    let most = usize::from(u16::MAX);
    let right_b = rng.between(1, GREATEST_B.into());
    let large_b = rng.between(usize::from(GREATEST_B) + 1, most);
    let (a, b) = match rng.below(8) {
        0 => (rng.pick(&[0, 1, most]), 0),
        1 => (rng.pick(&[0, 1, 1_000, 1_001]), 1_001),
        2 => (right_b + 1, right_b),
        3 => (most, right_b),
        4 => (rng.pick(&[0, 1, 3_277, most]), most),
        5 => (rng.between(0, large_b), large_b),
        6 => (rng.between(right_b + 1, most), right_b),
        // The ratio of rule one with too great a b, and a just greater than b.
        _ => rng.pick(&[(51, 1_020), (256, 5_120), (257, 256), (1_001, 1_000)]),
    };
    two(a, b)
}

/// Rule two with these numbers.
fn two(a: usize, b: usize) -> GapRule {
    GapRule::Two {
        a: a as u16,
        b: b as u16,
    }
}
