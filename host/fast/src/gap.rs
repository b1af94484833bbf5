//! The rules for the gap between a data block and the next opening.

/// The rule that a writing call lays out its gaps by.
#[derive(Clone, Copy, PartialEq, Eq, Debug)]
pub enum GapRule {
    /// 21 bytes, and (KL + DL) / 20 more, rounded down.
    One,
    /// 21 bytes, and (KL + DL) × a / b more, rounded down.
    Two {
        /// From 0 to b.
        a: u16,
        /// From 1 to 1,000.
        b: u16,
    },
}

impl GapRule {
    /// Whether a and b are in range.
    pub fn in_range(self) -> bool {
        match self {
            GapRule::One => true,
            GapRule::Two { a, b } => (1..=1_000).contains(&b) && a <= b,
        }
    }

    /// Gap bytes behind a block with so many bytes of key and data, by a rule in range.
    pub fn gap(self, length: usize) -> usize {
        match self {
            GapRule::One => 21 + length / 20,
            GapRule::Two { a, b } => 21 + length * usize::from(a) / usize::from(b),
        }
    }
}
