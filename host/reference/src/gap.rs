//! The rules for the gap between a data block and the next opening.

/// Greatest b of rule two.
pub const GREATEST_B: u16 = 1_000;

/// The rule that a writing call lays out its gaps by.
#[derive(Clone, Copy, PartialEq, Eq, Debug, Default, Hash)]
pub enum GapRule {
    /// 21 bytes, and (KL + DL) / 20 more, rounded down.
    #[default]
    One,
    /// 21 bytes, and (KL + DL) × a / b more, rounded down.
    Two { a: u16, b: u16 },
}

impl GapRule {
    /// Range rule of a and b.
    pub fn in_range(self) -> bool {
        match self {
            GapRule::One => true,
            GapRule::Two { a, b } => (1..=GREATEST_B).contains(&b) && a <= b,
        }
    }

    /// Gap bytes after a block with so many bytes of key and data; a and b are in range.
    pub fn gap(self, kl: usize, dl: usize) -> usize {
        match self {
            GapRule::One => 21 + (kl + dl) / 20,
            GapRule::Two { a, b } => 21 + (kl + dl) * usize::from(a) / usize::from(b),
        }
    }
}
