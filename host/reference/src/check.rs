//! The two check bytes after the information of a home address, count, key or data block.

/// The check, folded bytewise: x^16 is 1 modulo the divisor, so every second byte meets in one half.
pub fn check(information: &[u8]) -> [u8; 2] {
    let mut halves = [0u8; 2];
    for (distance, byte) in information.iter().rev().enumerate() {
        halves[1 - distance % 2] ^= byte;
    }
    [!halves[0], !halves[1]]
}

/// The check by polynomial long division by x^16 + 1, one bit at a time.
pub fn check_by_division(information: &[u8]) -> [u8; 2] {
    let mut bits = bits_of(information);
    let mut leading = 0;
    while leading + 16 < bits.len() {
        if bits[leading] {
            bits[leading] = false;
            bits[leading + 16] = !bits[leading + 16];
        }
        leading += 1;
    }
    let rest = &bits[leading..];
    let remainder = rest
        .iter()
        .fold(0u16, |sum, &bit| sum << 1 | u16::from(bit));
    (!remainder).to_be_bytes()
}

/// The coefficients of the information as a polynomial, highest first.
fn bits_of(information: &[u8]) -> Vec<bool> {
    let mut bits = Vec::with_capacity(information.len() * 8);
    for byte in information {
        for shift in (0..8).rev() {
            bits.push(byte >> shift & 1 == 1);
        }
    }
    bits
}

#[cfg(test)]
mod tests {
    use super::*;
    use crate::generate::Rng;

    /// Both ways of dividing agree at every length up to 300 and at some long ones.
    #[test]
    fn folding_equals_division() {
        let mut rng = Rng::new(1);
        for length in (0..300).chain([3_800, 3_801, 65_535]) {
            let information = rng.bytes(length);
            assert_eq!(check(&information), check_by_division(&information));
        }
    }

    /// Two zero bytes at the end multiply by x^16 and change neither result.
    #[test]
    fn multiplying_by_x16_changes_nothing() {
        let mut rng = Rng::new(2);
        for length in 0..64 {
            let information = rng.bytes(length);
            let longer = [&information[..], &[0, 0]].concat();
            assert_eq!(check_by_division(&longer), check_by_division(&information));
            assert_eq!(check(&longer), check_by_division(&information));
        }
    }

    /// A single changed bit always changes exactly that one check bit.
    #[test]
    fn one_bit_changes_one_bit() {
        let mut rng = Rng::new(3);
        let information = rng.bytes(9);
        let before = u16::from_be_bytes(check_by_division(&information));
        for bit in 0..72 {
            let mut other = information.clone();
            other[8 - bit / 8] ^= 1 << (bit % 8);
            let after = u16::from_be_bytes(check_by_division(&other));
            assert_eq!(before ^ after, 1 << (bit % 16));
        }
    }
}
