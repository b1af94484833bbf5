//! Bytes of a slice taken as words, the first byte lowest.

/// Four bytes from a place on.
#[inline(always)]
pub fn four_at(bytes: &[u8], place: usize) -> u32 {
    let mut four = [0; 4];
    four.copy_from_slice(&bytes[place..place + 4]);
    u32::from_le_bytes(four)
}

/// Eight bytes from a place on.
#[inline(always)]
pub fn eight_at(bytes: &[u8], place: usize) -> u64 {
    let mut eight = [0; 8];
    eight.copy_from_slice(&bytes[place..place + 8]);
    u64::from_le_bytes(eight)
}

/// Bits of the first so many bytes of a word, less than eight.
#[inline(always)]
pub const fn first(count: usize) -> u64 {
    (1 << (8 * count)) - 1
}

/// The exclusive or of the four pairs of bytes of a word.
#[inline(always)]
pub const fn folded(word: u64) -> u16 {
    let half = word ^ word >> 32;
    (half ^ half >> 16) as u16
}

/// Bytes that are taken in one step.
const STEP: usize = 32;

/// A step of zeros and a step of ones: what to keep of a step that is only in part to be taken.
const KEPT: [u8; 2 * STEP] = {
    let mut kept = [0; 2 * STEP];
    let mut index = STEP;
    while index < 2 * STEP {
        kept[index] = 0xFF;
        index += 1;
    }
    kept
};

/// Exclusive or of the bytes from a place on, by turns in both halves; at least a step of other bytes stands before them.
#[inline(always)]
pub fn sum_at(track: &[u8], place: usize, length: usize) -> u16 {
    let part = length % STEP;
    let whole = place + part;
    let (before, kept) = (&track[whole - STEP..whole], &KEPT[part..part + STEP]);
    let mut lanes = [0; 4];
    for (index, lane) in lanes.iter_mut().enumerate() {
        *lane = eight_at(before, 8 * index) & eight_at(kept, 8 * index);
    }
    for step in track[whole..place + length].chunks_exact(STEP) {
        for (index, lane) in lanes.iter_mut().enumerate() {
            *lane ^= eight_at(step, 8 * index);
        }
    }
    folded(lanes[0] ^ lanes[1] ^ lanes[2] ^ lanes[3])
}

#[cfg(test)]
mod tests {
    use super::*;

    /// The check of information, as it is stored, behind other bytes.
    fn check(information: &[u8]) -> [u8; 2] {
        let track = [&[0xA5; STEP][..], information].concat();
        (!sum_at(&track, STEP, information.len())).to_le_bytes()
    }

    /// The checks that the scope document works out.
    #[test]
    fn worked_checks() {
        assert_eq!(check(&[0x00, 0x00, 0x64, 0x00, 0x07]), [0xFF, 0x9C]);
        assert_eq!(check(&[0, 0, 0, 0, 0]), [0xFF, 0xFF]);
        let count = [0x80, 0x00, 0x64, 0x00, 0x07, 0x01, 0x00, 0x00, 0x50];
        assert_eq!(check(&count), [0xFE, 0x4C]);
        assert_eq!(check(&[0x41]), [0xFF, 0xBE]);
        assert_eq!(check(&[0x41, 0x42]), [0xBE, 0xBD]);
        assert_eq!(check(&[0xC1, 0xC2, 0xC3]), [0x3D, 0xFD]);
        assert_eq!(check(&[0x00]), [0xFF, 0xFF]);
    }

    /// Every length around the steps: bytes by turns, and then none left over.
    #[test]
    fn every_length_of_a_few_steps() {
        for length in 1..4 * STEP {
            let bytes: Vec<u8> = (0..length).map(|index| (index * 37 + 11) as u8).collect();
            let mut halves = [0xFF; 2];
            for (index, byte) in bytes.iter().rev().enumerate() {
                halves[1 - index % 2] ^= byte;
            }
            assert_eq!(check(&bytes), halves, "{length} bytes");
        }
    }
}
