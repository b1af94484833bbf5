//! The marks of a track, and the jump from one to the next.

use crate::words::eight_at;

/// Marks that are summed up in one bit, and taken as one word of bits.
const BLOCK: usize = 64;

/// The marks of a readable track, with a bit for each block of them where one is set.
#[derive(Clone, Debug)]
pub struct Marks<'a> {
    marks: &'a [u8],
    marked: u64,
}

/// The places of the marks from left to right: the bits of a block, and the blocks behind it.
#[derive(Clone, Debug)]
pub struct Places<'a> {
    marks: &'a [u8],
    marked: u64,
    start: usize,
    bits: u64,
}

/// Whether a track may have this length.
pub fn length_right(length: usize) -> bool {
    (3_815..=4_002).contains(&length)
}

/// The marks of a block, laid over each other.
#[inline(always)]
fn overlaid(block: &[u8]) -> u64 {
    (0..BLOCK / 8).fold(0, |all, index| all | eight_at(block, 8 * index))
}

/// Eight marks of 0 or 1 as eight bits, the first lowest.
#[inline(always)]
fn eight_bits(eight: u64) -> u64 {
    eight.wrapping_mul(0x0102_0408_1020_4080) >> 56
}

/// A block of marks as bits, the first lowest.
#[inline(always)]
fn bits_of(block: &[u8]) -> u64 {
    let eight = |index| eight_bits(eight_at(block, 8 * index)) << (8 * index);
    (0..BLOCK / 8).fold(0, |bits, index| bits | eight(index))
}

impl<'a> Marks<'a> {
    /// The marks of a pair, if its lengths are right and every mark is 0 or 1.
    pub fn of(track: &[u8], marks: &'a [u8]) -> Option<Marks<'a>> {
        if !length_right(track.len()) || marks.len() != track.len() {
            return None;
        }
        let (mut all, mut marked) = (0, 0);
        for (index, block) in marks.chunks_exact(BLOCK).enumerate() {
            let one = overlaid(block);
            all |= one;
            marked |= u64::from(one != 0) << index;
        }
        let rest = marks.chunks_exact(BLOCK).remainder();
        let last = rest.iter().fold(0, |last, &mark| last | mark);
        all |= u64::from(last);
        marked |= u64::from(last != 0) << (marks.len() / BLOCK);
        (all & 0xFEFE_FEFE_FEFE_FEFE == 0).then_some(Marks { marks, marked })
    }

    /// Eight marks from a place on.
    #[inline(always)]
    pub fn eight_at(&self, place: usize) -> u64 {
        eight_at(self.marks, place)
    }

    /// The places of all marks.
    #[inline(always)]
    pub fn places(&self) -> Places<'a> {
        Places {
            marks: self.marks,
            marked: self.marked,
            start: 0,
            bits: 0,
        }
    }
}

impl Places<'_> {
    /// Goes on to the next block with a mark, if there is one.
    #[inline(never)]
    fn next_block(&mut self) -> bool {
        let more = self.marked != 0;
        if more {
            self.start = BLOCK * self.marked.trailing_zeros() as usize;
            self.marked &= self.marked - 1;
            self.bits = self.block_bits(self.start);
        }
        more
    }

    /// The bits of the block that starts at a place; the last block may be shorter.
    #[inline(always)]
    fn block_bits(&self, start: usize) -> u64 {
        let length = self.marks.len();
        match start + BLOCK <= length {
            true => bits_of(&self.marks[start..start + BLOCK]),
            false => bits_of(&self.marks[length - BLOCK..]) >> (start + BLOCK - length),
        }
    }
}

impl Iterator for Places<'_> {
    type Item = usize;

    #[inline(always)]
    fn next(&mut self) -> Option<usize> {
        if self.bits == 0 && !self.next_block() {
            return None;
        }
        let place = self.start + self.bits.trailing_zeros() as usize;
        self.bits &= self.bits - 1;
        Some(place)
    }
}
