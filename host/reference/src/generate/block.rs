//! Faults in key and data blocks: in opening, check and end byte, in one of them or in several at once.

use super::plan::{Built, Places};
use super::rng::Rng;
use super::sound::sound_plan;
use crate::answer::{Answer, DATA, KEY};
use crate::layout::{GAP, TRAILER};
use std::ops::Range;

/// A key or data block on a track.
#[derive(Clone, Copy, PartialEq, Eq, Debug)]
pub struct Block {
    /// The number that refuses it.
    pub number: u8,
    pub opening: usize,
    /// How many information bytes it has.
    pub length: usize,
}

/// A block, and which parts of it were changed: opening, check, end byte.
#[derive(Clone, Copy, PartialEq, Eq, Debug)]
pub struct Spoiled {
    pub block: Block,
    pub changed: [bool; 3],
}

impl Block {
    /// The key of a built sector, if it has one.
    pub fn key(places: &Places) -> Option<Block> {
        (places.key > 0).then(|| Block {
            number: KEY,
            opening: places.key - 6,
            length: places.data - 6 - GAP - TRAILER - places.key,
        })
    }

    /// The data block of a built sector.
    pub fn data(places: &Places) -> Block {
        Block {
            number: DATA,
            opening: places.data - 6,
            length: places.dl,
        }
    }

    /// Where a changed byte spoils opening, check and end byte; an empty block has one zero byte, and nothing behind it is judged.
    pub fn parts(&self) -> [Range<usize>; 3] {
        let start = self.opening + 6;
        let (check_end, end) = match self.length {
            0 => (start + 1, start + 1),
            length => (start + length + 2, start + length + 3),
        };
        [self.opening..start, start..check_end, check_end..end]
    }
}

impl Spoiled {
    /// The second number and the places of each changed part that the block has.
    fn faults(&self) -> impl Iterator<Item = (u8, Range<usize>)> {
        let parts = (1..).zip(self.block.parts()).zip(self.changed);
        parts
            .filter(|((_, part), changed)| *changed && !part.is_empty())
            .map(|(part, _)| part)
    }

    /// What refuses a block that was sound before: the first of its changed parts.
    pub fn answer(&self) -> Answer {
        match self.faults().next() {
            Some((fault, _)) => Answer::block(self.block.number, fault, self.block.opening),
            None => Answer::OK,
        }
    }

    /// One byte changed in each of these parts; nothing else changes that could make up for it.
    pub fn put(&self, rng: &mut Rng, track: &mut [u8]) {
        for (_, part) in self.faults() {
            track[place_in(rng, part)] ^= other_bits(rng);
        }
    }
}

/// A place in a part of a block, often one of its last two.
fn place_in(rng: &mut Rng, part: Range<usize>) -> usize {
    let first = match rng.chance(40) {
        true => part.start.max(part.end - 2),
        false => part.start,
    };
    rng.between(first, part.end - 1)
}

/// The bits that are reversed in a byte: one, or any.
fn other_bits(rng: &mut Rng) -> u8 {
    match rng.chance(50) {
        true => 1 << rng.below(8),
        false => rng.between(1, 255) as u8,
    }
}

/// One part of a block, or any set of parts but none; an empty block has no third part.
/// The end byte is the first fault only where it is the only one, so that it is taken alone more often.
fn some_parts(rng: &mut Rng, block: &Block) -> [bool; 3] {
    let set = match rng.chance(60) {
        true => rng.pick(&[1, 2, 4, 4]),
        false => rng.between(1, 7),
    };
    let set = match (block.length, set) {
        (0, 4) => 2,
        (0, _) => set & 3,
        _ => set,
    };
    [1, 2, 4].map(|part| set & part != 0)
}

/// A sector, in half of the cases one with a key, if there is one.
fn some_sector(rng: &mut Rng, built: &Built) -> Places {
    let places = built.places.iter().copied();
    let with_key: Vec<Places> = places.filter(|places| places.key > 0).collect();
    match with_key.is_empty() || rng.chance(50) {
        true => rng.pick(&built.places),
        false => rng.pick(&with_key),
    }
}

/// Key, data block or both of one sector spoiled; tells of each what was changed, the key first.
pub fn spoil_block(rng: &mut Rng, built: &mut Built) -> Vec<Spoiled> {
    let places = some_sector(rng, built);
    let data = Block::data(&places);
    let blocks = match (Block::key(&places), rng.below(4)) {
        (Some(key), 0) => vec![key],
        (Some(key), 1 | 2) => vec![key, data],
        _ => vec![data],
    };
    let mut spoil = |block| {
        let changed = some_parts(rng, &block);
        let spoiled = Spoiled { block, changed };
        spoiled.put(rng, &mut built.track);
        spoiled
    };
    blocks.into_iter().map(&mut spoil).collect()
}

/// Bytes and marks of a track that is sound but for one or both blocks of one sector.
pub fn spoiled(seed: u64) -> (Vec<u8>, Vec<u8>) {
    let mut built = sound_plan(seed).built;
    spoil_block(&mut Rng::new(seed ^ 0x0B10_C4ED), &mut built);
    (built.track, built.marks)
}
