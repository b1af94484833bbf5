//! The tracks of a pack, with what is asked of each and the buffers it is written to.

use bench::packs::PACK;
use bench::Track;
use reference::generate::{
    bit_cells_of, wanted_add_by, wanted_correct_by, Rng, WantedAdd, WantedCorrect,
};
use reference::GapRule;
use station::MOST_SECTORS;

/// One track of the pack, its bit cells, what is asked of it, how many candidates it has, and buffers to write to.
pub struct Job {
    pub track: Vec<u8>,
    pub marks: Vec<u8>,
    pub bit_cells: Vec<u8>,
    pub s: u8,
    pub candidates: usize,
    pub addition: WantedAdd,
    pub correction: WantedCorrect,
    pub new: Buffers,
}

/// What a call may write to.
#[derive(Clone, PartialEq, Eq)]
pub struct Buffers {
    pub track: Vec<u8>,
    pub marks: Vec<u8>,
    pub bit_cells: Vec<u8>,
    pub rows: Vec<[u16; 8]>,
}

/// Makes a track from a seed.
pub type Generator = fn(u64) -> Track;

impl Job {
    /// A track, with what a seed asks of it.
    pub fn of(seed: u64, (track, marks): Track) -> Job {
        let numbers = numbers_of(&track, &marks);
        Job {
            bit_cells: bit_cells_of(&track, &marks),
            s: some_number(&numbers, seed),
            candidates: numbers.len(),
            addition: wanted_add_by(GapRule::One, seed, &track, &marks),
            correction: wanted_correct_by(GapRule::One, seed, &track, &marks),
            new: Buffers::of(track.len()),
            track,
            marks,
        }
    }
}

/// A full pack of tracks from one generator.
pub fn pack(generator: Generator) -> Vec<Job> {
    (0..PACK)
        .map(|seed| Job::of(seed, generator(seed)))
        .collect()
}

impl Buffers {
    /// Buffers for a track of this length.
    fn of(length: usize) -> Buffers {
        Buffers {
            track: vec![0xA5; length],
            marks: vec![0x5A; length],
            bit_cells: vec![0xC3; 2 * length],
            rows: vec![[0x3C5A; 8]; MOST_SECTORS],
        }
    }
}

/// The numbers that the candidates of a track carry.
fn numbers_of(track: &[u8], marks: &[u8]) -> Vec<u8> {
    let mut walk = reference::Walk::new(track, marks);
    std::iter::from_fn(|| walk.step().ok())
        .map(|candidate| candidate.s)
        .collect()
}

/// One of these numbers, if there is one.
fn some_number(numbers: &[u8], seed: u64) -> u8 {
    match numbers.is_empty() {
        true => 0,
        false => Rng::new(seed).pick(numbers),
    }
}

/// On each track, at a random place, a clock lost from the bit cells, and a mark on another value than `FF`.
pub fn spoil_cells(jobs: &mut [Job]) {
    for (seed, job) in (0..).zip(jobs) {
        let place = Rng::new(seed).below(job.track.len());
        job.bit_cells[2 * place + 1] ^= 0x02;
        job.track[place] &= 0x7F;
        job.marks[place] = 1;
    }
}
