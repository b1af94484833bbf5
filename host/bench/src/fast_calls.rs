//! Each call on a track by the fast implementation, and one plain pass over a track.

use crate::calls::Outcome;
use crate::jobs::Job;

/// The outcome of an answer, without a part.
fn outcome(answer: fast::Answer) -> Outcome {
    (answer.number, answer.fault, answer.place, 0, 0)
}

/// Accept.
pub fn accept_fast(job: &mut Job) -> Outcome {
    outcome(fast::accept(&job.track, &job.marks))
}

/// Find of a sector's data; an empty part may lie anywhere.
pub fn find_fast(job: &mut Job) -> Outcome {
    let (answer, range) = fast::find(&job.track, &job.marks, job.s, fast::Part::Data);
    match range.is_empty() {
        true => outcome(answer),
        false => (0, 0, 0, range.start, range.len()),
    }
}

/// Add by rule one.
pub fn add_fast(job: &mut Job) -> Outcome {
    let wanted = &job.addition;
    outcome(fast::add(
        &job.track,
        &job.marks,
        &mut job.new.track,
        &mut job.new.marks,
        wanted.b7,
        wanted.s,
        &wanted.key,
        &wanted.data,
        fast::GapRule::One,
    ))
}

/// Correct by rule one.
pub fn correct_fast(job: &mut Job) -> Outcome {
    let wanted = &job.correction;
    outcome(fast::correct(
        &job.track,
        &job.marks,
        &mut job.new.track,
        &mut job.new.marks,
        wanted.s,
        &wanted.key,
        &wanted.data,
        fast::GapRule::One,
    ))
}

/// Bytes that the pass takes in one step.
const STEP: usize = 64;

/// The exclusive or of the words of a slice; the last bytes short of a step are left out.
fn words_of(bytes: &[u8]) -> u64 {
    let mut lanes = [0; STEP / 8];
    for step in bytes.chunks_exact(STEP) {
        for (lane, word) in lanes.iter_mut().zip(step.chunks_exact(8)) {
            *lane ^= u64::from_le_bytes(word.try_into().expect("eight bytes"));
        }
    }
    lanes.iter().fold(0, |all, lane| all ^ lane)
}

/// One pass over bytes and marks that judges nothing.
pub fn pass(job: &mut Job) -> Outcome {
    let all = words_of(&job.track) ^ words_of(&job.marks);
    (0, 0, all as usize, 0, 0)
}
