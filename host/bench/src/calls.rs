//! Each call by the proved library and by the reference.

use crate::jobs::Job;
use reference::{Part, Sector};
use station::{Fault, GapRule, NewBody, NewSector, Wanted, MOST_SECTORS};

/// What one call gave: number, second number, place, and a part's start and length, or 0 and how many rows were filled.
pub type Outcome = (u8, u8, usize, usize, usize);

/// One call on one track of a pack.
pub type Call = fn(&mut Job) -> Outcome;

/// The outcome of an answer by the proved library, without a part.
fn ours(answer: station::Answer) -> Outcome {
    let fault = answer.fault.map_or(0, Fault::number);
    (answer.number, fault, answer.place, 0, 0)
}

/// The outcome of an answer by the reference, without a part.
fn theirs(answer: reference::Answer) -> Outcome {
    (answer.number, answer.fault, answer.place, 0, 0)
}

/// Accept by the proved library.
pub fn accept_ours(job: &mut Job) -> Outcome {
    ours(station::accept(&job.track, &job.marks))
}

/// Accept by the reference.
pub fn accept_theirs(job: &mut Job) -> Outcome {
    theirs(reference::accept(&job.track, &job.marks))
}

/// List by the proved library.
pub fn list_ours(job: &mut Job) -> Outcome {
    match station::list_into(&job.track, &job.marks, &mut job.new.rows) {
        Err(answer) => ours(answer),
        Ok(count) => (0, 0, 0, 0, count),
    }
}

/// List by the reference, whose records are put into the rows.
pub fn list_theirs(job: &mut Job) -> Outcome {
    let mut records = [Sector::default(); MOST_SECTORS];
    let (answer, count) = reference::list(&job.track, &job.marks, &mut records);
    for (row, record) in job.new.rows.iter_mut().zip(&records[..count]) {
        *row = record.row();
    }
    let (number, fault, place, ..) = theirs(answer);
    (number, fault, place, 0, count)
}

/// Find by the proved library; an empty part may lie anywhere.
pub fn find_ours(job: &mut Job) -> Outcome {
    match station::find(&job.track, &job.marks, job.s, Wanted::Data) {
        Err(answer) => ours(answer),
        Ok([]) => ours(station::Answer::DONE),
        Ok(part) => {
            let start = part.as_ptr() as usize - job.track.as_ptr() as usize;
            (0, 0, 0, start, part.len())
        }
    }
}

/// Find by the reference.
pub fn find_theirs(job: &mut Job) -> Outcome {
    let (answer, range) = reference::find(&job.track, &job.marks, job.s, Part::Data);
    match range.is_empty() {
        true => theirs(answer),
        false => {
            let (number, fault, place, ..) = theirs(answer);
            (number, fault, place, range.start, range.len())
        }
    }
}

/// The numbers of the calls by rule two.
const A: u16 = 1;
const B: u16 = 3;

/// Rule two for the proved library.
const TWO: GapRule = GapRule::Two { a: A, b: B };
/// Rule two for the reference.
const REFERENCE_TWO: reference::GapRule = reference::GapRule::Two { a: A, b: B };

/// Add by the proved library and a gap rule.
fn add_ours_by(job: &mut Job, rule: GapRule) -> Outcome {
    let wanted = NewSector {
        b7: job.addition.b7,
        sector: job.addition.s,
        key: &job.addition.key,
        data: &job.addition.data,
        rule,
    };
    let (old, new) = ((&job.track[..], &job.marks[..]), &mut job.new);
    ours(station::add(old, &mut new.track, &mut new.marks, &wanted))
}

/// Add by the reference and a gap rule.
fn add_theirs_by(job: &mut Job, rule: reference::GapRule) -> Outcome {
    let wanted = &job.addition;
    theirs(reference::add(
        &job.track,
        &job.marks,
        &mut job.new.track,
        &mut job.new.marks,
        wanted.b7,
        wanted.s,
        &wanted.key,
        &wanted.data,
        rule,
    ))
}

/// Correct by the proved library and a gap rule.
fn correct_ours_by(job: &mut Job, rule: GapRule) -> Outcome {
    let wanted = NewBody {
        sector: job.correction.s,
        key: &job.correction.key,
        data: &job.correction.data,
        rule,
    };
    let (old, new) = ((&job.track[..], &job.marks[..]), &mut job.new);
    ours(station::correct(
        old,
        &mut new.track,
        &mut new.marks,
        &wanted,
    ))
}

/// Correct by the reference and a gap rule.
fn correct_theirs_by(job: &mut Job, rule: reference::GapRule) -> Outcome {
    let wanted = &job.correction;
    theirs(reference::correct(
        &job.track,
        &job.marks,
        &mut job.new.track,
        &mut job.new.marks,
        wanted.s,
        &wanted.key,
        &wanted.data,
        rule,
    ))
}

/// Add by the proved library and rule one.
pub fn add_ours(job: &mut Job) -> Outcome {
    add_ours_by(job, GapRule::One)
}

/// Add by the reference and rule one.
pub fn add_theirs(job: &mut Job) -> Outcome {
    add_theirs_by(job, reference::GapRule::One)
}

/// Add by the proved library and rule two.
pub fn add_two_ours(job: &mut Job) -> Outcome {
    add_ours_by(job, TWO)
}

/// Add by the reference and rule two.
pub fn add_two_theirs(job: &mut Job) -> Outcome {
    add_theirs_by(job, REFERENCE_TWO)
}

/// Correct by the proved library and rule one.
pub fn correct_ours(job: &mut Job) -> Outcome {
    correct_ours_by(job, GapRule::One)
}

/// Correct by the reference and rule one.
pub fn correct_theirs(job: &mut Job) -> Outcome {
    correct_theirs_by(job, reference::GapRule::One)
}

/// Correct by the proved library and rule two.
pub fn correct_two_ours(job: &mut Job) -> Outcome {
    correct_ours_by(job, TWO)
}

/// Correct by the reference and rule two.
pub fn correct_two_theirs(job: &mut Job) -> Outcome {
    correct_theirs_by(job, REFERENCE_TWO)
}

/// From cells by the proved library.
pub fn from_cells_ours(job: &mut Job) -> Outcome {
    let new = &mut job.new;
    ours(station::from_cells(
        &job.bit_cells,
        &mut new.track,
        &mut new.marks,
    ))
}

/// From cells by the reference.
pub fn from_cells_theirs(job: &mut Job) -> Outcome {
    let new = &mut job.new;
    theirs(reference::from_cells(
        &job.bit_cells,
        &mut new.track,
        &mut new.marks,
    ))
}

/// To cells by the proved library.
pub fn to_cells_ours(job: &mut Job) -> Outcome {
    ours(station::to_cells(
        &job.track,
        &job.marks,
        &mut job.new.bit_cells,
    ))
}

/// To cells by the reference.
pub fn to_cells_theirs(job: &mut Job) -> Outcome {
    theirs(reference::to_cells(
        &job.track,
        &job.marks,
        &mut job.new.bit_cells,
    ))
}
