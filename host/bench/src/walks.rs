//! Walk over a whole track, by the proved library and by the fast implementation: by a reader that is held, and by a call for each step.

use crate::calls::Outcome;
use crate::jobs::Job;

/// The candidates of a walk up to now: their places and their other fields summed up, and their number.
#[derive(Default)]
struct Walked {
    places: usize,
    fields: usize,
    count: usize,
}

impl Walked {
    /// One more candidate; flag, S, KL and DL stand in the sum by where they stand in the walk.
    fn pass(&mut self, place: usize, [flag, s, kl, dl]: [usize; 4]) {
        self.count += 1;
        self.places += place;
        self.fields += self.count * (flag + 3 * s + 5 * kl + 7 * dl);
    }

    /// What the walk came to, with the number at its end.
    fn ended(self, number: u8) -> Outcome {
        (number, 0, self.places, self.fields, self.count)
    }
}

/// What a walk from the first candidate to the last came to: the last candidate, or the number that refuses it.
fn last(step: Result<(usize, [usize; 4]), u8>) -> Outcome {
    match step {
        Ok((place, [flag, s, kl, dl])) => (0, 0, place, flag + 256 * s, kl + 256 * dl),
        Err(number) => (number, 0, 0, 0, 0),
    }
}

/// Walk to the last candidate by the proved library's reader, which is held from its first step on.
pub fn walk_ours(job: &mut Job) -> Outcome {
    let n = job.candidates.saturating_sub(1);
    let step = walk::nth_candidate(&job.track, &job.marks, n);
    last(step.map(|c| {
        (
            c.place,
            [c.flag.into(), c.s.into(), c.kl.into(), c.dl.into()],
        )
    }))
}

/// Walk to the last candidate by the fast implementation's reader.
pub fn walk_fast(job: &mut Job) -> Outcome {
    let mut walk = fast::Walk::new(&job.track, &job.marks);
    let mut step = walk.step();
    for _ in 1..job.candidates {
        step = walk.step();
    }
    let fields = |c: fast::Candidate| [c.flag.into(), c.s.into(), c.kl.into(), c.dl.into()];
    last(step.map(|c| (c.place, fields(c))).map_err(|end| end.number))
}

/// Walk by a call of the proved library for each step, as the C interface has it: each judges the pair anew.
pub fn steps_ours(job: &mut Job) -> Outcome {
    let mut walked = Walked::default();
    for step in station::candidates(&job.track, &job.marks) {
        match step {
            Ok(c) => walked.pass(
                c.place,
                [c.flag.into(), c.s.into(), c.kl.into(), c.dl.into()],
            ),
            Err(end) => return walked.ended(end.number),
        }
    }
    walked.ended(12)
}

/// The same candidates by the fast implementation's reader.
pub fn steps_fast(job: &mut Job) -> Outcome {
    let (mut walked, mut walk) = (Walked::default(), fast::Walk::new(&job.track, &job.marks));
    loop {
        match walk.step() {
            Ok(c) => walked.pass(
                c.place,
                [c.flag.into(), c.s.into(), c.kl.into(), c.dl.into()],
            ),
            Err(end) => return walked.ended(end.number),
        }
    }
}
