//! The wrapper's calls on a track, each demanded to answer, give and write what the fast implementation does.

use super::sectors::MANY;
use super::{expected, same_buffers};
use station::{Answer, Candidate, GapRule, Lent, NewBody, NewSector, Wanted};

/// An answer of the fast implementation in the wrapper's type.
fn in_short(answer: fast::Answer) -> Answer {
    expected(reference::Answer {
        number: answer.number,
        fault: answer.fault,
        place: answer.place,
    })
}

/// A candidate of the fast implementation in the wrapper's type.
fn candidate(from: fast::Candidate) -> Candidate {
    Candidate {
        place: from.place,
        flag: from.flag,
        s: from.s,
        kl: from.kl,
        dl: from.dl,
    }
}

/// A gap rule in the type of the fast implementation.
fn gap_rule(rule: GapRule) -> fast::GapRule {
    match rule {
        GapRule::One => fast::GapRule::One,
        GapRule::Two { a, b } => fast::GapRule::Two { a, b },
    }
}

/// Accept by both.
pub fn accept(track: &[u8], marks: &[u8]) -> Answer {
    let ours = station::accept(track, marks);
    assert_eq!(in_short(fast::accept(track, marks)), ours, "fast accept");
    ours
}

/// Find by both; a part that is not empty stands at the same place.
pub fn find<'t>(track: &'t [u8], marks: &[u8], s: u8, wanted: Wanted) -> Result<&'t [u8], Answer> {
    let part = match wanted {
        Wanted::Key => fast::Part::Key,
        Wanted::Data => fast::Part::Data,
    };
    let ours = station::find(track, marks, s, wanted);
    let (done, range) = fast::find(track, marks, s, part);
    let theirs = match done {
        fast::Answer::OK => Ok(&track[range]),
        refusal => Err(in_short(refusal)),
    };
    assert_eq!(theirs, ours, "fast find, {wanted:?} of {s}");
    if let (Ok(a), Ok(b)) = (ours, theirs) {
        assert!(a.is_empty() || a.as_ptr() == b.as_ptr(), "fast find of {s}");
    }
    ours
}

/// The step from a place on by both; the fast implementation steps there from index.
pub fn walk_from(track: &[u8], marks: &[u8], from: usize) -> Result<Candidate, Answer> {
    let ours = station::walk_from(track, marks, from);
    let mut walk = fast::Walk::new(track, marks);
    let theirs = loop {
        match walk.step() {
            Ok(before) if before.place < from => (),
            step => break step.map(candidate).map_err(in_short),
        }
    };
    assert_eq!(theirs, ours, "fast walk from {from}");
    ours
}

/// All candidates by both, or one refusal; the walk's end is told again at a further step.
pub fn candidates(track: &[u8], marks: &[u8]) -> impl Iterator<Item = Result<Candidate, Answer>> {
    let ours: Vec<_> = station::candidates(track, marks).take(MANY).collect();
    let mut walk = fast::Walk::new(track, marks);
    for step in &ours {
        assert_eq!(walk.step().map(candidate).map_err(in_short), *step);
    }
    for _ in 0..2 {
        let end = walk.step().expect_err("no further candidate").number;
        assert_eq!(end, if ours.contains(&Err(REFUSED)) { 1 } else { 12 });
    }
    ours.into_iter()
}

/// The answer for a pair that Walk does not read.
const REFUSED: Answer = Answer {
    number: 1,
    ..Answer::DONE
};

/// A call that writes, by both into equal buffers.
fn written(
    (track, marks): (&mut [u8], &mut [u8]),
    ours: impl FnOnce(&mut [u8], &mut [u8]) -> Answer,
    theirs: impl FnOnce(&mut [u8], &mut [u8]) -> fast::Answer,
) -> Answer {
    let mut other = (track.to_vec(), marks.to_vec());
    let done = ours(track, marks);
    assert_eq!(in_short(theirs(&mut other.0, &mut other.1)), done, "fast");
    same_buffers(&other, &(track.to_vec(), marks.to_vec()), "fast");
    done
}

/// Add by both.
pub fn add(old: Lent, new_track: &mut [u8], new_marks: &mut [u8], w: &NewSector) -> Answer {
    let (b7, s, rule) = (w.b7, w.sector, gap_rule(w.rule));
    written(
        (new_track, new_marks),
        |track, marks| station::add(old, track, marks, w),
        |track, marks| fast::add(old.0, old.1, track, marks, b7, s, w.key, w.data, rule),
    )
}

/// Correct by both.
pub fn correct(old: Lent, new_track: &mut [u8], new_marks: &mut [u8], w: &NewBody) -> Answer {
    let (s, rule) = (w.sector, gap_rule(w.rule));
    written(
        (new_track, new_marks),
        |track, marks| station::correct(old, track, marks, w),
        |track, marks| fast::correct(old.0, old.1, track, marks, s, w.key, w.data, rule),
    )
}
