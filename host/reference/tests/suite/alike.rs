//! The calls of the reference; those on a track are demanded to answer, give and write what the fast implementation does.

pub use reference::*;
use std::ops::Range;

/// An answer of the fast implementation in the type of the reference.
fn in_short(answer: fast::Answer) -> Answer {
    Answer::block(answer.number, answer.fault, answer.place)
}

/// Accept by both.
pub fn accept(track: &[u8], marks: &[u8]) -> Answer {
    let ours = reference::accept(track, marks);
    assert_eq!(in_short(fast::accept(track, marks)), ours);
    ours
}

/// List, which answers as Accept by both where there are enough records.
pub fn list(track: &[u8], marks: &[u8], out: &mut [Sector]) -> (Answer, usize) {
    let given = reference::list(track, marks, out);
    if out.len() >= layout::MOST_SECTORS {
        assert_eq!(accept(track, marks), given.0);
    }
    given
}

/// Find by both; an empty part may stand anywhere.
pub fn find(track: &[u8], marks: &[u8], s: u8, part: Part) -> (Answer, Range<usize>) {
    let wanted = match part {
        Part::Key => fast::Part::Key,
        Part::Data => fast::Part::Data,
    };
    let (done, range) = reference::find(track, marks, s, part);
    let (same, other) = fast::find(track, marks, s, wanted);
    assert_eq!(in_short(same), done, "{part:?} of {s}");
    assert!(other == range || other.is_empty() && range.is_empty());
    (done, range)
}

/// Pair find over two tracks that are judged by both.
pub fn pair_find(
    first: (&[u8], &[u8]),
    second: (&[u8], &[u8]),
    s: u8,
    part: Part,
) -> (Answer, u8, Range<usize>) {
    accept(first.0, first.1);
    accept(second.0, second.1);
    reference::pair_find(first, second, s, part)
}

/// A step of the fast implementation in the types of the reference.
fn step_of(walk: &mut fast::Walk) -> Result<Candidate, Answer> {
    let candidate = |from: fast::Candidate| Candidate {
        place: from.place,
        flag: from.flag,
        s: from.s,
        kl: from.kl,
        dl: from.dl,
    };
    walk.step().map(candidate).map_err(in_short)
}

/// Walk by both.
pub struct Walk<'a>(reference::Walk<'a>, fast::Walk<'a>);

impl<'a> Walk<'a> {
    /// A walk that has taken no step yet.
    pub fn new(track: &'a [u8], marks: &'a [u8]) -> Walk<'a> {
        Walk(
            reference::Walk::new(track, marks),
            fast::Walk::new(track, marks),
        )
    }

    /// The next step.
    pub fn step(&mut self) -> Result<Candidate, Answer> {
        let step = self.0.step();
        assert_eq!(step_of(&mut self.1), step);
        step
    }
}

/// The step from a place on by both; the fast implementation steps there from index.
pub fn walk_from(track: &[u8], marks: &[u8], from: usize) -> Result<Candidate, Answer> {
    let step = reference::walk_from(track, marks, from);
    let mut walk = fast::Walk::new(track, marks);
    let same = loop {
        match step_of(&mut walk) {
            Ok(before) if before.place < from => (),
            other => break other,
        }
    };
    assert_eq!(same, step, "from {from}");
    step
}

/// A gap rule in the type of the fast implementation.
fn gap_rule(rule: GapRule) -> fast::GapRule {
    match rule {
        GapRule::One => fast::GapRule::One,
        GapRule::Two { a, b } => fast::GapRule::Two { a, b },
    }
}

/// Add by both.
#[allow(clippy::too_many_arguments)]
pub fn add(
    track: &[u8],
    marks: &[u8],
    new_track: &mut [u8],
    new_marks: &mut [u8],
    b7: u8,
    s: u8,
    key: &[u8],
    data: &[u8],
    rule: GapRule,
) -> Answer {
    let (mut a, mut b) = (new_track.to_vec(), new_marks.to_vec());
    let other = gap_rule(rule);
    let same = fast::add(track, marks, &mut a, &mut b, b7, s, key, data, other);
    let done = reference::add(track, marks, new_track, new_marks, b7, s, key, data, rule);
    assert_eq!(in_short(same), done);
    assert!(a == new_track && b == new_marks, "written buffers");
    done
}

/// Correct by both.
#[allow(clippy::too_many_arguments)]
pub fn correct(
    track: &[u8],
    marks: &[u8],
    new_track: &mut [u8],
    new_marks: &mut [u8],
    s: u8,
    key: &[u8],
    data: &[u8],
    rule: GapRule,
) -> Answer {
    let (mut a, mut b) = (new_track.to_vec(), new_marks.to_vec());
    let other = gap_rule(rule);
    let same = fast::correct(track, marks, &mut a, &mut b, s, key, data, other);
    let done = reference::correct(track, marks, new_track, new_marks, s, key, data, rule);
    assert_eq!(in_short(same), done);
    assert!(a == new_track && b == new_marks, "written buffers");
    done
}

/// From cells, whose track is judged by both.
pub fn from_cells(bit_cells: &[u8], track: &mut [u8], marks: &mut [u8]) -> Answer {
    let done = reference::from_cells(bit_cells, track, marks);
    accept(track, marks);
    done
}

/// To cells of a track that is judged by both.
pub fn to_cells(track: &[u8], marks: &[u8], bit_cells: &mut [u8]) -> Answer {
    accept(track, marks);
    reference::to_cells(track, marks, bit_cells)
}

/// Has each track of a cylinder judged by both.
fn judge_each(tracks: &[u8], marks: &[u8], lengths: &[u16]) {
    let mut start = 0;
    for length in lengths.iter().map(|&length| usize::from(length)) {
        let place = start..start + length;
        accept(&tracks[place.clone()], &marks[place]);
        start += length;
    }
}

/// Read cylinder, whose tracks are judged by both.
pub fn read_cylinder(
    file: &[u8],
    tracks: &mut [u8],
    marks: &mut [u8],
    lengths: &mut [u16],
) -> (Answer, usize) {
    let (done, count) = reference::read_cylinder(file, tracks, marks, lengths);
    judge_each(tracks, marks, &lengths[..count]);
    (done, count)
}

/// Write cylinder, whose tracks are judged by both unless it is refused.
pub fn write_cylinder(
    tracks: &[u8],
    marks: &[u8],
    lengths: &[u16],
    file: &mut [u8],
) -> (Answer, usize) {
    let (done, length) = reference::write_cylinder(tracks, marks, lengths, file);
    if done == Answer::OK {
        judge_each(tracks, marks, lengths);
    }
    (done, length)
}
