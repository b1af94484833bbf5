//! The reading calls: Accept, Find, Pair find and Walk.

use crate::result::{Answer, Candidate, Word};

extern "C" {
    fn iso3561_accept(
        track: *const u8,
        track_length: usize,
        marks: *const u8,
        marks_length: usize,
    ) -> u64;
    fn iso3561_find(
        track: *const u8,
        track_length: usize,
        marks: *const u8,
        marks_length: usize,
        sector: u8,
        wanted: u8,
    ) -> u64;
    fn iso3561_pair_find(
        track: *const u8,
        track_length: usize,
        marks: *const u8,
        marks_length: usize,
        second_track: *const u8,
        second_track_length: usize,
        second_marks: *const u8,
        second_marks_length: usize,
        sector: u8,
        wanted: u8,
    ) -> u64;
    fn iso3561_walk(
        track: *const u8,
        track_length: usize,
        marks: *const u8,
        marks_length: usize,
        from: u64,
    ) -> u64;
}

/// Bytes and marks of one track.
pub type Lent<'t> = (&'t [u8], &'t [u8]);

/// What is asked for.
#[derive(Clone, Copy, PartialEq, Eq, Debug, Hash)]
pub enum Wanted {
    Key,
    Data,
}

/// One of the two tracks of a pair.
#[derive(Clone, Copy, PartialEq, Eq, Debug, Hash)]
pub enum Which {
    First,
    Second,
}

impl Wanted {
    /// The number that stands for it in a call.
    fn code(self) -> u8 {
        match self {
            Wanted::Key => 0,
            Wanted::Data => 1,
        }
    }
}

/// Accept: judges the whole track.
///
/// A key or data block that is wrong is refused with 10 or 11, and with what was wrong with it.
///
/// ```
/// use station::{accept, blank, find, Answer, Fault, NewTrack, Wanted};
///
/// let (mut track, mut marks) = (vec![0; 3_906], vec![0; 3_906]);
/// let wanted = NewTrack {
///     key: b"KEY",
///     data: b"ISO 3561",
///     ..NewTrack::default()
/// };
/// assert!(blank(&mut track, &mut marks, &wanted).is_done());
/// assert!(accept(&track, &marks).is_done());
///
/// // The key's block opens at 84; its closing byte follows three bytes of key and two of check.
/// track[84 + 6 + 3 + 2] = 0xCD;
/// let refused = accept(&track, &marks);
/// assert_eq!(refused, Answer { number: 10, fault: Some(Fault::Closing), place: 84 });
/// assert_eq!(refused.to_string(), "answer 10 at 84: the closing byte is wrong");
/// assert_eq!(find(&track, &marks, 0, Wanted::Key), Err(refused));
/// assert_eq!(find(&track, &marks, 0, Wanted::Data), Ok(&b"ISO 3561"[..]));
///
/// // A wrong opening comes before it.
/// track[84] = 0xCD;
/// assert_eq!(accept(&track, &marks).fault, Some(Fault::Opening));
/// ```
pub fn accept(track: &[u8], marks: &[u8]) -> Answer {
    // SAFETY: both slices are lent whole and for reading only.
    let word = unsafe { iso3561_accept(track.as_ptr(), track.len(), marks.as_ptr(), marks.len()) };
    Word(word).only_answer()
}

/// Find: the key or data of the one readable sector with this number.
pub fn find<'t>(
    track: &'t [u8],
    marks: &[u8],
    sector: u8,
    wanted: Wanted,
) -> Result<&'t [u8], Answer> {
    let word = find_word(track, marks, sector, wanted.code());
    debug_assert_eq!(word.which(), 0, "Find speaks of one track");
    word.part().map(|part| &track[part])
}

/// Find with any code for what is asked for.
fn find_word(track: &[u8], marks: &[u8], sector: u8, code: u8) -> Word {
    // SAFETY: both slices are lent whole and for reading only.
    Word(unsafe {
        iso3561_find(
            track.as_ptr(),
            track.len(),
            marks.as_ptr(),
            marks.len(),
            sector,
            code,
        )
    })
}

/// Pair find: the part from the first track or from its alternative, and which of the two it speaks of.
pub fn pair_find<'t>(
    first: Lent<'t>,
    second: Lent<'t>,
    sector: u8,
    wanted: Wanted,
) -> (Which, Result<&'t [u8], Answer>) {
    let word = pair_find_word(first, second, sector, wanted.code());
    let (which, track) = match word.which() {
        0 => (Which::First, first.0),
        _ => (Which::Second, second.0),
    };
    (which, word.part().map(|part| &track[part]))
}

/// Pair find with any code for what is asked for.
fn pair_find_word(first: Lent, second: Lent, sector: u8, code: u8) -> Word {
    // SAFETY: all four slices are lent whole and for reading only.
    Word(unsafe {
        iso3561_pair_find(
            first.0.as_ptr(),
            first.0.len(),
            first.1.as_ptr(),
            first.1.len(),
            second.0.as_ptr(),
            second.0.len(),
            second.1.as_ptr(),
            second.1.len(),
            sector,
            code,
        )
    })
}

/// Walk: the first readable count whose opening's place is at least `from`.
pub fn walk_from(track: &[u8], marks: &[u8], from: usize) -> Result<Candidate, Answer> {
    // SAFETY: both slices are lent whole and for reading only.
    let word = unsafe {
        iso3561_walk(
            track.as_ptr(),
            track.len(),
            marks.as_ptr(),
            marks.len(),
            from as u64,
        )
    };
    Word(word).candidate()
}

/// All readable counts from left to right; a pair out of rule gives its answer once.
pub fn candidates<'t>(track: &'t [u8], marks: &'t [u8]) -> Candidates<'t> {
    Candidates {
        lent: (track, marks),
        next: Some(0),
    }
}

/// A walk over a track; it is at an end when no place is left to go on from.
#[derive(Clone, Debug)]
pub struct Candidates<'t> {
    lent: Lent<'t>,
    next: Option<usize>,
}

impl Iterator for Candidates<'_> {
    type Item = Result<Candidate, Answer>;

    fn next(&mut self) -> Option<Self::Item> {
        let step = walk_from(self.lent.0, self.lent.1, self.next?);
        self.next = step.ok().map(|candidate| candidate.place + 1);
        match step {
            Err(Answer { number: 12, .. }) => None,
            other => Some(other),
        }
    }
}

impl std::iter::FusedIterator for Candidates<'_> {}

#[cfg(test)]
mod tests {
    use super::*;

    const UNKNOWN: Answer = Answer {
        number: 14,
        fault: None,
        place: 0,
    };

    /// A wanted part that is neither key nor data is refused.
    #[test]
    fn unknown_parts() {
        let track = reference::generate::sound(0);
        let lent = (&track.0[..], &track.1[..]);
        for code in 2..=255 {
            let found = find_word(lent.0, lent.1, 0, code);
            assert_eq!(found.part(), Err(UNKNOWN));
            let paired = pair_find_word(lent, lent, 0, code);
            assert_eq!((paired.which(), paired.part()), (0, Err(UNKNOWN)));
        }
    }
}
