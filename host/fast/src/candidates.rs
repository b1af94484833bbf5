//! The counts that can be read on a track of any quality.

use crate::home::{find_home, TO_COUNT};
use crate::marks::{Marks, Places};
use crate::opening::{of_mark, unmarked_at, LONG, SHORT, TO_MARK};
use crate::sector::{Fields, Span, BEFORE_INDEX, BEFORE_OPENING};

/// The candidates of a track from left to right, by jumps from mark to mark.
#[derive(Clone, Debug)]
pub struct Candidates<'a> {
    track: &'a [u8],
    marks: Marks<'a>,
    places: Places<'a>,
    /// The next mark.
    mark: Option<usize>,
    /// The opening of sector 0's count, until it is passed.
    first: Option<usize>,
}

impl<'a> Candidates<'a> {
    /// Before the first candidate of a pair, if its lengths and marks are right.
    pub fn of(track: &'a [u8], marks: &'a [u8]) -> Option<Candidates<'a>> {
        let marks = Marks::of(track, marks)?;
        let first = find_home(track, &marks).map(|home| home + TO_COUNT);
        let mut places = marks.places();
        Some(Candidates {
            track,
            mark: places.next(),
            places,
            first: first.filter(|&place| unmarked_at(track, &marks, place)),
            marks,
        })
    }

    /// The span of the next opening.
    #[inline(always)]
    fn next_span(&mut self) -> Option<Span> {
        loop {
            if let Some(place) = self.first_before_mark() {
                self.first = None;
                return Some(self.span(place, SHORT));
            }
            let opening = of_mark(self.track, &self.marks, self.mark?);
            self.mark = self.places.next();
            if let Some(place) = opening {
                self.mark = self.places.next();
                return Some(self.span(place, LONG));
            }
        }
    }

    /// The opening of sector 0's count, if it stands before that of the next mark.
    #[inline(always)]
    fn first_before_mark(&self) -> Option<usize> {
        let place = self.first?;
        match self.mark {
            Some(mark) if mark < place + TO_MARK => None,
            _ => Some(place),
        }
    }

    /// The span of an opening of a length, up to five bytes before the next mark or to index.
    #[inline(always)]
    fn span(&self, place: usize, opening: usize) -> Span {
        let (end, gap) = match self.mark {
            Some(mark) => (mark - TO_MARK, BEFORE_OPENING),
            None => (self.track.len(), BEFORE_INDEX),
        };
        Span {
            place,
            information: place + opening,
            end,
            gap,
        }
    }
}

impl Iterator for Candidates<'_> {
    type Item = (Span, Fields);

    #[inline(always)]
    fn next(&mut self) -> Option<(Span, Fields)> {
        loop {
            let span = self.next_span()?;
            if span.has_count() {
                if let Some(fields) = span.fields(self.track) {
                    return Some((span, fields));
                }
            }
        }
    }
}
