//! The sectors of an accepted track, for the calls that write.

use crate::accept::judge;
use crate::answer::*;
use crate::sector::Sector;

/// The greatest number of sectors that a track holds.
const MOST: usize = 67;

/// Where a sector stands and how long its parts are, kept in as few bytes as they take.
#[derive(Clone, Copy, Default)]
pub struct Placed {
    place: u16,
    information: u16,
    end: u16,
    dl: u16,
    kl: u8,
    s: u8,
}

impl Placed {
    /// What the writing calls need of a sector.
    fn of(sector: &Sector) -> Placed {
        Placed {
            place: sector.span.place as u16,
            information: sector.span.information as u16,
            end: sector.blocks.end as u16,
            dl: sector.fields.dl as u16,
            kl: sector.fields.kl() as u8,
            s: sector.fields.s(),
        }
    }

    /// Where its count opens.
    pub fn place(&self) -> usize {
        self.place.into()
    }

    /// Where its count's information starts.
    pub fn information(&self) -> usize {
        self.information.into()
    }

    /// The data block's end.
    pub fn end(&self) -> usize {
        self.end.into()
    }

    /// The key's length.
    pub fn kl(&self) -> usize {
        self.kl.into()
    }

    /// The data's length.
    pub fn dl(&self) -> usize {
        self.dl.into()
    }
}

/// The sectors from left to right.
pub struct Sectors {
    placed: [Placed; MOST],
    count: usize,
}

impl Sectors {
    /// Answer 1 for buffers of another length and what Accept answers, or the sectors.
    pub fn of(track: &[u8], marks: &[u8], buffers: [usize; 2]) -> Result<Sectors, Answer> {
        if buffers != [track.len(); 2] {
            return Err(Answer::new(BAD_INPUT, 0));
        }
        let (mut placed, mut count) = ([Placed::default(); MOST], 0);
        judge(track, marks, |sector| {
            placed[count] = Placed::of(sector);
            count += 1;
        })?;
        Ok(Sectors { placed, count })
    }

    /// All of them.
    pub fn all(&self) -> &[Placed] {
        &self.placed[..self.count]
    }

    /// The index of the one with a number.
    pub fn index_of(&self, s: u8) -> Option<usize> {
        self.all().iter().position(|placed| placed.s == s)
    }
}
