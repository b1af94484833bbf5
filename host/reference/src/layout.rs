//! Where the parts of a track lie, and how their fields are read.

use crate::answer::{CHECK, CLOSING, OPENING};
use crate::check::check;
use std::ops::Range;

/// Least and greatest track length in bytes.
pub const SHORTEST: usize = 3_815;
pub const LONGEST: usize = 4_002;
/// First and last start of the home address.
pub const FIRST_HOME: usize = 23;
pub const LAST_HOME: usize = 37;
/// Greatest number of sectors a track can hold.
pub const MOST_SECTORS: usize = 67;
/// Highest cylinder and head.
pub const LAST_CYLINDER: u16 = 202;
pub const LAST_HEAD: u16 = 9;
/// Opening of home address, first count, key and data.
pub const SHORT_OPENING: [u8; 6] = [0, 0, 0, 0, 0xFF, 0x0E];
/// Opening of the later counts, with the marks it carries.
pub const LONG_OPENING: [u8; 8] = [0, 0, 0, 0, 0xFF, 0xFF, 0xFF, 0x0E];
pub const LONG_MARKS: [u8; 8] = [0, 0, 0, 0, 0, 1, 1, 0];
/// Byte that ends home address, count, key and data.
pub const END_BYTE: u8 = 0xCC;
/// Check and end byte with which an empty data block may go on after its zero byte.
pub const EMPTY_TRAILER: [u8; 3] = [0xFF, 0xFF, END_BYTE];
/// Gap after the home address, after a count and after a key.
pub const GAP: usize = 11;
/// Information bytes of home address and count.
pub const HOME_INFORMATION: usize = 5;
pub const COUNT_INFORMATION: usize = 9;
/// Check bytes and end byte together.
pub const TRAILER: usize = 3;
/// The whole home address.
pub const HOME_LENGTH: usize = 6 + HOME_INFORMATION + TRAILER;
/// From the home address to the count of sector 0, and to that count's end.
pub const HOME_TO_COUNT: usize = HOME_LENGTH + GAP;
pub const HOME_TO_COUNT_END: usize = HOME_TO_COUNT + 6 + COUNT_INFORMATION + TRAILER;
/// Least gap after a block before a next opening, and before index.
pub const GAP_BEFORE_OPENING: usize = 21;
pub const GAP_BEFORE_INDEX: usize = 13;

/// Cylinder and head of a track.
#[derive(Clone, Copy, PartialEq, Eq, Debug, Default)]
pub struct Address {
    pub cylinder: u16,
    pub head: u16,
}

impl Address {
    /// Range rule of cylinder and head.
    pub fn in_range(self) -> bool {
        self.cylinder <= LAST_CYLINDER && self.head <= LAST_HEAD
    }
}

/// Place and fields of a home address.
#[derive(Clone, Copy, PartialEq, Eq, Debug)]
pub struct Home {
    pub place: usize,
    pub flag: u8,
    pub address: Address,
}

/// Where a span ends, and the gap it must keep after the data block.
#[derive(Clone, Copy, PartialEq, Eq, Debug)]
pub struct Span {
    pub end: usize,
    pub least_gap: usize,
}

/// A count: its opening's place and length, and its span.
#[derive(Clone, Copy, PartialEq, Eq, Debug)]
pub struct Count {
    pub place: usize,
    pub opening: usize,
    pub span: Span,
}

/// The fields of a count.
#[derive(Clone, Copy, PartialEq, Eq, Debug)]
pub struct Fields {
    pub flag: u8,
    pub address: Address,
    pub s: u8,
    pub kl: u8,
    pub dl: u16,
}

/// Openings of key and data block, and where the data block ends.
#[derive(Clone, Copy, PartialEq, Eq, Debug)]
pub struct Blocks {
    pub key: Option<usize>,
    pub data: usize,
    pub end: usize,
}

/// Rule for lengths and mark values of a pair that is read.
pub fn readable(track: &[u8], marks: &[u8]) -> bool {
    length_allowed(track.len()) && marks.len() == track.len() && marks.iter().all(|&mark| mark <= 1)
}

/// Range rule of the track length.
pub fn length_allowed(length: usize) -> bool {
    (SHORTEST..=LONGEST).contains(&length)
}

/// The six bytes of a short opening, whatever the marks.
pub fn short_opening_at(track: &[u8], place: usize) -> bool {
    track[place..].starts_with(&SHORT_OPENING)
}

/// The six bytes of a short opening, all without a mark.
pub fn unmarked_opening_at(track: &[u8], marks: &[u8], place: usize) -> bool {
    short_opening_at(track, place) && marks[place..place + 6].iter().all(|&mark| mark == 0)
}

/// The eight bytes of a long opening with exactly its marks; a missing mark settles most places.
pub fn marked_opening_at(track: &[u8], marks: &[u8], place: usize) -> bool {
    marks.get(place + 5) == Some(&1)
        && marks[place..].starts_with(&LONG_MARKS)
        && track[place..].starts_with(&LONG_OPENING)
}

/// Home address: leftmost unmarked opening in its window.
pub fn find_home(track: &[u8], marks: &[u8]) -> Option<usize> {
    (FIRST_HOME..=LAST_HOME).find(|&place| unmarked_opening_at(track, marks, place))
}

/// Span: up to five bytes before the next mark, or to index.
pub fn span_after(marks: &[u8], opening_end: usize) -> Span {
    match (opening_end..marks.len()).find(|&place| marks[place] == 1) {
        Some(mark) => Span {
            end: mark - 5,
            least_gap: GAP_BEFORE_OPENING,
        },
        None => Span {
            end: marks.len(),
            least_gap: GAP_BEFORE_INDEX,
        },
    }
}

/// Count of sector 0, which has a short opening.
pub fn first_count(marks: &[u8], place: usize) -> Count {
    Count {
        place,
        opening: 6,
        span: span_after(marks, place + 6),
    }
}

/// A later count, which has a long opening.
pub fn later_count(marks: &[u8], place: usize) -> Count {
    Count {
        place,
        opening: 8,
        span: span_after(marks, place + 8),
    }
}

/// Check bytes right after the information.
fn check_right(track: &[u8], information: Range<usize>) -> bool {
    let end = information.end;
    track[end..].starts_with(&check(&track[information]))
}

/// End byte after information that ends at a place, and its check.
fn end_byte_right(track: &[u8], information_end: usize) -> bool {
    track.get(information_end + 2) == Some(&END_BYTE)
}

/// Check and end byte after the information.
pub fn trailer_right(track: &[u8], information: Range<usize>) -> bool {
    let end = information.end;
    check_right(track, information) && end_byte_right(track, end)
}

/// Two bytes as a number, most significant first.
pub fn number_at(track: &[u8], place: usize) -> u16 {
    u16::from_be_bytes([track[place], track[place + 1]])
}

/// Cylinder and head stored at a place.
fn address_at(track: &[u8], place: usize) -> Address {
    Address {
        cylinder: number_at(track, place),
        head: number_at(track, place + 2),
    }
}

/// Fields of the home address at a place.
pub fn home_at(track: &[u8], place: usize) -> Home {
    Home {
        place,
        flag: track[place + 6],
        address: address_at(track, place + 7),
    }
}

impl Count {
    /// Place of the nine information bytes.
    pub fn information(&self) -> Range<usize> {
        let start = self.place + self.opening;
        start..start + COUNT_INFORMATION
    }

    /// Place after the end byte.
    pub fn end(&self) -> usize {
        self.information().end + TRAILER
    }

    /// Rule that the count lies in its span.
    pub fn fits(&self) -> bool {
        self.end() <= self.span.end
    }

    /// Check and end byte of the count.
    pub fn trailer_right(&self, track: &[u8]) -> bool {
        trailer_right(track, self.information())
    }

    /// Fields of the count.
    pub fn fields(&self, track: &[u8]) -> Fields {
        let start = self.information().start;
        Fields {
            flag: track[start],
            address: address_at(track, start + 1),
            s: track[start + 5],
            kl: track[start + 6],
            dl: number_at(track, start + 7),
        }
    }

    /// Places of the blocks that follow the count.
    pub fn blocks(&self, track: &[u8], fields: &Fields) -> Blocks {
        let after_count = self.end() + GAP;
        let (key, data) = match usize::from(fields.kl) {
            0 => (None, after_count),
            kl => (Some(after_count), after_count + 6 + kl + TRAILER + GAP),
        };
        let end = match usize::from(fields.dl) {
            0 => self.empty_block_end(track, data),
            dl => data + 6 + dl + TRAILER,
        };
        Blocks { key, data, end }
    }

    /// End of an empty data block: ten bytes if the three after the zero byte's place lie in the span and read as check and end byte, else seven.
    fn empty_block_end(&self, track: &[u8], opening: usize) -> usize {
        let (seven, ten) = (opening + 7, opening + 10);
        match ten <= self.span.end && track[seven..ten] == EMPTY_TRAILER {
            true => ten,
            false => seven,
        }
    }

    /// Rule that the blocks and the least gap lie in the span.
    pub fn blocks_fit(&self, blocks: &Blocks) -> bool {
        blocks.end + self.span.least_gap <= self.span.end
    }
}

/// Key block: the first that is wrong of opening, check and end byte.
pub fn key_right(track: &[u8], opening: usize, kl: u8) -> Result<(), u8> {
    block_right(track, opening, usize::from(kl))
}

/// Data block: the first that is wrong of opening, check and end byte, or of opening and one zero byte.
pub fn data_right(track: &[u8], opening: usize, dl: u16) -> Result<(), u8> {
    block_right(track, opening, usize::from(dl))
}

/// What is wrong with a block; without information its one zero byte counts as check, and nothing behind it is looked at.
fn block_right(track: &[u8], opening: usize, length: usize) -> Result<(), u8> {
    let (start, end) = (opening + 6, opening + 6 + length);
    let (checks, closes) = match length {
        0 => (track[start] == 0, true),
        _ => (check_right(track, start..end), end_byte_right(track, end)),
    };
    match (short_opening_at(track, opening), checks, closes) {
        (false, _, _) => Err(OPENING),
        (true, false, _) => Err(CHECK),
        (true, true, false) => Err(CLOSING),
        (true, true, true) => Ok(()),
    }
}
