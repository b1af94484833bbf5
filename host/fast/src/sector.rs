//! One sector in its span: count, key and data block.

use crate::answer::*;
use crate::home::CLOSING_BYTE;
use crate::opening::{short_at, SHORT};
use crate::words::{eight_at, first, folded, four_at, sum_at};

/// Information, check and closing byte of a count.
pub const COUNT: usize = 12;
/// The gap behind a count or a key.
pub const GAP: usize = 11;
/// Check and closing byte.
pub const TRAILER: usize = 3;
/// The least gap behind a data block, before an opening and before index.
pub const BEFORE_OPENING: usize = 21;
pub const BEFORE_INDEX: usize = 13;
/// Check and closing byte that may follow the zero byte of an empty data block.
const EMPTY_TRAILER: u32 = 0x00CC_FFFF;

/// A count by its opening's place, and the span it stands in.
#[derive(Clone, Copy)]
pub struct Span {
    /// Where the count opens.
    pub place: usize,
    /// Where its information starts.
    pub information: usize,
    /// Where the span ends.
    pub end: usize,
    /// The least gap behind the data block.
    pub gap: usize,
}

/// The fields of a count as they are stored.
#[derive(Clone, Copy)]
pub struct Fields {
    /// Flag, cylinder, head, S, KL and DL's high byte, the flag lowest.
    word: u64,
    /// DL.
    pub dl: usize,
}

/// Where the blocks of a sector stand.
#[derive(Clone, Copy)]
pub struct Blocks {
    /// The key's opening, if there is a key.
    pub key: usize,
    /// The data block's opening.
    pub data: usize,
    /// The data block's end.
    pub end: usize,
}

/// A sector as read.
#[derive(Clone, Copy)]
pub struct Sector {
    /// Its span.
    pub span: Span,
    /// Its count's fields.
    pub fields: Fields,
    /// Its blocks.
    pub blocks: Blocks,
}

impl Fields {
    /// Flag, cylinder and head, the flag lowest.
    #[inline(always)]
    pub fn flag_and_address(&self) -> u64 {
        self.word & first(5)
    }

    /// The flag.
    #[inline(always)]
    pub fn flag(&self) -> u8 {
        self.word as u8
    }

    /// S.
    #[inline(always)]
    pub fn s(&self) -> u8 {
        (self.word >> 40) as u8
    }

    /// KL.
    #[inline(always)]
    pub fn kl(&self) -> usize {
        usize::from((self.word >> 48) as u8)
    }
}

impl Span {
    /// Whether the count lies in the span.
    #[inline(always)]
    pub fn has_count(&self) -> bool {
        self.information + COUNT <= self.end
    }

    /// The fields of a count in its span, if its check and closing byte are right.
    #[inline(always)]
    pub fn fields(&self, track: &[u8]) -> Option<Fields> {
        let word = eight_at(track, self.information);
        let rest = four_at(track, self.information + 8);
        let summed = folded(word ^ u64::from(rest & 0x00FF_FFFF));
        let closed = rest >> 24 == u32::from(CLOSING_BYTE);
        let dl = (word >> 56 << 8) as usize | (rest & 0xFF) as usize;
        (summed == 0xFFFF && closed).then_some(Fields { word, dl })
    }

    /// The places of the blocks behind a count in its span.
    #[inline(always)]
    pub fn blocks(&self, track: &[u8], fields: &Fields) -> Blocks {
        let key = self.information + COUNT + GAP;
        let data = match fields.kl() {
            0 => key,
            kl => key + SHORT + kl + TRAILER + GAP,
        };
        let end = match fields.dl {
            0 => self.empty_end(track, data),
            dl => data + SHORT + dl + TRAILER,
        };
        Blocks { key, data, end }
    }

    /// The end of an empty data block: ten bytes if its check and closing byte follow within the span, else seven.
    fn empty_end(&self, track: &[u8], data: usize) -> usize {
        let (zero, ten) = (data + SHORT, data + SHORT + 1 + TRAILER);
        match ten <= self.end && four_at(track, zero) >> 8 == EMPTY_TRAILER {
            true => ten,
            false => zero + 1,
        }
    }

    /// Whether the blocks and the least gap lie in the span.
    #[inline(always)]
    pub fn has_blocks(&self, blocks: &Blocks) -> bool {
        blocks.end + self.gap <= self.end
    }
}

impl Sector {
    /// Answer 10, where there is a key.
    #[inline(always)]
    pub fn judge_key(&self, track: &[u8]) -> Result<(), Answer> {
        match self.fields.kl() {
            0 => Ok(()),
            kl => sound(
                KEY,
                block_fault(track, self.blocks.key, kl),
                self.blocks.key,
            ),
        }
    }

    /// Answer 11.
    #[inline(always)]
    pub fn judge_data(&self, track: &[u8]) -> Result<(), Answer> {
        let place = self.blocks.data;
        let fault = match self.fields.dl {
            0 => empty_fault(track, place),
            dl => block_fault(track, place, dl),
        };
        sound(DATA, fault, place)
    }
}

/// An answer about a block, unless its fault is 0.
#[inline(always)]
fn sound(number: u8, fault: u8, place: usize) -> Result<(), Answer> {
    match fault {
        0 => Ok(()),
        _ => Err(Answer::block(number, fault, place)),
    }
}

/// The first that is wrong of a block's opening, check and closing byte, or 0; the least gap follows the block.
#[inline(never)]
fn block_fault(track: &[u8], place: usize, length: usize) -> u8 {
    if !short_at(track, place) {
        OPENING
    } else if sum_at(track, place + SHORT, length + 2) != 0xFFFF {
        CHECK
    } else if track[place + SHORT + length + 2] != CLOSING_BYTE {
        CLOSING
    } else {
        0
    }
}

/// The first that is wrong of an empty data block's opening and zero byte, or 0.
#[inline(always)]
fn empty_fault(track: &[u8], place: usize) -> u8 {
    if !short_at(track, place) {
        OPENING
    } else if track[place + SHORT] != 0 {
        CHECK
    } else {
        0
    }
}
