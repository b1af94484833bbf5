//! The answers of the calls.

/// What a call answers: a number, a second number and the place on the track it speaks of.
#[derive(Clone, Copy, PartialEq, Eq, Debug)]
pub struct Answer {
    /// The number.
    pub number: u8,
    /// The second number: with answers 10 and 11 the first thing wrong with the block, else 0.
    pub fault: u8,
    /// The place.
    pub place: usize,
}

/// 0: the call did what was asked.
pub const DONE: u8 = 0;
/// 1: a length or a mark value is not allowed.
pub const BAD_INPUT: u8 = 1;
/// 2: home opens nowhere in its window.
pub const NO_HOME: u8 = 2;
/// 3: home fails its check or closing byte.
pub const HOME_CHECK: u8 = 3;
/// 4: flag, cylinder or head of home.
pub const HOME_FIELDS: u8 = 4;
/// 5: a mark where none may be.
pub const STRAY_MARK: u8 = 5;
/// 6: sector 0's count does not open.
pub const NO_COUNT: u8 = 6;
/// 7: a count fails its check or closing byte.
pub const COUNT_CHECK: u8 = 7;
/// 8: flag, cylinder or head of a count.
pub const COUNT_FIELDS: u8 = 8;
/// 9: count, blocks or least gap do not fit the span.
pub const SPAN: u8 = 9;
/// 10: a key block is wrong.
pub const KEY: u8 = 10;
/// 11: a data block is wrong.
pub const DATA: u8 = 11;
/// 12: no such sector, or no further one.
pub const NOT_FOUND: u8 = 12;
/// 13: a sector number occurs twice.
pub const REPEATED: u8 = 13;
/// 14: a wanted field is not allowed.
pub const WANTED: u8 = 14;
/// 15: the sectors do not fit before the last gap.
pub const FULL: u8 = 15;

/// Second number 1: the block does not open.
pub const OPENING: u8 = 1;
/// Second number 2: it opens but fails its check, or is not the one zero byte of an empty data block.
pub const CHECK: u8 = 2;
/// Second number 3: it opens and passes its check but has another closing byte.
pub const CLOSING: u8 = 3;

impl Answer {
    /// The answer of a call that did what was asked.
    pub const OK: Answer = Answer::new(DONE, 0);

    /// An answer about one place.
    pub const fn new(number: u8, place: usize) -> Answer {
        Answer::block(number, 0, place)
    }

    /// An answer about the block that opens at a place, and what is wrong with it.
    pub const fn block(number: u8, fault: u8, place: usize) -> Answer {
        Answer {
            number,
            fault,
            place,
        }
    }
}
