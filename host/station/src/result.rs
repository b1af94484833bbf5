//! The bit fields of a result.

use std::error::Error;
use std::fmt;
use std::ops::Range;

/// What was wrong with a key or a data block: the first that is wrong, in this order.
#[derive(Clone, Copy, PartialEq, Eq, Debug, Hash)]
pub enum Fault {
    /// The block does not open.
    Opening,
    /// It opens, but its check is wrong; of an empty data block, the byte behind the opening is not `00`.
    Check,
    /// It opens and passes its check, but its closing byte is not `CC`; never of an empty data block.
    Closing,
}

impl Fault {
    /// The second number that stands for it in an answer.
    pub fn number(self) -> u8 {
        match self {
            Fault::Opening => 1,
            Fault::Check => 2,
            Fault::Closing => 3,
        }
    }
}

impl fmt::Display for Fault {
    fn fmt(&self, f: &mut fmt::Formatter<'_>) -> fmt::Result {
        f.write_str(match self {
            Fault::Opening => "the opening is wrong",
            Fault::Check => "the check is wrong",
            Fault::Closing => "the closing byte is wrong",
        })
    }
}

/// What a call answers: a number, what was wrong with the block, and the place on the track it speaks of.
#[must_use]
#[derive(Clone, Copy, PartialEq, Eq, Debug, Hash)]
pub struct Answer {
    pub number: u8,
    /// Given with numbers 10 and 11, and with no other.
    pub fault: Option<Fault>,
    pub place: usize,
}

impl Answer {
    /// The answer of a call that did what was asked.
    pub const DONE: Answer = Answer {
        number: 0,
        fault: None,
        place: 0,
    };

    /// Whether the call did what was asked.
    pub fn is_done(self) -> bool {
        self.number == 0
    }

    /// The answer as a result, for callers that pass refusals on.
    pub fn done(self) -> Result<(), Answer> {
        match self.is_done() {
            true => Ok(()),
            false => Err(self),
        }
    }
}

impl fmt::Display for Answer {
    fn fmt(&self, f: &mut fmt::Formatter<'_>) -> fmt::Result {
        write!(f, "answer {} at {}", self.number, self.place)?;
        match self.fault {
            Some(fault) => write!(f, ": {fault}"),
            None => Ok(()),
        }
    }
}

impl Error for Answer {}

/// A count that Walk found: its opening's place and its fields.
#[derive(Clone, Copy, PartialEq, Eq, Debug, Hash)]
pub struct Candidate {
    pub place: usize,
    pub flag: u8,
    pub s: u8,
    pub kl: u8,
    pub dl: u16,
}

/// The plain number that a call returns.
#[derive(Clone, Copy)]
pub(crate) struct Word(pub u64);

impl Word {
    /// Bits `from` up to but not including `to`.
    fn bits(self, from: u32, to: u32) -> u64 {
        self.0 >> from & ((1 << (to - from)) - 1)
    }

    /// The answer's number, of every call.
    fn number(self) -> u8 {
        self.bits(0, 8) as u8
    }

    /// The place it speaks of, of every call.
    fn place(self) -> usize {
        self.bits(16, 32) as usize
    }

    /// What was wrong with the block, of every call but Walk.
    fn fault(self) -> Option<Fault> {
        match self.bits(8, 10) {
            0 => None,
            1 => Some(Fault::Opening),
            2 => Some(Fault::Check),
            _ => Some(Fault::Closing),
        }
    }

    /// Number, fault and place, of every call but Walk.
    pub fn answer(self) -> Answer {
        let (number, fault) = (self.number(), self.fault());
        let of_a_block = number == 10 || number == 11;
        debug_assert_eq!(fault.is_some(), of_a_block, "fault of {:016x}", self.0);
        debug_assert_eq!(self.bits(10, 15), 0, "unused bits of {:016x}", self.0);
        Answer {
            number,
            fault,
            place: self.place(),
        }
    }

    /// The answer of a call that says nothing more; the other bits are 0.
    pub fn only_answer(self) -> Answer {
        debug_assert_eq!(self.bits(15, 16), 0, "unused bits of {:016x}", self.0);
        debug_assert_eq!(self.bits(32, 64), 0, "unused bits of {:016x}", self.0);
        self.answer()
    }

    /// Which track Pair find speaks of: 0 the first, 1 the second.
    pub fn which(self) -> u64 {
        self.bits(15, 16)
    }

    /// Where the part lies that Find and Pair find hand out, or their refusal.
    pub fn part(self) -> Result<Range<usize>, Answer> {
        let (start, length) = (self.bits(32, 48) as usize, self.bits(48, 64) as usize);
        let answer = self.answer();
        if answer.is_done() {
            debug_assert_eq!(answer, Answer::DONE, "place of {:016x}", self.0);
            return Ok(start..start + length);
        }
        debug_assert_eq!(length, 0, "refusal with a part in {:016x}", self.0);
        Err(answer)
    }

    /// How many sectors List listed, or its refusal.
    pub fn sector_count(self) -> Result<usize, Answer> {
        let count = self.bits(32, 48) as usize;
        debug_assert_eq!(self.bits(15, 16), 0, "unused bits of {:016x}", self.0);
        debug_assert_eq!(self.bits(48, 64), 0, "unused bits of {:016x}", self.0);
        let answer = self.answer();
        if answer.is_done() {
            debug_assert_eq!(answer, Answer::DONE, "place of {:016x}", self.0);
            return Ok(count);
        }
        debug_assert_eq!(count, 0, "refusal with sectors in {:016x}", self.0);
        Err(answer)
    }

    /// How many tracks Read cylinder read, or how many bytes Write cylinder wrote, or their refusal, which has no place.
    pub fn given(self) -> Result<usize, Answer> {
        let given = self.bits(32, 64) as usize;
        debug_assert_eq!(self.bits(8, 32), 0, "unused bits of {:016x}", self.0);
        let answer = self.answer();
        debug_assert_eq!(answer.is_done(), given > 0, "given in {:016x}", self.0);
        answer.done().map(|()| given)
    }

    /// What Walk gives, which has its own layout: the flag stands where other calls have the fault.
    pub fn candidate(self) -> Result<Candidate, Answer> {
        let number = self.number();
        if number != 0 {
            debug_assert_eq!(self.0, u64::from(number), "refusal with fields");
            return Err(Answer {
                number,
                ..Answer::DONE
            });
        }
        Ok(Candidate {
            place: self.place(),
            flag: self.bits(8, 16) as u8,
            s: self.bits(32, 40) as u8,
            kl: self.bits(40, 48) as u8,
            dl: self.bits(48, 64) as u16,
        })
    }
}

#[cfg(test)]
mod tests {
    use super::*;

    /// Every field of a result from its own bits.
    #[test]
    fn fields_of_a_result() {
        let word = Word(0x0050_00B6_0000_8000);
        assert_eq!((word.which(), word.part()), (1, Ok(0xB6..0x106)));
        let refused = Word(0x0000_0000_007A_0009);
        let answer = Answer {
            number: 9,
            fault: None,
            place: 0x7A,
        };
        assert_eq!((refused.which(), refused.part()), (0, Err(answer)));
        assert_eq!(refused.only_answer(), answer);
        assert_eq!((answer.done(), Answer::DONE.done()), (Err(answer), Ok(())));
        assert_eq!(answer.to_string(), "answer 9 at 122");
    }

    /// Answers 10 and 11 with each fault, of either track.
    #[test]
    fn faults_of_a_result() {
        let cases = [
            (Fault::Opening, 1, "the opening is wrong"),
            (Fault::Check, 2, "the check is wrong"),
            (Fault::Closing, 3, "the closing byte is wrong"),
        ];
        for (fault, second, words) in cases {
            for number in [10, 11] {
                let answer = Answer {
                    number,
                    fault: Some(fault),
                    place: 153,
                };
                let word = 153 << 16 | second << 8 | u64::from(number);
                assert_eq!(Word(word).only_answer(), answer);
                assert_eq!((Word(word).which(), Word(word).part()), (0, Err(answer)));
                let other = Word(word | 0x8000);
                assert_eq!((other.which(), other.part()), (1, Err(answer)));
                let told = format!("answer {number} at 153: {words}");
                assert_eq!(answer.to_string(), told);
            }
            assert_eq!(u64::from(fault.number()), second);
        }
    }

    /// Words that no call gives are noticed: a fault without its number, a number without a fault, and bits without use.
    #[cfg(debug_assertions)]
    #[test]
    fn words_out_of_rule() {
        let numbers = (0..=24).filter(|number| ![10, 11].contains(number));
        let with_fault = numbers.flat_map(|number| [0x100, 0x200, 0x300].map(|f| f | number));
        let unused = [10, 11, 12, 13, 14].map(|bit| 1 << bit | 0x20A);
        for word in with_fault.chain([10, 11]).chain(unused) {
            let taken = std::panic::catch_unwind(|| Word(word).answer());
            assert!(taken.is_err(), "{word:016x}");
        }
        // Of List: a place without a refusal, sectors with one, bit 15, and the bits behind the number of sectors.
        for word in [0x1_0001_0000, 0x1_0000_0001, 0x1_0000_8000, 1 << 48] {
            let taken = std::panic::catch_unwind(|| Word(word).sector_count());
            assert!(taken.is_err(), "{word:016x}");
        }
        // Of a cylinder's file: a place with or without a refusal, something given with one, nothing given without, and bit 15.
        for word in [0x1_0001_0000, 0x1_0012, 0x1_0000_0012, 0, 0x1_0000_8000] {
            let taken = std::panic::catch_unwind(|| Word(word).given());
            assert!(taken.is_err(), "{word:016x}");
        }
    }

    /// The number of sectors from its own bits, and List's refusals.
    #[test]
    fn sectors_of_a_result() {
        assert_eq!(Word(0x0000_0043_0000_0000).sector_count(), Ok(67));
        let refused = Answer {
            number: 11,
            fault: Some(Fault::Check),
            place: 0x7A,
        };
        assert_eq!(Word(0x007A_020B).sector_count(), Err(refused));
    }

    /// What the calls for a cylinder's file give from its own bits, and their refusals.
    #[test]
    fn numbers_given_in_a_result() {
        assert_eq!(Word(0x0000_000A_0000_0000).given(), Ok(10));
        assert_eq!(Word(0x0000_B026_0000_0000).given(), Ok(45_094));
        assert_eq!(Word(0xFFFF_FFFF_0000_0000).given(), Ok(0xFFFF_FFFF));
        for number in [1, 18, 19, 20, 21, 24] {
            let refused = Answer {
                number,
                ..Answer::DONE
            };
            assert_eq!(Word(number.into()).given(), Err(refused));
        }
    }

    /// Every field of a step from its own bits.
    #[test]
    fn fields_of_a_step() {
        let candidate = Candidate {
            place: 122,
            flag: 0x80,
            s: 1,
            kl: 3,
            dl: 80,
        };
        assert_eq!(Word(0x0050_0301_007A_8000).candidate(), Ok(candidate));
        let flag = 0xFF;
        let flagged = Candidate { flag, ..candidate };
        assert_eq!(Word(0x0050_0301_007A_FF00).candidate(), Ok(flagged));
        let none = Answer {
            number: 12,
            fault: None,
            place: 0,
        };
        assert_eq!(Word(12).candidate(), Err(none));
    }
}
