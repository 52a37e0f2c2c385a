//! The numbered refusals.

use std::error::Error;
use std::fmt;

/// A refusal of document 01, "Refusals by who causes them", or of document 02.
#[derive(Clone, Copy, Debug, PartialEq, Eq, PartialOrd, Ord, Hash)]
#[repr(u8)]
pub enum Refusal {
    /// 1: the table's length is no multiple of 8.
    TableLength = 1,
    /// 2: an unknown kind, a field outside its own range, as a default's mark above 1,
    /// a byte that must be zero and isn't, lowest above highest.
    Field = 2,
    /// 3: a record where its kind can't come, a position not below K, ranges out
    /// of order, a term's position repeated.
    Place = 3,
    /// 4: a position skipped, or unfilled when the ranges end.
    Unfilled = 4,
    /// 5: no rule.
    NoRule = 5,
    /// 6: a 33rd rule, fifth range of a position, ninth output character.
    TooMany = 6,
    /// 7: an output value may leave 0 to 65535.
    Value = 7,
    /// 8: a 65th class.
    Classes = 8,
    /// 9: a 257th state.
    States = 9,
    /// 10: under 19,961 words for compiling.
    ShortWords = 10,
    /// 11: under 19,961 words, or words that are not sound.
    UnsoundWords = 11,
    /// 12: the session is not sound.
    UnsoundSession = 12,
    /// 13: the session is closed or stopped.
    Ended = 13,
    /// 14: received plus piece above 1,099,511,627,776; for the second of a chain, the
    /// least middle length is its piece.
    TooLong = 14,
    /// 15: the output is shorter than may be needed; the buffer is shorter than
    /// the records of a typed text.
    ShortOutput = 15,
    /// 16: a text outside the grammar.
    Grammar = 16,
    /// 17: a product both of whose factors have a coefficient other than 0, a
    /// constant or coefficient of any part outside signed 32 bits, a final
    /// coefficient outside signed 16 bits.
    Expression = 17,
    /// 18: the middle buffer of a chain is shorter than the least middle length.
    ShortMiddle = 18,
}

impl Refusal {
    /// All refusals, by number.
    pub const ALL: [Refusal; 18] = [
        Refusal::TableLength,
        Refusal::Field,
        Refusal::Place,
        Refusal::Unfilled,
        Refusal::NoRule,
        Refusal::TooMany,
        Refusal::Value,
        Refusal::Classes,
        Refusal::States,
        Refusal::ShortWords,
        Refusal::UnsoundWords,
        Refusal::UnsoundSession,
        Refusal::Ended,
        Refusal::TooLong,
        Refusal::ShortOutput,
        Refusal::Grammar,
        Refusal::Expression,
        Refusal::ShortMiddle,
    ];

    /// "A refusal answers its number."
    pub const fn number(self) -> u32 {
        self as u32
    }

    /// The refusal with a number, 1 to 18.
    pub fn from_number(number: u32) -> Option<Refusal> {
        Refusal::ALL
            .into_iter()
            .find(|refusal| refusal.number() == number)
    }

    /// The words of document 01 or 02 for it.
    pub const fn words(self) -> &'static str {
        match self {
            Refusal::TableLength => "length no multiple of 8",
            Refusal::Field => {
                "unknown kind, a field outside its own range, \
                 a byte that must be zero and isn't, lowest above highest"
            }
            Refusal::Place => {
                "a record where its kind can't come, a position not below K, \
                 ranges out of order, a term's position repeated"
            }
            Refusal::Unfilled => "a position skipped, or unfilled when the ranges end",
            Refusal::NoRule => "no rule",
            Refusal::TooMany => "a 33rd rule, fifth range of a position, ninth output character",
            Refusal::Value => "an output value may leave 0 to 65535",
            Refusal::Classes => "a 65th class",
            Refusal::States => "a 257th state",
            Refusal::ShortWords => "under 19,961 words for compiling",
            Refusal::UnsoundWords => "under 19,961 words or not sound",
            Refusal::UnsoundSession => "session not sound",
            Refusal::Ended => "session closed or stopped",
            Refusal::TooLong => "received plus piece (direct: input) above 1,099,511,627,776",
            Refusal::ShortOutput => {
                "output shorter than E times (held + piece); \
                 finish: E times held; direct: E times input; text: its records; \
                 chain: the second's E times (held + least middle length)"
            }
            Refusal::Grammar => "text outside the grammar",
            Refusal::Expression => {
                "a product both of whose factors have a coefficient other than 0, \
                 a constant or coefficient of any part outside signed 32 bits, \
                 a final coefficient outside signed 16 bits"
            }
            Refusal::ShortMiddle => {
                "middle buffer shorter than the least middle length, \
                 the first's E times (held + piece); finish: E times held"
            }
        }
    }

    /// The refusal that a function of the header answered.
    pub(crate) fn answered(number: u32) -> Refusal {
        Refusal::from_number(number)
            .unwrap_or_else(|| panic!("{number} is no answer of the header"))
    }
}

impl fmt::Display for Refusal {
    fn fmt(&self, f: &mut fmt::Formatter<'_>) -> fmt::Result {
        write!(f, "refused {}: {}", self.number(), self.words())
    }
}

impl Error for Refusal {}
