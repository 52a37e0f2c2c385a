//! The numbered refusals.

/// A refusal of document 01, "Refusals by who causes them", or of document 02.
#[derive(Clone, Copy, Debug, PartialEq, Eq, PartialOrd, Ord, Hash)]
#[repr(u8)]
pub enum Refusal {
    /// 1: the table's length is no multiple of 8.
    TableLength = 1,
    /// 2: an unknown kind, a field outside its own range, a byte that must be
    /// zero and isn't, lowest above highest.
    Field = 2,
    /// 3: a record where its kind can't come, a position not below K, ranges
    /// out of order, a term's position repeated.
    Place = 3,
    /// 4: a position skipped, or unfilled when the ranges end.
    Unfilled = 4,
    /// 5: no rule.
    NoRule = 5,
    /// 6: a 33rd rule, fifth range of a position, ninth output character.
    TooMany = 6,
    /// 7: an output value may leave 0 to 65535.
    Value = 7,
    /// 8: a 65th class.
    Classes = 8,
    /// 9: a 257th state.
    States = 9,
    /// 10: under 19,961 words for compiling.
    ShortWords = 10,
    /// 11: under 19,961 words, or words that are not sound.
    UnsoundWords = 11,
    /// 12: the session is not sound.
    UnsoundSession = 12,
    /// 13: the session is closed or stopped.
    Ended = 13,
    /// 14: received plus piece above 1,099,511,627,776.
    TooLong = 14,
    /// 15: the output is shorter than may be needed; the records of a typed text
    /// don't fit the lent buffer.
    ShortOutput = 15,
    /// 16: a text outside the grammar.
    Grammar = 16,
    /// 17: a product both of whose factors then have a coefficient other than 0, a
    /// constant or coefficient of any part outside signed 32 bits, or a final
    /// coefficient outside signed 16 bits.
    Expression = 17,
    /// 18: the middle buffer is shorter than the least middle length.
    ShortMiddle = 18,
}

impl Refusal {
    /// "A refusal answers its number."
    pub fn number(self) -> u8 {
        self as u8
    }
}
