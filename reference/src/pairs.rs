//! Request \[8\]: pairs outside the basic plane, "as RFC 2781 defines UTF-16: a first
//! unit 55296 to 56319 and a second 56320 to 57343".

use crate::table::Range;

/// How many characters a pair has.
pub const PAIR: usize = 2;
/// The first units.
pub const FIRST_UNITS: Range = Range {
    low: 55296,
    high: 56319,
};
/// The second units, which follow the first ones.
pub const SECOND_UNITS: Range = Range {
    low: 56320,
    high: 57343,
};

/// Whether a character is the first unit of a pair.
pub fn is_first_unit(character: u16) -> bool {
    FIRST_UNITS.contains(character)
}

/// Whether a character is the second unit of a pair.
pub fn is_second_unit(character: u16) -> bool {
    SECOND_UNITS.contains(character)
}

/// "Where [...] the next two characters are such a pair": whether a text begins with
/// one.
pub fn begins_with_pair(text: &[u16]) -> bool {
    matches!(*text, [first, second, ..] if is_first_unit(first) && is_second_unit(second))
}
