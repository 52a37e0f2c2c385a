//! The table check and direct conversion.

use crate::raw;
use crate::refusal::Refusal;

/// How a conversion ended.
#[derive(Clone, Copy, Debug, PartialEq, Eq)]
pub enum Ending {
    /// At the input's end.
    Closed,
    /// Where no rule fits and there is no default.
    Stopped,
}

/// What direct conversion answers: "closed or stopped, the place and the output
/// count".
#[derive(Clone, Copy, Debug, PartialEq, Eq)]
pub struct Conversion {
    /// Closed or stopped.
    pub ending: Ending,
    /// The input's end, or the place at which conversion stopped.
    pub place: usize,
    /// The number of characters written from the buffer's start.
    pub written: usize,
}

/// The table check: refused by the first of 1 to 7 in document 01's order.
pub fn check(table: &[u8]) -> Result<(), Refusal> {
    match raw::check(table) {
        raw::OK => Ok(()),
        number => Err(Refusal::answered(number)),
    }
}

/// Converts a whole input under a table, by Definition 7; the rest of the output
/// stays as found. Refused by 1 to 7, 14 or 15, with nothing changed.
///
/// [`MAX_EXPANSION`](crate::MAX_EXPANSION) times the input is room enough.
pub fn convert(table: &[u8], input: &[u16], output: &mut [u16]) -> Result<Conversion, Refusal> {
    let (mut place, mut written) = (0, 0);
    let ending = match raw::convert(table, input, output, &mut place, &mut written) {
        raw::OK => Ending::Closed,
        raw::STOPPED => Ending::Stopped,
        number => return Err(Refusal::answered(number)),
    };
    // Neither is above the length of its slice.
    Ok(Conversion {
        ending,
        place: place as usize,
        written: written as usize,
    })
}
