//! The functions of `include/cobbletwill.h`, by way of the package for Rust, and
//! what direct conversion answers in the independent version's terms.

pub use cobbletwill::raw::{
    chain_feed, chain_finish, check, compile, convert, feed, finish, from_text, is_sound, preview,
    witness, Input, DEAD, INPUT_SIZE, OK, OPEN, STOPPED, TABLE_SIZE, USES_DEFAULT, USES_PAIRS,
    USES_SIZE,
};
pub use cobbletwill::{Session, Tally};
use reference::direct::Conversion;
use reference::meaning::Ending;

/// Direct conversion, whose answer is in the independent version's terms.
///
/// # Panics
///
/// As [`conversion`].
pub fn converted(table: &[u8], input: &[u16], output: &mut [u16]) -> Result<Conversion, u32> {
    let (mut place, mut count) = (0, 0);
    let answer = convert(table, input, output, &mut place, &mut count);
    conversion(answer, place, count)
}

/// What direct conversion answers, in the independent version's terms, or the
/// number of the refusal.
///
/// # Panics
///
/// If a place or a count doesn't fit, which no conversion of a slice has.
pub fn conversion(answer: u32, place: u64, count: u64) -> Result<Conversion, u32> {
    let ending = match answer {
        OK => Ending::Closed,
        STOPPED => Ending::Stopped,
        refusal => return Err(refusal),
    };
    Ok(Conversion {
        ending,
        place: usize::try_from(place).expect("a place in the input"),
        count: usize::try_from(count).expect("a place in the output"),
    })
}
