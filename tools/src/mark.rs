//! The mark of a source's default, which can't be typed.

use cobbletwill::record::{DEFAULT, MARKED_DEFAULT};

use crate::fault::Wrong;
use crate::units::{is_blank, symbol_from, units};

/// The symbols that stand behind `else` for the mark. No symbol of request 4 has the first
/// letter of `keep`, so no text of that request has it outside the quotes.
pub const MARK: [&str; 2] = ["keep", "pairs"];

const NO_ELSE: &str = "`keep pairs` stands behind `else`, and nowhere else";
const NO_PAIRS: &str = "`pairs` has to come here";

/// The place behind the mark that begins at a place, which is outside the quotes; none
/// if it isn't there.
pub fn mark_end(text: &[u16], place: usize) -> Result<Option<usize>, Wrong> {
    let [keep, pairs] = MARK.map(units);
    if !text[place..].starts_with(&keep) {
        return Ok(None);
    }
    let before = text[..place].iter().rposition(|&unit| !is_blank(unit));
    let before = &text[..before.map_or(0, |last| last + 1)];
    if !before.ends_with(&units("else")) {
        return Err((place, NO_ELSE));
    }
    let second = symbol_from(text, place + keep.len());
    match text[second..].starts_with(&pairs) {
        true => Ok(Some(second + pairs.len())),
        false => Err((second, NO_PAIRS)),
    }
}

/// Marks the default of an accepted table that has one.
pub fn mark_default(table: &mut [u8]) {
    let mut records = table.as_chunks_mut().0.iter_mut();
    let default = records.find(|record| **record == DEFAULT);
    *default.expect("the mark stands behind `else`") = MARKED_DEFAULT;
}
