//! Patterns, as they stand in the quotes.

use super::cursor::Cursor;
use crate::refusal::Refusal;
use crate::table::{Range, Record, MAX_LENGTH};

/// "`"`, `\`, `[`, `]` and `$` need it in quotes": the backslash.
const MARKS: &[u8] = br#""\[]$"#;
/// "And `-` in brackets."
const MARKS_IN_BRACKETS: &[u8] = br#""\[]$-"#;

/// A pattern: the ranges of each item, and whether it is anchored.
pub struct Pattern {
    items: Vec<Vec<Range>>,
    anchored: bool,
}

impl Pattern {
    /// Reads on from the opening quote, the closing one included: "1 to 8 items";
    /// "`$` after the last item anchors".
    pub fn read(cursor: &mut Cursor) -> Result<Pattern, Refusal> {
        let mut items = Vec::new();
        let mut anchored = false;
        while !cursor.takes_at_once(b'"') {
            if anchored {
                return Err(Refusal::Grammar);
            }
            anchored = cursor.takes_at_once(b'$');
            if !anchored {
                items.push(item(cursor)?);
            }
        }
        match items.len() {
            1..=MAX_LENGTH => Ok(Pattern { items, anchored }),
            _ => Err(Refusal::Grammar),
        }
    }

    /// Kind 1, and kind 2 for each range as typed, position by position.
    pub fn records(&self) -> Vec<Record> {
        let rule = Record::Rule {
            length: self.items.len(),
            anchored: self.anchored,
        };
        let ranges = self
            .items
            .iter()
            .enumerate()
            .flat_map(|(position, ranges)| {
                ranges
                    .iter()
                    .map(move |&range| Record::Range { position, range })
            });
        [rule].into_iter().chain(ranges).collect()
    }
}

/// An item: "one character (a blank too) or, in square brackets, one or more
/// single characters or ranges, as `[0-9A-F]`".
fn item(cursor: &mut Cursor) -> Result<Vec<Range>, Refusal> {
    if !cursor.takes_at_once(b'[') {
        return Ok(vec![Range::one(plain(cursor, MARKS)?)]);
    }
    let mut ranges = vec![range(cursor)?];
    while !cursor.takes_at_once(b']') {
        ranges.push(range(cursor)?);
    }
    Ok(ranges)
}

/// A single character or a range within brackets, reversed or not.
fn range(cursor: &mut Cursor) -> Result<Range, Refusal> {
    let low = plain(cursor, MARKS_IN_BRACKETS)?;
    if !cursor.takes_at_once(b'-') {
        return Ok(Range::one(low));
    }
    let high = plain(cursor, MARKS_IN_BRACKETS)?;
    Ok(Range { low, high })
}

/// A character that stands for itself. "A backslash makes the next character
/// plain"; a mark without one is outside the grammar.
fn plain(cursor: &mut Cursor, marks: &[u8]) -> Result<u16, Refusal> {
    if cursor.takes_at_once(b'\\') {
        return cursor.character();
    }
    let character = cursor.character()?;
    let is_mark = marks.iter().any(|&mark| u16::from(mark) == character);
    match is_mark {
        true => Err(Refusal::Grammar),
        false => Ok(character),
    }
}
