//! Rules typed at the station: request \[4\] of document 02.
//!
//! A text is read in the order of its refusals: the whole of it by the grammar
//! (16), then all of its expressions as constant and coefficients (17), then the
//! records by the table check (2 to 7), and the lent buffer last (15).
//!
//! - `cursor`: the unread part of a text, and its symbols
//! - `pattern`, `expression`: what stands in the quotes and in the list
//! - `part`: expressions brought to constant and coefficients
//! - [`cases`]: stored texts, each with what it comes to

pub mod cases;
mod cursor;
mod expression;
mod part;
mod pattern;

use crate::builder::encode_records;
use crate::refusal::Refusal;
use crate::table::{Record, Table};
use cursor::Cursor;
use expression::Expression;
use part::Part;
use pattern::Pattern;

/// Reads a text and writes its records at the buffer's start, the rest of which
/// stays as found; "the answer is their length in bytes". "A refused text writes
/// nothing."
pub fn from_text(text: &[u16], buffer: &mut [u8]) -> Result<usize, Refusal> {
    let table = encode_records(&records(text)?);
    Table::read(&table)?;
    let lent = buffer.get_mut(..table.len());
    lent.ok_or(Refusal::ShortOutput)?.copy_from_slice(&table);
    Ok(table.len())
}

/// The records of a text, "in the text's order", not checked yet; refused by 16
/// and then by 17, each for the whole text.
fn records(text: &[u16]) -> Result<Vec<Record>, Refusal> {
    let lines = lines(text)?;
    let mut records = Vec::new();
    for line in &lines {
        records.extend(line.opening());
        for output in &line.outputs {
            records.extend(Part::of(output)?.records()?);
        }
    }
    Ok(records)
}

/// "A text is any number of lines."
fn lines(text: &[u16]) -> Result<Vec<Line>, Refusal> {
    let mut cursor = Cursor::new(text);
    let mut lines = Vec::new();
    while !cursor.is_at_end() {
        lines.push(Line::read(&mut cursor)?);
    }
    Ok(lines)
}

/// A line: a pattern, none for the default's, and the output expressions.
struct Line {
    pattern: Option<Pattern>,
    outputs: Vec<Expression>,
}

impl Line {
    /// "A line is a pattern in `"`, `==>`, output expressions in square brackets
    /// with commas between (or none, as `[]`), and a semicolon." "The default's
    /// pattern is the bare word `else`."
    fn read(cursor: &mut Cursor) -> Result<Line, Refusal> {
        let pattern = if cursor.takes("else") {
            None
        } else {
            cursor.expects("\"")?;
            Some(Pattern::read(cursor)?)
        };
        cursor.expects("==>")?;
        cursor.expects("[")?;
        let mut outputs = Vec::new();
        if !cursor.takes("]") {
            outputs.push(Expression::read(cursor)?);
            while cursor.takes(",") {
                outputs.push(Expression::read(cursor)?);
            }
            cursor.expects("]")?;
        }
        cursor.expects(";")?;
        Ok(Line { pattern, outputs })
    }

    /// The records before the output characters: kind 1 and its ranges, or kind 5,
    /// which no text marks.
    fn opening(&self) -> Vec<Record> {
        match &self.pattern {
            Some(pattern) => pattern.records(),
            None => vec![Record::Default { marked: false }],
        }
    }
}
