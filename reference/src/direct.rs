//! Direct conversion.

use crate::lengths::Lengths;
use crate::meaning::{self, Ending};
use crate::refusal::Refusal;
use crate::table::Table;

/// What direct conversion answers: "closed or stopped, the place and the output
/// count".
#[derive(Clone, Copy, Debug, PartialEq, Eq)]
pub struct Conversion {
    /// Closed or stopped.
    pub ending: Ending,
    /// The input's end, or the place at which conversion stopped.
    pub place: usize,
    /// The number of characters written from the buffer's start.
    pub count: usize,
}

/// 14 for an input above the limit, then 15 for an output shorter than E times
/// the input.
pub fn refusal_for_lengths(most_outputs: usize, input: u64, output: u64) -> Option<Refusal> {
    let lengths = Lengths {
        received: 0,
        held: 0,
        piece: input,
        output,
    };
    lengths.refusal(most_outputs)
}

/// The table of a direct conversion with such lengths: "Direct 1 to 7, 14, 15."
pub fn accepted_table(table: &[u8], input: u64, output: u64) -> Result<Table, Refusal> {
    let table = Table::read(table)?;
    match refusal_for_lengths(table.most_outputs(), input, output) {
        Some(refusal) => Err(refusal),
        None => Ok(table),
    }
}

/// Direct conversion of an input under a table: the text of Definition 7 is
/// written from the buffer's start, the rest stays as found.
pub fn convert(table: &[u8], input: &[u16], output: &mut [u16]) -> Result<Conversion, Refusal> {
    let table = accepted_table(table, input.len() as u64, output.len() as u64)?;
    let meaning = meaning::convert(&table, input);
    let count = meaning.text.len();
    output[..count].copy_from_slice(&meaning.text);
    Ok(Conversion {
        ending: meaning.ending,
        place: meaning.place,
        count,
    })
}
