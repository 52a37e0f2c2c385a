//! Compiling a table into machine words.

use crate::automaton::TableAutomaton;
use crate::refusal::Refusal;
use crate::table::Table;
use crate::words::{lay_out, WORDS};

/// Compiles a table: "10, then 1, then records from the first, each by 2, 3, 4,
/// 6; at the table's end 4, 5, 7, 8, 9". Refused by 1 to 9 it leaves its 19,961
/// words zero; refused by 10 it changes nothing. Words beyond stay as found.
pub fn compile(table: &[u8], words: &mut [u16]) -> Result<(), Refusal> {
    let words = words.first_chunk_mut().ok_or(Refusal::ShortWords)?;
    words.fill(0);
    let automaton = TableAutomaton::of(Table::read(table)?)?;
    lay_out(&automaton, words);
    Ok(())
}

/// The machine words of a table, in a buffer of just the length asked for.
pub fn compiled(table: &[u8]) -> Result<Vec<u16>, Refusal> {
    let mut words = vec![0; WORDS];
    compile(table, &mut words)?;
    Ok(words)
}
