//! A source's table, if it compiles; else what is wrong, and where in the source.

use cobbletwill::Machine;

use crate::listing::verdict;
use crate::place::crowding_rule;
use crate::source::{text, Source};

/// The table of a source's bytes, or the line and column at which it is no source
/// or is refused, with the reason.
pub fn build(source: &[u8]) -> Result<Vec<u8>, String> {
    let text = text(source).map_err(|fault| fault.to_string())?;
    let source = Source::read(text).map_err(|fault| fault.to_string())?;
    let table = source.table().map_err(|fault| fault.to_string())?;
    match Machine::compile(&table) {
        Ok(_) => Ok(table),
        // By 8 or 9, for its records are accepted.
        Err(refusal) => {
            let at = source.at_rule(crowding_rule(table.as_chunks().0, refusal));
            Err(format!("{at}: {}", verdict(&table).trim_end()))
        }
    }
}
