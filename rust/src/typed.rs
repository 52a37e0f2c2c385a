//! Rules typed as text.

use std::ops::Deref;

use crate::raw::{self, TABLE_SIZE};
use crate::refusal::Refusal;

/// A table's records, as bytes.
#[derive(Clone, Debug, PartialEq, Eq)]
pub struct Table(Vec<u8>);

impl Table {
    /// The table of rules that are typed as text, as request \[4\] of document 02 has
    /// it. Refused by 16, then by 17, each for anything in the whole text, then by 2, 3,
    /// 5, 6 or 7 as [`check`](crate::check) refuses the records. There is room for every
    /// table, so that 15 doesn't occur.
    pub fn from_text(text: &[u16]) -> Result<Table, Refusal> {
        let (mut table, mut length) = (vec![0; TABLE_SIZE], 0);
        match raw::from_text(text, &mut table, &mut length) {
            raw::OK => {
                // It is not above the length of the slice.
                table.truncate(length as usize);
                Ok(Table(table))
            }
            number => Err(Refusal::answered(number)),
        }
    }

    /// The records alone.
    pub fn into_bytes(self) -> Vec<u8> {
        self.0
    }
}

impl Deref for Table {
    type Target = [u8];

    fn deref(&self) -> &[u8] {
        &self.0
    }
}
