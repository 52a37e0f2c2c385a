//! Character classes.

use std::collections::BTreeSet;

use crate::refusal::Refusal;
use crate::table::{Range, Table};

/// The most classes of a compiled table.
pub const MAX_CLASSES: usize = 64;

/// A class number.
#[derive(Clone, Copy, Debug, PartialEq, Eq, PartialOrd, Ord, Hash)]
pub struct ClassNo(pub u16);

impl ClassNo {
    /// The number as a place in a list.
    pub fn index(self) -> usize {
        usize::from(self.0)
    }
}

/// "A character's class is that of the last start not above it." The starts
/// begin at 0 and rise.
pub fn class_of(starts: &[u16], character: u16) -> ClassNo {
    let not_above = starts.partition_point(|&start| start <= character);
    ClassNo((not_above - 1) as u16)
}

/// "Class starts are 0, every range's lowest, and every highest + 1 up to
/// 65535, without repeats, rising": those of some ranges.
pub fn starts_of<'r>(ranges: impl IntoIterator<Item = &'r Range>) -> BTreeSet<u16> {
    let edges = |range: &Range| [Some(range.low), range.high.checked_add(1)];
    let starts = ranges.into_iter().flat_map(edges).flatten();
    starts.chain([0]).collect()
}

/// The classes of a table.
#[derive(Clone, Debug, PartialEq, Eq)]
pub struct Classes {
    starts: Vec<u16>,
}

impl Classes {
    /// The classes by the starts of all ranges; "a 65th class" is refused by 8.
    pub fn of(table: &Table) -> Result<Classes, Refusal> {
        let starts = starts_of(table.ranges());
        if starts.len() > MAX_CLASSES {
            return Err(Refusal::Classes);
        }
        Ok(Classes {
            starts: starts.into_iter().collect(),
        })
    }

    /// The class starts, rising from 0.
    pub fn starts(&self) -> &[u16] {
        &self.starts
    }

    /// The class of a character.
    pub fn class(&self, character: u16) -> ClassNo {
        class_of(&self.starts, character)
    }
}
