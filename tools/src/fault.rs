//! What is wrong in a source, and where.

use std::error::Error;
use std::fmt;

/// A place by its number, and what is wrong there.
pub type Wrong = (usize, &'static str);

/// A place in a source.
#[derive(Clone, Copy, Debug, PartialEq, Eq)]
pub struct At {
    /// The line, counted from 1.
    pub line: usize,
    /// The column, counted from 1 in 16-bit units.
    pub column: usize,
}

impl At {
    /// The place behind a text.
    pub fn behind(text: &[u16]) -> At {
        let line_start = text.iter().rposition(|&unit| unit == 10);
        At {
            line: text.iter().filter(|&&unit| unit == 10).count() + 1,
            column: text.len() - line_start.map_or(0, |end| end + 1) + 1,
        }
    }
}

impl fmt::Display for At {
    fn fmt(&self, f: &mut fmt::Formatter<'_>) -> fmt::Result {
        write!(f, "line {}, column {}", self.line, self.column)
    }
}

/// Why a text is no source, and where.
#[derive(Clone, Debug, PartialEq, Eq)]
pub struct Fault {
    /// Where.
    pub at: At,
    /// What is wrong there.
    pub what: String,
}

impl fmt::Display for Fault {
    fn fmt(&self, f: &mut fmt::Formatter<'_>) -> fmt::Result {
        write!(f, "{}: {}", self.at, self.what)
    }
}

impl Error for Fault {}
