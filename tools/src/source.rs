//! Tables from their sources: the text of change request 4, with two helps for
//! the bench. A line that begins with `#` is a comment, and in quotes the control
//! pictures ␀ to ␡ stand for the characters that they name. Beside its expressions
//! there is `hex(x0, 4)`, a hexadecimal digit of a character, by its shift, and behind
//! `else` there may be `keep pairs`, the mark of request 8.
//!
//! A source becomes rules that can be typed, which the library reads.

use std::mem::replace;
use std::ops::Range;

use cobbletwill::record::BYTES;
use cobbletwill::{Refusal, Table};

use crate::digit::Digit;
use crate::fault::Wrong;
pub use crate::fault::{At, Fault};
use crate::mark::{mark_default, mark_end};
use crate::refused::{line_start, place, readable};
use crate::units::{picture_of, pictured, units};

const NO_TEXT: &str = "a byte that is no UTF-8";
const CONTROL: &str = "a control character; its picture, as ␊, may stand here";
const TWICE: &str = "`keep pairs` stands here for a second time";

/// A source and its rules as they can be typed: what stands at a place of one stands
/// there in the other.
#[derive(Clone, Debug, PartialEq, Eq)]
pub struct Source {
    units: Vec<u16>,
    typed: Vec<u16>,
    digits: Vec<Digit>,
    keeps_pairs: bool,
}

impl Source {
    /// Reads what a source has beside rules that can be typed.
    pub fn read(text: &str) -> Result<Source, Fault> {
        let units = units(text);
        let mut source = Source {
            typed: without_comments(&units),
            units,
            digits: Vec::new(),
            keeps_pairs: false,
        };
        match source.bring_to_typed() {
            Ok(()) => Ok(source),
            // What stands before may be outside the grammar already.
            Err((from, _)) if readable(&source.typed[..from]).0 < from => {
                Err(source.refused(Refusal::Grammar))
            }
            Err((_, (place, what))) => Err(source.fault(place, what.to_owned())),
        }
    }

    /// The table, if the library accepts it; compiling may still refuse it by 8
    /// or 9.
    pub fn table(&self) -> Result<Vec<u8>, Fault> {
        let table = Table::from_text(&self.typed).map_err(|refusal| self.refused(refusal))?;
        let mut table = self.with_digits(table.into_bytes());
        if self.keeps_pairs {
            mark_default(&mut table);
        }
        Ok(table)
    }

    /// Where the source has a rule, by its number.
    pub(crate) fn at_rule(&self, number: usize) -> At {
        self.at(line_start(&self.typed, number))
    }

    /// Brings pictures, digits and the mark to what can be typed, up to a place from which
    /// on something is wrong; in quotes no control character stands but by its picture.
    fn bring_to_typed(&mut self) -> Result<(), (usize, Wrong)> {
        let (mut quoted, mut place) = (false, 0);
        while let Some(&unit) = self.typed.get(place) {
            match (quoted, u8::try_from(unit)) {
                (_, Ok(b'"')) => quoted = !quoted,
                (true, Ok(b'\\')) => place += 1,
                (true, _) if picture_of(unit).is_some() => {
                    return Err((place, (place, CONTROL)));
                }
                (true, _) => self.typed[place] = pictured(unit).unwrap_or(unit),
                (false, _) => { self.bring_symbol(place) }.map_err(|wrong| (place, wrong))?,
            }
            place += 1;
        }
        Ok(())
    }

    /// Brings a digit or the mark, if it begins at a place outside the quotes, to what can
    /// be typed: the digit to what stands for it, the mark to nothing, and blanks behind.
    fn bring_symbol(&mut self, place: usize) -> Result<(), Wrong> {
        if let Some(digit) = Digit::at(&self.typed, place)? {
            self.put(place..digit.end, &digit.stand_in());
            self.digits.push(digit);
        } else if let Some(end) = mark_end(&self.typed, place)? {
            if replace(&mut self.keeps_pairs, true) {
                return Err((place, TWICE));
            }
            self.put(place..end, &[]);
        }
        Ok(())
    }

    /// Puts what can be typed in the stead of a symbol, and blanks behind.
    fn put(&mut self, symbol: Range<usize>, stand_in: &[u16]) {
        let (head, rest) = self.typed[symbol].split_at_mut(stand_in.len());
        head.copy_from_slice(stand_in);
        rest.fill(u16::from(b' '));
    }

    /// The table with the digits in the stead of what stands for them: the last two
    /// records, a sum and its term, of the rules that end there.
    fn with_digits(&self, mut table: Vec<u8>) -> Vec<u8> {
        for digit in self.digits.iter().rev() {
            let beginning = [&self.typed[..digit.end], &units("];")].concat();
            let end = Table::from_text(&beginning)
                .expect("accepted as the whole")
                .len();
            table.splice(end - 2 * BYTES..end, digit.record());
        }
        table
    }

    /// The fault that the library has refused the typed rules for.
    fn refused(&self, refusal: Refusal) -> Fault {
        if refusal == Refusal::Grammar {
            let (place, may_come) = readable(&self.typed);
            return self.fault(place, format!("{refusal}; {may_come} may come here"));
        }
        self.fault(place(&self.typed, refusal), refusal.to_string())
    }

    /// A fault at a place.
    fn fault(&self, place: usize, what: String) -> Fault {
        let at = self.at(place);
        Fault { at, what }
    }

    /// The line and column of a place.
    fn at(&self, place: usize) -> At {
        At::behind(&self.units[..place])
    }
}

/// The table of a source.
pub fn table(text: &str) -> Result<Vec<u8>, Fault> {
    Source::read(text)?.table()
}

/// The text that a source's bytes are.
pub fn text(bytes: &[u8]) -> Result<&str, Fault> {
    str::from_utf8(bytes).map_err(|fault| {
        let before = &bytes[..fault.valid_up_to()];
        Fault {
            at: At::behind(&units(&String::from_utf8_lossy(before))),
            what: NO_TEXT.to_owned(),
        }
    })
}

/// A source with blanks in the stead of its comments.
fn without_comments(source: &[u16]) -> Vec<u16> {
    let mut kept = source.to_vec();
    let lines = kept.split_mut(|&unit| unit == u16::from(b'\n'));
    let comments = lines.filter(|line| line.first() == Some(&u16::from(b'#')));
    comments.for_each(|comment| comment.fill(u16::from(b' ')));
    kept
}
