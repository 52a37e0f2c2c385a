//! Hexadecimal digits of a source, which can't be typed.

use cobbletwill::record::{self, Record};

use crate::fault::Wrong;
use crate::units::{is_among, is_blank, symbol_from, units};

/// The word that begins a hexadecimal digit. No symbol of request 4 has its first
/// letter, so no text of that request has it outside the quotes.
const HEX: &str = "hex";
/// "A shift of 0, 4, 8 or 12."
const SHIFTS: [u16; 4] = [0, 4, 8, 12];

const NO_CHARACTER: &str = "`x` with a digit 0 to 7 has to come here";
const NO_COMMA: &str = "`,` and a shift have to come here";
const NO_SHIFT: &str = "a shift has to come here: 0, 4, 8 or 12";
const ALONE: &str = "a hexadecimal digit stands alone, in no sum, product or parentheses";

/// A hexadecimal digit of the character at a position, by its shift.
#[derive(Clone, Copy, Debug, PartialEq, Eq)]
pub struct Digit {
    /// The place behind it.
    pub end: usize,
    position: u8,
    shift: u8,
}

impl Digit {
    /// The digit that begins at a place, which is outside the quotes; none if it
    /// isn't there.
    pub fn at(text: &[u16], place: usize) -> Result<Option<Digit>, Wrong> {
        if !text[place..].starts_with(&units(HEX)) {
            return Ok(None);
        }
        let before = text[..place].iter().rfind(|&&unit| !is_blank(unit));
        if before.is_some_and(|&unit| is_among(unit, "+-*(")) {
            return Err((place, ALONE));
        }
        let mut reader = Reader {
            text,
            at: place + HEX.len(),
        };
        reader.expect("(", "`(` has to come here")?;
        reader.expect("x", NO_CHARACTER)?;
        let position = reader.position()?;
        reader.expect(",", NO_COMMA)?;
        let shift = reader.shift()?;
        reader.expect(")", "`)` has to come here")?;
        let behind = symbol_from(text, reader.at);
        if text.get(behind).is_some_and(|&unit| is_among(unit, "+-*")) {
            return Err((behind, ALONE));
        }
        Ok(Some(Digit {
            end: reader.at,
            position,
            shift,
        }))
    }

    /// Its record.
    pub fn record(&self) -> Record {
        record::digit(self.position, self.shift)
    }

    /// What stands for it in rules that are typed: its character, an expression that
    /// is refused by 2 to 7 where and as the digit is.
    pub fn stand_in(&self) -> Vec<u16> {
        units(&format!("x{}", self.position))
    }
}

/// A text that is read from a place on.
struct Reader<'t> {
    text: &'t [u16],
    at: usize,
}

impl Reader<'_> {
    /// Reads a symbol of one character, after blanks and line ends.
    fn expect(&mut self, symbol: &str, what: &'static str) -> Result<(), Wrong> {
        self.at = symbol_from(self.text, self.at);
        if !self.text[self.at..].starts_with(&units(symbol)) {
            return Err((self.at, what));
        }
        self.at += 1;
        Ok(())
    }

    /// Reads the digit that stands right behind `x`.
    fn position(&mut self) -> Result<u8, Wrong> {
        let position = self.decimal().filter(|&position| position < 8);
        let position = position.ok_or((self.at, NO_CHARACTER))?;
        self.at += 1;
        Ok(position as u8)
    }

    /// Reads a shift, at whose first character a wrong one is at fault.
    fn shift(&mut self) -> Result<u8, Wrong> {
        self.at = symbol_from(self.text, self.at);
        let start = self.at;
        let mut shift: u16 = 0;
        while let Some(decimal) = self.decimal() {
            shift = shift.saturating_mul(10).saturating_add(decimal);
            self.at += 1;
        }
        match self.at > start && SHIFTS.contains(&shift) {
            true => Ok(shift as u8),
            false => Err((start, NO_SHIFT)),
        }
    }

    /// The value of the next character as a decimal digit.
    fn decimal(&self) -> Option<u16> {
        let value = self.text.get(self.at)?.checked_sub(u16::from(b'0'));
        value.filter(|&value| value < 10)
    }
}
