//! The unread part of a typed text.

use crate::refusal::Refusal;

/// A blank, and the two line ends.
const BLANKS: [u16; 3] = [32, 10, 13];

/// The unread part of a text.
pub struct Cursor<'t> {
    unread: &'t [u16],
}

impl<'t> Cursor<'t> {
    /// All of a text is unread.
    pub fn new(text: &'t [u16]) -> Cursor<'t> {
        Cursor { unread: text }
    }

    /// Takes the next character, whatever it is; 16 at the text's end.
    pub fn character(&mut self) -> Result<u16, Refusal> {
        let (&first, rest) = self.unread.split_first().ok_or(Refusal::Grammar)?;
        self.unread = rest;
        Ok(first)
    }

    /// Takes the characters up to the first that is not among those asked for.
    pub fn run_of(&mut self, among: impl Fn(u16) -> bool) -> &'t [u16] {
        let end = self.unread.iter().position(|&character| !among(character));
        let (run, rest) = self.unread.split_at(end.unwrap_or(self.unread.len()));
        self.unread = rest;
        run
    }

    /// Takes this character if it comes at once; says whether it did.
    pub fn takes_at_once(&mut self, mark: u8) -> bool {
        let comes = self.unread.first() == Some(&u16::from(mark));
        if comes {
            self.unread = &self.unread[1..];
        }
        comes
    }

    /// "Blanks (32) and line ends (10, 13) outside the quotes count for nothing
    /// between symbols."
    pub fn skip_blanks(&mut self) {
        self.run_of(|character| BLANKS.contains(&character));
    }

    /// Whether nothing but blanks is unread.
    pub fn is_at_end(&mut self) -> bool {
        self.skip_blanks();
        self.unread.is_empty()
    }

    /// Takes this symbol if it comes next; says whether it did.
    pub fn takes(&mut self, symbol: &str) -> bool {
        self.skip_blanks();
        let Some((next, rest)) = self.unread.split_at_checked(symbol.len()) else {
            return false;
        };
        let comes = symbol.bytes().map(u16::from).eq(next.iter().copied());
        if comes {
            self.unread = rest;
        }
        comes
    }

    /// Takes this symbol, which has to come next, else 16.
    pub fn expects(&mut self, symbol: &str) -> Result<(), Refusal> {
        match self.takes(symbol) {
            true => Ok(()),
            false => Err(Refusal::Grammar),
        }
    }
}
