//! Two machines in a row.

use crate::machine::Machine;
use crate::raw::{self, Session};
use crate::refusal::Refusal;
use crate::session::Status;

/// What an accepted feed or finish of a chain answers.
#[derive(Clone, Copy, Debug, PartialEq, Eq)]
pub struct ChainProgress {
    /// The number of characters that the second wrote from the buffer's start.
    pub written: usize,
    /// The first's status after the call.
    pub first: Status,
    /// The second's.
    pub second: Status,
}

/// A chain: what the first machine writes is fed to the second. It has a session of each
/// and the middle buffer between, which it makes as long as a call needs, so that no call
/// is refused by 18.
///
/// From fresh sessions, once a finish is accepted or the second stops, the joined outputs
/// are what the second table makes of the text that the first makes of the accepted
/// pieces, where the first closes on them. A stop of either ends the chain: later calls
/// are refused by 13. Where the first alone stops, the second has its text up to there
/// and isn't finished.
///
/// ```
/// use cobbletwill::{Chain, Machine, Status, Table};
///
/// let compile = |typed: &str| {
///     let typed: Vec<u16> = typed.encode_utf16().collect();
///     Machine::compile(&Table::from_text(&typed)?)
/// };
/// // The maker's table undoes an escape, the operator's writes `W=` as the element HG.
/// let maker = compile("\"&#61;\" ==> [61]; else ==> [x0];")?;
/// let operator = compile("\"W=\" ==> [72, 71, 32]; else ==> [x0];")?;
///
/// let mut chain = Chain::new(&maker, &operator);
/// let mut record = Vec::new();
/// for piece in ["W&#", "61;2.14"] {
///     let piece: Vec<u16> = piece.encode_utf16().collect();
///     let mut output = vec![0; chain.feed_room(piece.len())];
///     let fed = chain.feed(&piece, &mut output)?;
///     record.extend(&output[..fed.written]);
/// }
/// let mut output = vec![0; chain.finish_room()];
/// let finished = chain.finish(&mut output)?;
/// record.extend(&output[..finished.written]);
/// assert_eq!(String::from_utf16_lossy(&record), "HG 2.14");
/// assert_eq!((finished.first, finished.second), (Status::Closed, Status::Closed));
/// # Ok::<(), cobbletwill::Refusal>(())
/// ```
#[derive(Clone, Debug)]
pub struct Chain<'a> {
    first_machine: &'a Machine,
    first: Session,
    second_machine: &'a Machine,
    second: Session,
    middle: Vec<u16>,
}

impl<'a> Chain<'a> {
    /// A chain of fresh sessions. Both machines may be the same.
    pub fn new(first_machine: &'a Machine, second_machine: &'a Machine) -> Chain<'a> {
        let fresh = Session::fresh();
        Chain::resume(first_machine, fresh, second_machine, fresh)
    }

    /// A chain that goes on from sessions, each of which belongs to its machine. They may
    /// have any values; a call on one that is not sound is refused by 12.
    pub fn resume(
        first_machine: &'a Machine,
        first: Session,
        second_machine: &'a Machine,
        second: Session,
    ) -> Chain<'a> {
        Chain {
            first_machine,
            first,
            second_machine,
            second,
            middle: Vec::new(),
        }
    }

    /// The first's session.
    pub fn first(&self) -> &Session {
        &self.first
    }

    /// The second's session. Where the first stopped and this is open, a copy of it may
    /// be finished by itself.
    pub fn second(&self) -> &Session {
        &self.second
    }

    /// The output that a feed of so many characters needs: the second's E times its held
    /// and the least middle length, which is the first's E times (held + piece). The
    /// greatest number stands for a greater one; 14 refuses so long a piece. A session
    /// that can't be sound adds nothing; 12 refuses it.
    pub fn feed_room(&self, piece_length: usize) -> usize {
        let middle = self.first.feed_room(self.first_machine, piece_length);
        self.second.feed_room(self.second_machine, middle)
    }

    /// The output that a finish needs: as for a feed of nothing.
    pub fn finish_room(&self) -> usize {
        self.feed_room(0)
    }

    /// The longest piece of which a feed into so much output is refused neither by 14 nor
    /// by 15. 0 too for sessions that can't be sound, and where the output is too short
    /// for the characters held alone or 14 refuses these for the second; but with an E of
    /// the first of 0, the second and the output don't matter.
    pub fn longest_piece(&self, room: usize) -> usize {
        let passing = self.second.longest_piece(self.second_machine, room);
        self.first.longest_piece(self.first_machine, passing)
    }

    /// Feeds a piece to the first, and its text to the second, whose output is written
    /// from the buffer's start. Refused by 12 to 15, with nothing changed.
    pub fn feed(&mut self, piece: &[u16], output: &mut [u16]) -> Result<ChainProgress, Refusal> {
        self.lengthen_middle(piece.len());
        let (mut written, mut first_status) = (0, 0);
        let answer = raw::chain_feed(
            self.first_machine.words(),
            &mut self.first,
            self.second_machine.words(),
            &mut self.second,
            piece,
            &mut self.middle,
            output,
            &mut written,
            &mut first_status,
        );
        progress(answer, written, first_status)
    }

    /// Gives the input its end: the first is finished and its text fed to the second,
    /// which is finished too where the first closed. Refused by 12 to 15, with nothing
    /// changed.
    pub fn finish(&mut self, output: &mut [u16]) -> Result<ChainProgress, Refusal> {
        self.lengthen_middle(0);
        let (mut written, mut first_status) = (0, 0);
        let answer = raw::chain_finish(
            self.first_machine.words(),
            &mut self.first,
            self.second_machine.words(),
            &mut self.second,
            &mut self.middle,
            output,
            &mut written,
            &mut first_status,
        );
        progress(answer, written, first_status)
    }

    /// Makes the middle buffer at least as long as a call with so long a piece needs.
    fn lengthen_middle(&mut self, piece_length: usize) {
        let least = self.first.feed_room(self.first_machine, piece_length);
        if self.middle.len() < least {
            self.middle.resize(least, 0);
        }
    }
}

/// The answer of a call, which is the second's status or a refusal. What was written is
/// within the output.
fn progress(answer: u32, written: u64, first_status: u32) -> Result<ChainProgress, Refusal> {
    let second = Status::answered(answer)?;
    Ok(ChainProgress {
        written: written as usize,
        first: Status::answered(first_status)?,
        second,
    })
}
