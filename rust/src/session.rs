//! Sessions, feed, finish and preview.

use crate::machine::Machine;
use crate::raw::{self, Session, HELD_SIZE, MAX_CHARACTERS, USES_DEFAULT, USES_PAIRS};
use crate::refusal::Refusal;

/// The status of a session.
#[derive(Clone, Copy, Debug, PartialEq, Eq)]
pub enum Status {
    /// Waits for a piece or the end.
    Open,
    /// The input's end was reached.
    Closed,
    /// No rule fitted and there is no default.
    Stopped,
}

impl Status {
    /// The status that a function of the header answered, or the refusal.
    pub(crate) fn answered(number: u32) -> Result<Status, Refusal> {
        match number {
            raw::OK => Ok(Status::Closed),
            raw::STOPPED => Ok(Status::Stopped),
            raw::OPEN => Ok(Status::Open),
            number => Err(Refusal::answered(number)),
        }
    }
}

/// What an accepted feed or finish answers.
#[derive(Clone, Copy, Debug, PartialEq, Eq)]
pub struct Progress {
    /// The number of characters written from the buffer's start.
    pub written: usize,
    /// The session's status after the call.
    pub status: Status,
}

/// What an accepted preview answers.
#[derive(Clone, Copy, Debug, PartialEq, Eq)]
pub struct Preview {
    /// The number of characters that the feed would write.
    pub written: usize,
    /// The session's status after that feed.
    pub status: Status,
    /// The session after it.
    pub session: Session,
}

impl Session {
    /// A fresh session.
    pub fn fresh() -> Session {
        Session::FRESH
    }

    /// "Consumed is received less held", of a sound session.
    pub fn consumed(&self) -> u64 {
        self.received.saturating_sub(u64::from(self.held_count))
    }

    /// How often a rule was used, that is, wrote its output. A rule that the machine
    /// lacks, and any number above 31, was never used: 0.
    pub fn uses(&self, rule: usize) -> u64 {
        self.uses[..USES_DEFAULT].get(rule).copied().unwrap_or(0)
    }

    /// How often the default was used on one unit; 0 where the machine has none.
    pub fn default_uses(&self) -> u64 {
        self.uses[USES_DEFAULT]
    }

    /// How often the default was used on a pair, that is, how many pairs it let through
    /// whole; 0 where the machine has no marked default.
    pub fn pair_uses(&self) -> u64 {
        self.uses[USES_PAIRS]
    }

    /// The output that a feed of so many characters needs: E times (held + piece). The
    /// greatest number stands for a greater one; 14 refuses so long a piece. 0 for a
    /// session that can't be sound, with more than [`HELD_SIZE`] characters held; 12
    /// refuses it.
    pub fn feed_room(&self, machine: &Machine, piece_length: usize) -> usize {
        match usize::from(self.held_count) {
            held @ 0..=HELD_SIZE => {
                usize::from(machine.expansion()).saturating_mul(held.saturating_add(piece_length))
            }
            _ => 0,
        }
    }

    /// The output that a finish needs: E times held; 0 as for a feed.
    pub fn finish_room(&self, machine: &Machine) -> usize {
        self.feed_room(machine, 0)
    }

    /// The longest piece of which a feed into so much output is refused neither by 14 nor
    /// by 15. 0 too for a session that can't be sound, and where the output is too short
    /// for the characters held alone.
    pub fn longest_piece(&self, machine: &Machine, room: usize) -> usize {
        let held = usize::from(self.held_count);
        if held > HELD_SIZE {
            return 0;
        }
        let left = MAX_CHARACTERS.saturating_sub(self.received);
        let left = usize::try_from(left).unwrap_or(usize::MAX);
        // Where nothing is written, any output is long enough.
        match room.checked_div(usize::from(machine.expansion())) {
            Some(fitting) => left.min(fitting.saturating_sub(held)),
            None => left,
        }
    }

    /// Feeds a piece: the output is written from the buffer's start. Under a machine
    /// that was compiled, characters are held only while it depends on what follows, the
    /// input's end included, what is chosen for the first of them: a rule, the default on
    /// one unit, the default on a pair, or the stop. Refused by 12 to 15, with nothing
    /// changed.
    pub fn feed(
        &mut self,
        machine: &Machine,
        piece: &[u16],
        output: &mut [u16],
    ) -> Result<Progress, Refusal> {
        let mut written = 0;
        let answer = raw::feed(machine.words(), self, piece, output, &mut written);
        progress(answer, written)
    }

    /// What a feed of the piece would answer and leave, with room for all that it may
    /// write; nothing is written. Refused by 12 to 14.
    pub fn preview(&self, machine: &Machine, piece: &[u16]) -> Result<Preview, Refusal> {
        let (mut session, mut written) = (Session::fresh(), 0);
        let answer = raw::preview(machine.words(), self, piece, &mut session, &mut written);
        let Progress { written, status } = progress(answer, written)?;
        Ok(Preview {
            written,
            status,
            session,
        })
    }

    /// Gives the input its end. Refused by 12, 13 or 15, with nothing changed.
    pub fn finish(&mut self, machine: &Machine, output: &mut [u16]) -> Result<Progress, Refusal> {
        let mut written = 0;
        let answer = raw::finish(machine.words(), self, output, &mut written);
        progress(answer, written)
    }
}

/// Feeds pieces to a fresh session and finishes it, unless a piece stops it; the
/// joined outputs and the session.
pub fn run<'a>(
    machine: &Machine,
    pieces: impl IntoIterator<Item = &'a [u16]>,
) -> Result<(Vec<u16>, Session), Refusal> {
    let (mut session, mut text) = (Session::fresh(), Vec::new());
    for piece in pieces {
        let mut output = vec![0; session.feed_room(machine, piece.len())];
        let fed = session.feed(machine, piece, &mut output)?;
        text.extend(&output[..fed.written]);
        if fed.status == Status::Stopped {
            return Ok((text, session));
        }
    }
    let mut output = vec![0; session.finish_room(machine)];
    let finished = session.finish(machine, &mut output)?;
    text.extend(&output[..finished.written]);
    Ok((text, session))
}

/// The answer of a call. What it wrote, or would, is at most eight times the
/// characters held and those of a slice.
fn progress(answer: u32, written: u64) -> Result<Progress, Refusal> {
    Ok(Progress {
        written: written as usize,
        status: Status::answered(answer)?,
    })
}
