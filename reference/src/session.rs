//! Sessions, their soundness, feed, finish and preview.

use crate::automaton::Automaton;
use crate::lengths::{Lengths, MAX_RECEIVED};
use crate::machine::{Machine, Status};
use crate::meaning::Choice;
use crate::pairs::is_first_unit;
use crate::refusal::Refusal;
use crate::states::StateNo;
use crate::table::{Mode, MAX_LENGTH, MAX_OUTPUTS};
use crate::uses::Uses;
use crate::words::Words;

/// "A session has a status (open, closed, stopped), state, held characters (the
/// store, others 0), counts received, produced, steps." Document 01 leaves open
/// where the number of held characters is kept: it is a field of its own. Request
/// \[2\] adds the counts of uses.
#[derive(Clone, Copy, Debug, PartialEq, Eq)]
pub struct Session {
    /// Open, closed or stopped.
    pub status: Status,
    /// The state number.
    pub state: u16,
    /// The held characters; the places from `count` on are 0.
    pub held: [u16; MAX_LENGTH],
    /// The number of held characters.
    pub count: u16,
    /// Characters received.
    pub received: u64,
    /// Characters produced.
    pub produced: u64,
    /// Steps counted.
    pub steps: u64,
    /// How often each rule, the default and pairs were used.
    pub uses: Uses,
}

/// What an accepted feed or finish answers: the count of its output and the
/// status.
#[derive(Clone, Copy, Debug, PartialEq, Eq)]
pub struct Answer {
    /// The number of characters written from the buffer's start.
    pub count: usize,
    /// The session's status after the call.
    pub status: Status,
}

/// What an accepted preview answers: "the output count, status and later session".
#[derive(Clone, Copy, Debug, PartialEq, Eq)]
pub struct Preview {
    /// The number of characters that a feed would write.
    pub count: usize,
    /// The session's status after that feed.
    pub status: Status,
    /// The session after it.
    pub session: Session,
}

impl Session {
    /// "Fresh: open, all 0."
    pub const FRESH: Session = Session {
        status: Status::Open,
        state: 0,
        held: [0; MAX_LENGTH],
        count: 0,
        received: 0,
        produced: 0,
        steps: 0,
        uses: Uses::NONE,
    };

    /// The held characters; 12 if the session is not sound. Whatever numbers it
    /// has, each clause has an answer, so that their order does not matter.
    pub fn sound_held(&self, words: &Words) -> Result<&[u16], Refusal> {
        self.split_held()
            .filter(|&(held, unused)| {
                unused.iter().all(|&character| character == 0)
                    && self.counts_are_sound(words)
                    && self.uses_are_sound(words)
                    && self.place_is_sound(words, held)
            })
            .map(|(held, _)| held)
            .ok_or(Refusal::UnsoundSession)
    }

    /// The held characters and the places not in use; none for a count above 8.
    fn split_held(&self) -> Option<(&[u16], &[u16])> {
        self.held.split_at_checked(usize::from(self.count))
    }

    /// "Consumed is received less held"; none if less was received than is held.
    fn consumed(&self) -> Option<u64> {
        self.received.checked_sub(u64::from(self.count))
    }

    /// "Received at most 1,099,511,627,776 and at least held; produced at most E
    /// times consumed"; steps at most (L + 3) times consumed plus held when
    /// open, else at most (L + 3) times (consumed + 1).
    fn counts_are_sound(&self, words: &Words) -> bool {
        let Some(consumed) = self.consumed().map(u128::from) else {
            return false;
        };
        let most_a_character = u128::from(words.longest()) + 3;
        let most_steps = match self.status {
            Status::Open => most_a_character * consumed + u128::from(self.count),
            Status::Closed | Status::Stopped => most_a_character * (consumed + 1),
        };
        self.received <= MAX_RECEIVED
            && u128::from(self.produced) <= u128::from(words.most_outputs()) * consumed
            && u128::from(self.steps) <= most_steps
    }

    /// "The sum over rules of count times K, plus the default's count, is the
    /// consumed total", K of the default being 1, to which "a pair adds 2"; "counts of
    /// rules or a default that the machine lacks" are 0, and so is that of pairs
    /// "without the mark". In 128 bits no counts add up to too much.
    fn uses_are_sound(&self, words: &Words) -> bool {
        let lengths = Choice::all().map(|choice| words.length(choice));
        let mut taken = 0;
        for (length, uses) in lengths.zip(self.uses.0) {
            match length {
                Some(length) => taken += u128::from(length) * u128::from(uses),
                None if uses == 0 => (),
                None => return false,
            }
        }
        self.consumed().map(u128::from) == Some(taken)
    }

    /// Open, "the held characters lead from state 0 to the state by targets,
    /// neither through nor to a state whose go equals its end", or a first unit waits;
    /// closed or stopped, "state 0, nothing held".
    fn place_is_sound(&self, words: &Words, held: &[u16]) -> bool {
        let at_start = self.state == StateNo::START.0;
        if self.status != Status::Open {
            return at_start && held.is_empty();
        }
        if at_start && waits(words, held) {
            return true;
        }
        let reached = held.iter().try_fold(StateNo::START, |state, &character| {
            words
                .target(state, character)
                .filter(|&target| words.accept_at_once(target).is_none())
        });
        reached == Some(StateNo(self.state))
    }

    /// The session after a machine ran on from this sound one, `piece` being the
    /// number of characters received since.
    fn after<A: Automaton>(&self, piece: usize, machine: &Machine<A>) -> Session {
        let received = match machine.status() {
            Status::Stopped => self.received - u64::from(self.count) + machine.consumed(),
            Status::Open | Status::Closed => self.received + piece as u64,
        };
        let held = machine.held();
        Session {
            status: machine.status(),
            state: machine.state().0,
            held: held_places(&held),
            count: held.len() as u16,
            received,
            produced: self.produced + machine.output().len() as u64,
            steps: self.steps + machine.steps(),
            uses: self.uses.with(machine.uses()),
        }
    }
}

/// "A waiting first unit left by a back is one held character at state 0. [...] A sound
/// session allows it where the mark is set, the unit is a first unit and state 0 has no
/// target for it."
fn waits(words: &Words, held: &[u16]) -> bool {
    let [unit] = *held else {
        return false;
    };
    words.mode() == Mode::Paired
        && is_first_unit(unit)
        && words.target(StateNo::START, unit).is_none()
}

/// The places for held characters, others 0.
pub fn held_places(held: &[u16]) -> [u16; MAX_LENGTH] {
    let mut places = [0; MAX_LENGTH];
    places[..held.len()].copy_from_slice(held);
    places
}

/// Feeds a piece: refused by 11 to 15 in this order, with nothing changed, or
/// the output is written from the buffer's start and the rest stays as found.
pub fn feed(
    words: &[u16],
    session: &mut Session,
    piece: &[u16],
    output: &mut [u16],
) -> Result<Answer, Refusal> {
    call(words, session, piece, false, output)
}

/// Gives the input its end; otherwise as a feed of nothing.
pub fn finish(words: &[u16], session: &mut Session, output: &mut [u16]) -> Result<Answer, Refusal> {
    call(words, session, &[], true, output)
}

/// "A preview takes machine, session and piece. It answers the output count, status
/// and later session of a feed made on a copy with enough output": a sound session
/// holds at most 8 characters, and sound words have an E of at most 8, so that with
/// this output 15 can't occur.
pub fn preview(words: &[u16], session: &Session, piece: &[u16]) -> Result<Preview, Refusal> {
    let mut copy = *session;
    let mut output = vec![0; MAX_OUTPUTS * (MAX_LENGTH + piece.len())];
    let answer = feed(words, &mut copy, piece, &mut output)?;
    Ok(Preview {
        count: answer.count,
        status: answer.status,
        session: copy,
    })
}

/// A feed, or a finish if `ended`.
fn call(
    words: &[u16],
    session: &mut Session,
    piece: &[u16],
    ended: bool,
    output: &mut [u16],
) -> Result<Answer, Refusal> {
    let words = Words::sound(words)?;
    let held = session.sound_held(&words)?;
    if session.status != Status::Open {
        return Err(Refusal::Ended);
    }
    let lengths = Lengths {
        received: session.received,
        held: u64::from(session.count),
        piece: piece.len() as u64,
        output: output.len() as u64,
    };
    if let Some(refusal) = lengths.refusal(usize::from(words.most_outputs())) {
        return Err(refusal);
    }
    let mut machine = Machine::resume(&words, StateNo(session.state), held, piece, ended);
    machine.run();
    let count = machine.output().len();
    output[..count].copy_from_slice(machine.output());
    *session = session.after(piece.len(), &machine);
    Ok(Answer {
        count,
        status: machine.status(),
    })
}
