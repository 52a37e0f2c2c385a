//! Request \[10\]: two tables in a row. "A chain of two compiled machines feeds the first
//! one's output to the second through a lent middle buffer."

use crate::automaton::TableAutomaton;
use crate::lengths::Lengths;
use crate::machine::{Machine, Status};
use crate::meaning::{convert, Ending};
use crate::refusal::Refusal;
use crate::session::{self, Session};
use crate::table::Table;
use crate::words::Words;

/// A machine of a chain, as a call is lent it.
#[derive(Debug)]
pub struct Link<'l> {
    /// The machine words.
    pub words: &'l [u16],
    /// The session.
    pub session: &'l mut Session,
}

/// "Each call answers the second's output count and both statuses."
#[derive(Clone, Copy, Debug, PartialEq, Eq)]
pub struct Answer {
    /// The number of characters that the second wrote from the output's start.
    pub count: usize,
    /// The first's status after the call.
    pub first: Status,
    /// The second's status after the call.
    pub second: Status,
}

/// Feeds a piece to the first and its text to the second. A refused call changes
/// nothing; an accepted one writes the first's text from the middle buffer's start and
/// the second's from the output's, and leaves the rest of both as found.
pub fn feed(
    first: Link,
    second: Link,
    piece: &[u16],
    middle: &mut [u16],
    output: &mut [u16],
) -> Result<Answer, Refusal> {
    call(first, second, Some(piece), middle, output)
}

/// "Finish closes the first, then the second"; otherwise as a feed of nothing.
pub fn finish(
    first: Link,
    second: Link,
    middle: &mut [u16],
    output: &mut [u16],
) -> Result<Answer, Refusal> {
    call(first, second, None, middle, output)
}

/// What an admitted call's feeds and finishes are not.
const NOT_REFUSED: &str = "the tests of the chain leave nothing to refuse";

/// A feed of a piece, or a finish without one.
fn call(
    first: Link,
    second: Link,
    piece: Option<&[u16]>,
    middle: &mut [u16],
    output: &mut [u16],
) -> Result<Answer, Refusal> {
    let piece_length = piece.map_or(0, <[u16]>::len);
    test(&first, &second, piece_length, middle.len(), output.len())?;
    let given = match piece {
        Some(piece) => session::feed(first.words, first.session, piece, middle),
        None => session::finish(first.words, first.session, middle),
    }
    .expect(NOT_REFUSED);
    let text = &middle[..given.count];
    let taken = session::feed(second.words, second.session, text, output).expect(NOT_REFUSED);
    let answer = Answer {
        count: taken.count,
        first: given.status,
        second: taken.status,
    };
    // Where the first stops "the second isn't finished", and "a stop of the second ends
    // the chain as such".
    if (answer.first, answer.second) != (Status::Closed, Status::Open) {
        return Ok(answer);
    }
    let rest = &mut output[taken.count..];
    let closed = session::finish(second.words, second.session, rest).expect(NOT_REFUSED);
    Ok(Answer {
        count: taken.count + closed.count,
        second: closed.status,
        ..answer
    })
}

/// "Each of 11 to 14 is tested for the first, then the second", 18 "after 14 and before
/// 15".
fn test(
    first: &Link,
    second: &Link,
    piece: usize,
    middle: usize,
    output: usize,
) -> Result<(), Refusal> {
    let [first_words, second_words] = [Words::sound(first.words)?, Words::sound(second.words)?];
    first.session.sound_held(&first_words)?;
    second.session.sound_held(&second_words)?;
    for link in [first, second] {
        if link.session.status != Status::Open {
            return Err(Refusal::Ended);
        }
    }
    let giving = lengths(first.session, piece as u64, middle);
    if giving.are_above_limit() {
        return Err(Refusal::TooLong);
    }
    // "The least middle length, the first's E times (held + piece), at finish E times its
    // held." 14 asks it of the second "as its piece", and so does 15.
    let first_most = usize::from(first_words.most_outputs());
    let least_middle = giving.least_output(first_most);
    let least_middle = u64::try_from(least_middle).expect("14 bounds the first's piece");
    let taking = lengths(second.session, least_middle, output);
    if taking.are_above_limit() {
        return Err(Refusal::TooLong);
    }
    if giving.are_above_output(first_most) {
        return Err(Refusal::ShortMiddle);
    }
    if taking.are_above_output(usize::from(second_words.most_outputs())) {
        return Err(Refusal::ShortOutput);
    }
    Ok(())
}

/// The lengths of a call of one of the machines.
fn lengths(session: &Session, piece: u64, output: usize) -> Lengths {
    Lengths {
        received: session.received,
        held: u64::from(session.count),
        piece,
        output: output as u64,
    }
}

/// What a chain that has ended came to.
#[derive(Clone, Debug, PartialEq, Eq)]
pub struct Ended {
    /// The joined outputs.
    pub text: Vec<u16>,
    /// The second's status.
    pub second: Status,
}

/// What the request says of a chain from fresh sessions, "once a finish is accepted or
/// the second stops", or the first, by the tables and the accepted pieces, joined. "The
/// output is the second definition applied to the first one's text of the accepted
/// pieces, where the first definition closes on them." Where it stops, "the second isn't
/// finished, and the output is what feeding the second that text gives".
pub fn ended(first: &Table, second: &TableAutomaton, input: &[u16]) -> Ended {
    let given = convert(first, input);
    match given.ending {
        Ending::Closed => {
            let meaning = convert(&second.table, &given.text);
            Ended {
                text: meaning.text,
                second: match meaning.ending {
                    Ending::Closed => Status::Closed,
                    Ending::Stopped => Status::Stopped,
                },
            }
        }
        Ending::Stopped => {
            let mut machine = Machine::start(second, &given.text, false);
            machine.run();
            Ended {
                text: machine.output().to_vec(),
                second: machine.status(),
            }
        }
    }
}
