//! Feeds, finishes and previews, by the library and by the independent version, and
//! random calls.

use reference::machine::Status;
use reference::random::Random;
use reference::reckoning::Call;
use reference::refusal::Refusal;
use reference::session::{self, Answer};
use reference::uses::Uses;
use reference::words::Words;

use crate::cases::{pattern, room};
use crate::face::{self, Session, Tally, OK, OPEN, STOPPED};

/// The most characters of a random piece.
const LONGEST_PIECE: usize = 40;

/// What a call answers and leaves.
#[derive(Clone, Debug, PartialEq, Eq)]
pub struct Left {
    /// The answer.
    pub code: u32,
    /// The session.
    pub session: Session,
    /// The output count.
    pub count: u64,
    /// The whole output buffer.
    pub output: Vec<u16>,
}

impl Left {
    /// What a call finds, with an answer that no call has.
    fn found(session: Session, call: &Call) -> Left {
        let (Call::Feed { output, .. } | Call::Finish { output }) = *call;
        let length = usize::try_from(output).expect("a buffer in memory");
        Left {
            code: u32::MAX,
            session,
            count: u64::MAX,
            output: pattern(length as u16, length),
        }
    }

    /// What an accepted call wrote; nothing for a refused one.
    pub fn text(&self) -> &[u16] {
        match self.code {
            OK | STOPPED | OPEN => &self.output[..self.count as usize],
            _ => &[],
        }
    }
}

/// What a call of the library answers and leaves.
pub fn by_library(words: &[u16], session: Session, call: &Call) -> Left {
    let mut left = Left::found(session, call);
    let (kept, output, count) = (&mut left.session, &mut left.output, &mut left.count);
    left.code = match call {
        Call::Feed { piece, .. } => face::feed(words, kept, piece, output, count),
        Call::Finish { .. } => face::finish(words, kept, output, count),
    };
    left
}

/// What a call of the independent version answers and leaves.
pub fn by_reference(words: &[u16], session: Session, call: &Call) -> Left {
    let mut left = Left::found(session, call);
    let answer = answer_by_reference(words, &mut left, call);
    left.code = code(answer);
    if let Ok(answer) = answer {
        left.count = answer.count as u64;
    }
    left
}

/// The independent version's answer. It has no status beside the three: another
/// one is refused by 11 where the words are not sound, else by 12.
fn answer_by_reference(words: &[u16], left: &mut Left, call: &Call) -> Result<Answer, Refusal> {
    let Some(mut session) = read(&left.session) else {
        return Words::sound(words).and(Err(Refusal::UnsoundSession));
    };
    let answer = match call {
        Call::Feed { piece, .. } => session::feed(words, &mut session, piece, &mut left.output),
        Call::Finish { .. } => session::finish(words, &mut session, &mut left.output),
    };
    left.session = written(&session);
    answer
}

/// The number that a call answers.
pub fn code(answer: Result<Answer, Refusal>) -> u32 {
    match answer {
        Ok(answer) => status_code(answer.status),
        Err(refusal) => u32::from(refusal.number()),
    }
}

/// The number that tells a status in an answer.
pub fn status_code(status: Status) -> u32 {
    match status {
        Status::Open => OPEN,
        Status::Closed => OK,
        Status::Stopped => STOPPED,
    }
}

/// A session in the independent version's terms, if its status is one of three.
pub fn read(session: &Session) -> Option<session::Session> {
    let status = match session.status {
        0 => Status::Open,
        1 => Status::Closed,
        2 => Status::Stopped,
        _ => return None,
    };
    Some(session::Session {
        status,
        state: session.state,
        held: session.held,
        count: session.held_count,
        received: session.received,
        produced: session.tally.produced,
        steps: session.tally.steps,
        uses: Uses(session.uses),
    })
}

/// A session of the independent version in C's terms.
pub fn written(session: &session::Session) -> Session {
    Session {
        received: session.received,
        tally: Tally {
            produced: session.produced,
            steps: session.steps,
        },
        status: match session.status {
            Status::Open => 0,
            Status::Closed => 1,
            Status::Stopped => 2,
        },
        state: session.state,
        held_count: session.count,
        held: session.held,
        uses: session.uses.0,
    }
}

/// What a preview answers and leaves.
#[derive(Clone, Copy, Debug, PartialEq, Eq)]
pub struct Seen {
    /// The answer.
    pub code: u32,
    /// The later session.
    pub session: Session,
    /// The count of what would be written.
    pub count: u64,
}

impl Seen {
    /// What a preview finds in place of the later session and the count, with an
    /// answer that no preview has.
    const FOUND: Seen = Seen {
        code: u32::MAX,
        session: Session {
            received: 0x0102_0304_0506_0708,
            tally: Tally {
                produced: u64::MAX,
                steps: 17,
            },
            status: 0x090a_0b0c,
            state: 0x0d0e,
            held_count: 0x0f10,
            held: [0x1112; 8],
            uses: [0x1314_1516_1718_191a; face::USES_SIZE],
        },
        count: u64::MAX - 1,
    };
}

/// What a preview by the library answers and leaves.
pub fn seen_by_library(words: &[u16], session: &Session, piece: &[u16]) -> Seen {
    let mut seen = Seen::FOUND;
    seen.code = face::preview(words, session, piece, &mut seen.session, &mut seen.count);
    seen
}

/// What a preview by the independent version answers and leaves: the later session
/// and the count are as found where it is refused.
fn seen_by_reference(words: &[u16], session: &Session, piece: &[u16]) -> Seen {
    let preview = match read(session) {
        Some(session) => session::preview(words, &session, piece),
        None => Words::sound(words).and(Err(Refusal::UnsoundSession)),
    };
    match preview {
        Ok(preview) => Seen {
            code: code(Ok(Answer {
                count: preview.count,
                status: preview.status,
            })),
            session: written(&preview.session),
            count: preview.count as u64,
        },
        Err(refusal) => Seen {
            code: u32::from(refusal.number()),
            ..Seen::FOUND
        },
    }
}

/// Compares a preview of both; answers what both saw.
///
/// # Panics
///
/// If they differ, or if it is refused by 15.
pub fn compare_preview(words: &[u16], session: &Session, piece: &[u16]) -> Seen {
    let expected = seen_by_reference(words, session, piece);
    let seen = seen_by_library(words, session, piece);
    assert_eq!(seen, expected, "a preview of {piece:?} of {session:?}");
    assert_ne!(seen.code, 15, "a preview of {piece:?} of {session:?}");
    seen
}

/// What a feed that came to `left` shows, as a preview would; of one that had too
/// little room, what one with enough shows.
fn shown(words: &[u16], session: Session, piece: &[u16], left: &Left) -> Seen {
    match left.code {
        OK | STOPPED | OPEN => Seen {
            code: left.code,
            session: left.session,
            count: left.count,
        },
        15 => {
            let left = by_library(words, session, &roomy_feed(piece));
            shown(words, session, piece, &left)
        }
        code => Seen {
            code,
            ..Seen::FOUND
        },
    }
}

/// Compares one call of both, after a preview of both where it is a feed; answers
/// what both left.
///
/// # Panics
///
/// If they differ, if a refused call changed anything, or if the preview saw
/// anything else than the feed shows.
pub fn compare(words: &[u16], session: Session, call: &Call) -> Left {
    let previewed = match call {
        Call::Feed { piece, .. } => Some((piece, compare_preview(words, &session, piece))),
        Call::Finish { .. } => None,
    };
    let expected = by_reference(words, session, call);
    let left = by_library(words, session, call);
    assert_eq!(left, expected, "{call:?} of {session:?}");
    if (11..=15).contains(&left.code) {
        let code = left.code;
        let found = Left::found(session, call);
        assert_eq!(left, Left { code, ..found }, "{call:?} of {session:?}");
    }
    if let Some((piece, seen)) = previewed {
        let shown = shown(words, session, piece, &left);
        assert_eq!(seen, shown, "{call:?} of {session:?}");
    }
    left
}

/// A feed with as much room as it needs under any table.
pub fn roomy_feed(piece: &[u16]) -> Call {
    Call::Feed {
        piece: piece.to_vec(),
        output: 8 * (8 + piece.len() as u64),
    }
}

/// A finish with as much room as it needs under any table.
pub const ROOMY_FINISH: Call = Call::Finish { output: 64 };

/// Feeds pieces to a fresh session of the library and finishes it; answers the
/// session and the joined outputs.
///
/// # Panics
///
/// If a call is not refused by 13 after a stop, or is before one.
pub fn fed<'p>(words: &[u16], pieces: impl Iterator<Item = &'p [u16]>) -> (Session, Vec<u16>) {
    let (mut session, mut text) = (Session::FRESH, Vec::new());
    for call in pieces.map(roomy_feed).chain([ROOMY_FINISH]) {
        let left = by_library(words, session, &call);
        let refused = !matches!(left.code, OK | STOPPED | OPEN);
        let stopped = session.status == 2;
        assert_eq!(
            (refused, left.code == 13),
            (stopped, stopped),
            "{call:?} of {session:?}"
        );
        text.extend(left.text());
        session = left.session;
    }
    (session, text)
}

/// A random call of a session: once in twelve times a finish, else a feed of what
/// comes next of the input. The output buffer is too short, exact or longer.
pub fn random_call(
    random: &mut Random,
    words: &[u16],
    session: &Session,
    input: &mut &[u16],
) -> Call {
    // Words and sessions may be damaged; the buffer stays small.
    let most_outputs = usize::from(words[3]).min(8);
    let held = usize::from(session.held_count).min(8);
    if random.one_in(12) {
        let output = room(random, most_outputs * held) as u64;
        return Call::Finish { output };
    }
    let piece = next_piece(random, input).to_vec();
    let output = room(random, most_outputs * (held + piece.len())) as u64;
    Call::Feed { piece, output }
}

/// The next 0 to 40 characters of the input, more often a few.
pub fn next_piece<'i>(random: &mut Random, input: &mut &'i [u16]) -> &'i [u16] {
    let longest = *random.pick(&[5, 10, LONGEST_PIECE]);
    let length = random.below(longest + 1).min(input.len());
    let (piece, rest) = input.split_at(length);
    *input = rest;
    piece
}
