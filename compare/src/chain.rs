//! Request \[10\]: chains of two machines by the library and by the independent version,
//! compared; lists of their calls, beside the reckonings and the definitions of both
//! tables; and random ones.

use reference::chain::{self, ended, Ended, Link};
use reference::machine::Status;
use reference::random::Random;
use reference::reckoning::{self, reckon};
use reference::refusal::Refusal;
use reference::samples::written_for;
use reference::table::Table;
use reference::words::Words;

use crate::calls::{next_piece, read, status_code, written};
use crate::cases::{pattern, room, sound_tables};
use crate::face::{self, Session, OK, OPEN, STOPPED};
use crate::lists::{assert_used, Compiled};
use crate::pairs::marked_tables;
use crate::rivals::rival_tables;
use crate::uses::groups;

/// Two compiled tables in a row.
pub struct Chain {
    first: Compiled,
    /// None where the first's words are lent for both.
    second: Option<Compiled>,
}

impl Chain {
    /// The chain of two tables, if both compile.
    pub fn of(first: Table, second: Table) -> Option<Chain> {
        Some(Chain {
            first: Compiled::of(first)?,
            second: Some(Compiled::of(second)?),
        })
    }

    /// The chain of a table with itself, whose words are lent twice, if it compiles.
    pub fn twice(table: Table) -> Option<Chain> {
        Some(Chain {
            first: Compiled::of(table)?,
            second: None,
        })
    }

    /// The machines, the first and the second.
    pub fn machines(&self) -> [&Compiled; 2] {
        [&self.first, self.second.as_ref().unwrap_or(&self.first)]
    }

    /// The tables, the first and the second.
    pub fn tables(&self) -> [&Table; 2] {
        self.machines().map(|machine| &machine.automaton.table)
    }

    /// The words, the first's and the second's.
    pub fn words(&self) -> [&[u16]; 2] {
        self.machines().map(|machine| &machine.words[..])
    }

    /// Whether the first's words are lent for both.
    pub fn is_twice(&self) -> bool {
        self.second.is_none()
    }
}

/// The chains that a seed gives, without end. Each table is as they come, one with
/// rivals of its rules or one with a marked default; one in four has its default taken
/// away, and one chain in eight is of a table with itself. Three of four first tables
/// write words of the second's rules.
pub fn chains(seed: u64) -> impl Iterator<Item = Chain> {
    let mut random = Random::new(seed);
    let mut as_they_come = sound_tables(seed.wrapping_add(1));
    let mut with_rivals = rival_tables(seed.wrapping_add(2));
    let mut marked = marked_tables(seed.wrapping_add(3));
    let chains = std::iter::repeat_with(move || {
        let tables = [(); 2].map(|()| {
            let table = match random.below(3) {
                0 => as_they_come.next(),
                1 => with_rivals.next(),
                _ => marked.next(),
            };
            let table = table.expect("the tables are without end");
            match random.below(4) {
                0 => without_default(table),
                _ => table,
            }
        });
        let twice = random.one_in(8);
        let [first, second] = tables;
        let reader = if twice { first.clone() } else { second };
        let first = match random.below(4) {
            0 => first,
            _ => written_for(&mut random, first, &reader),
        };
        match twice {
            true => Chain::twice(first),
            false => Chain::of(first, reader),
        }
    });
    chains.flatten()
}

/// The table without its default.
fn without_default(table: Table) -> Table {
    Table {
        default: None,
        marked: false,
        ..table
    }
}

/// What a call of a chain is lent beside words and sessions.
#[derive(Clone, Debug)]
pub struct Call {
    /// The piece; none at a finish.
    pub piece: Option<Vec<u16>>,
    /// The length of the middle buffer.
    pub middle: usize,
    /// The length of the output buffer.
    pub output: usize,
}

impl Call {
    /// A call with the least lengths: "the first's E times (held + piece), at finish E
    /// times its held", and "the second's E times the sum of its held and that least
    /// middle length". Of words and sessions that are damaged the numbers are taken for 8
    /// at most, so that the buffers stay small.
    pub fn least(words: [&[u16]; 2], sessions: &[Session; 2], piece: Option<Vec<u16>>) -> Call {
        let most = words.map(|words| usize::from(words[3]).min(8));
        let held = [0, 1].map(|link| usize::from(sessions[link].held_count).min(8));
        let middle = most[0] * (held[0] + piece.as_ref().map_or(0, Vec::len));
        let output = most[1] * (held[1] + middle);
        Call {
            piece,
            middle,
            output,
        }
    }

    /// A random call: once in twelve times a finish, else a feed of what comes next of
    /// the input. Each buffer is too short, exact or longer.
    pub fn random(
        random: &mut Random,
        words: [&[u16]; 2],
        sessions: &[Session; 2],
        input: &mut &[u16],
    ) -> Call {
        let piece = match random.below(12) {
            0 => None,
            _ => Some(next_piece(random, input).to_vec()),
        };
        let least = Call::least(words, sessions, piece);
        Call {
            middle: room(random, least.middle),
            output: room(random, least.output),
            ..least
        }
    }

    /// The call that the first has of it, with more room than it needs.
    fn of_first(&self) -> reckoning::Call {
        let output = u64::MAX;
        match &self.piece {
            Some(piece) => reckoning::Call::Feed {
                piece: piece.clone(),
                output,
            },
            None => reckoning::Call::Finish { output },
        }
    }
}

/// What a call answers and leaves.
#[derive(Clone, Debug, PartialEq, Eq)]
pub struct Left {
    /// The answer.
    pub code: u32,
    /// The sessions.
    pub sessions: [Session; 2],
    /// The second's output count.
    pub count: u64,
    /// The first's status.
    pub first_status: u32,
    /// The whole middle buffer.
    pub middle: Vec<u16>,
    /// The whole output buffer.
    pub output: Vec<u16>,
}

impl Left {
    /// What a call finds, with an answer that no call has.
    fn found(sessions: [Session; 2], call: &Call) -> Left {
        Left {
            code: u32::MAX,
            sessions,
            count: u64::MAX,
            first_status: u32::MAX - 1,
            middle: pattern(call.middle as u16, call.middle),
            output: pattern(!(call.output as u16), call.output),
        }
    }

    /// Whether the call was accepted.
    pub fn is_accepted(&self) -> bool {
        matches!(self.code, OK | STOPPED | OPEN)
    }

    /// What an accepted call wrote; nothing for a refused one.
    pub fn text(&self) -> &[u16] {
        match self.is_accepted() {
            true => &self.output[..self.count as usize],
            false => &[],
        }
    }
}

/// What a call of the library answers and leaves.
fn by_library(words: [&[u16]; 2], sessions: [Session; 2], call: &Call) -> Left {
    let mut left = Left::found(sessions, call);
    let [first, second] = &mut left.sessions;
    let (middle, output) = (&mut left.middle[..], &mut left.output[..]);
    let (count, first_status) = (&mut left.count, &mut left.first_status);
    left.code = match &call.piece {
        Some(piece) => face::chain_feed(
            words[0],
            first,
            words[1],
            second,
            piece,
            middle,
            output,
            count,
            first_status,
        ),
        None => face::chain_finish(
            words[0],
            first,
            words[1],
            second,
            middle,
            output,
            count,
            first_status,
        ),
    };
    left
}

/// What a call of the independent version answers and leaves.
fn by_reference(words: [&[u16]; 2], sessions: [Session; 2], call: &Call) -> Left {
    let mut left = Left::found(sessions, call);
    match answer_by_reference(words, &mut left, call) {
        Ok(answer) => {
            left.code = status_code(answer.second);
            left.first_status = status_code(answer.first);
            left.count = answer.count as u64;
        }
        Err(refusal) => left.code = u32::from(refusal.number()),
    }
    left
}

/// The independent version's answer. It has no status beside the three: another one, of
/// either session, is refused by 12 where the words of both are sound.
fn answer_by_reference(
    words: [&[u16]; 2],
    left: &mut Left,
    call: &Call,
) -> Result<chain::Answer, Refusal> {
    let [Some(mut first), Some(mut second)] = left.sessions.each_ref().map(read) else {
        let both = Words::sound(words[0]).and(Words::sound(words[1]));
        return both.and(Err(Refusal::UnsoundSession));
    };
    let links = [(words[0], &mut first), (words[1], &mut second)];
    let [giving, taking] = links.map(|(words, session)| Link { words, session });
    let (middle, output) = (&mut left.middle[..], &mut left.output[..]);
    let answer = match &call.piece {
        Some(piece) => chain::feed(giving, taking, piece, middle, output),
        None => chain::finish(giving, taking, middle, output),
    };
    left.sessions = [first, second].map(|session| written(&session));
    answer
}

/// Compares one call of both; answers what both left.
///
/// # Panics
///
/// If they differ, if a refused call changed anything, or if an accepted one wrote
/// behind the texts.
pub fn compare(words: [&[u16]; 2], sessions: [Session; 2], call: &Call) -> Left {
    let expected = by_reference(words, sessions, call);
    let left = by_library(words, sessions, call);
    assert_eq!(left, expected, "{call:?} of {sessions:?}");
    let found = Left::found(sessions, call);
    if !left.is_accepted() {
        let code = left.code;
        assert_eq!(left, Left { code, ..found }, "{call:?} of {sessions:?}");
        return left;
    }
    let [given, taken] = [0, 1].map(|link| {
        let produced = |session: &Session| session.tally.produced;
        (produced(&left.sessions[link]) - produced(&sessions[link])) as usize
    });
    assert_eq!(left.count, taken as u64, "{call:?} of {sessions:?}");
    assert!(left.middle[given..] == found.middle[given..], "{call:?}");
    assert!(left.output[taken..] == found.output[taken..], "{call:?}");
    left
}

/// A chain from fresh sessions under random calls, compared after each.
pub struct Called {
    /// The sessions after the calls.
    pub sessions: [Session; 2],
    /// The accepted calls, as the first has them.
    accepted: Vec<reckoning::Call>,
    /// The joined outputs.
    text: Vec<u16>,
}

impl Called {
    /// So many random calls. Each is noted, with the sessions before it and what it left.
    pub fn random(
        random: &mut Random,
        chain: &Chain,
        calls: i64,
        mut note: impl FnMut(&[Session; 2], &Call, &Left),
    ) -> Called {
        let (machines, words) = (chain.machines(), chain.words());
        let input = machines[0].input(random);
        let mut unread = &input[..];
        let mut called = Called {
            sessions: [Session::FRESH; 2],
            accepted: Vec::new(),
            text: Vec::new(),
        };
        for _ in 0..calls {
            let call = Call::random(random, words, &called.sessions, &mut unread);
            let left = compare(words, called.sessions, &call);
            for (words, session) in words.into_iter().zip(&left.sessions) {
                assert_used(words, session);
            }
            note(&called.sessions, &call, &left);
            called.text.extend(left.text());
            if left.is_accepted() {
                called.accepted.push(call.of_first());
            }
            called.sessions = left.sessions;
        }
        called
    }

    /// The sessions are those of demand 3's reckonings: the first's of the accepted
    /// calls, the second's of the first's text as one piece and, where the first closed,
    /// the end. Once one of them has ended, the text and the second's end are what the
    /// request says, by both definitions.
    ///
    /// # Panics
    ///
    /// If they are not.
    pub fn assert_defined(&self, chain: &Chain) {
        let [first, second] = chain.machines().map(|machine| &machine.automaton);
        let giving = reckon(first, &self.accepted);
        let output = u64::MAX;
        let mut taken = vec![reckoning::Call::Feed {
            piece: giving.output,
            output,
        }];
        if giving.session.status == Status::Closed {
            taken.push(reckoning::Call::Finish { output });
        }
        let taking = reckon(second, &taken);
        let sessions = [giving.session, taking.session];
        assert_eq!(self.sessions, sessions.map(|session| written(&session)));
        assert_eq!(self.text, taking.output, "{:?}", self.accepted);
        if sessions
            .iter()
            .any(|session| session.status != Status::Open)
        {
            let came_to = Ended {
                text: self.text.clone(),
                second: taking.session.status,
            };
            let defined = ended(&first.table, second, &giving.input);
            assert_eq!(came_to, defined, "{:?}", self.accepted);
        }
    }
}

/// A sound session that has received so many characters, no fewer than before: one group
/// of K = 1 took those between. None if the machine has no such group.
pub fn having_received(words: &[u16], session: &Session, received: u64) -> Option<Session> {
    let groups = groups(words);
    let (place, _) = groups.iter().find(|&&(_, length)| length == 1)?;
    let mut later = *session;
    later.uses[*place] += received - session.received;
    later.received = received;
    Some(later)
}
