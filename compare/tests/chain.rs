//! Request \[10\] against the independent version: after every call of a chain the same
//! answer, sessions, count, first's status, middle buffer and output buffer, the whole of
//! each; and in the end what the definitions of both tables say.

use std::collections::BTreeMap;

use compare::calls;
use compare::chain::{chains, compare, having_received, Call, Called, Chain, Left};
use compare::damage::{damaged_session, Base, Field, Part};
use compare::face::{Session, OK, OPEN, STOPPED};
use reference::builder::characters;
use reference::lengths::MAX_RECEIVED;
use reference::meaning::convert;
use reference::random::Random;
use reference::samples::{random_input, t1, t2, t3, two_digits};
use reference::table::Table;
use reference::words::WORDS;

/// The seed of the random tables.
const SEED: u64 = 1010;
/// How many chains are compared, each with a list of calls.
const LISTS: usize = 100_000;
/// How many chains have their words damaged, and as many their sessions.
const BASES: usize = 3_000;
/// How many chains are tried for calls of which every fault can be made.
const CHAINS_WITH_FAULTS: usize = 1_500;

/// What a call came to: the answer and, of one that was accepted, the first's status; of
/// one that was refused by 11 to 14, which of the two it was for.
#[derive(Clone, Copy, Debug, PartialEq, Eq, PartialOrd, Ord)]
enum Outcome {
    /// The second's status, of a feed or finish, and the first's.
    Accepted { second: u32, first: u32 },
    /// Refused for the first machine.
    First(u32),
    /// Refused for the second machine.
    Second(u32),
    /// Refused for a buffer.
    Buffer(u32),
}

impl Outcome {
    /// What a call came to. It was refused for the first where the first's own call, with
    /// more room than it needs, is refused by the same number.
    fn of(words: [&[u16]; 2], sessions: &[Session; 2], call: &Call, left: &Left) -> Outcome {
        let code = left.code;
        match code {
            OK | STOPPED | OPEN => Outcome::Accepted {
                second: code,
                first: left.first_status,
            },
            15 | 18 => Outcome::Buffer(code),
            _ => {
                let piece = call.piece.as_deref().unwrap_or_default();
                let own = calls::by_library(words[0], sessions[0], &calls::roomy_feed(piece));
                match own.code == code {
                    true => Outcome::First(code),
                    false => Outcome::Second(code),
                }
            }
        }
    }
}

/// How often each outcome was met.
#[derive(Debug, Default)]
struct Met(BTreeMap<Outcome, usize>);

impl Met {
    /// Notes what a call came to.
    fn note(&mut self, words: [&[u16]; 2], sessions: &[Session; 2], call: &Call, left: &Left) {
        let outcome = Outcome::of(words, sessions, call, left);
        *self.0.entry(outcome).or_default() += 1;
    }

    /// Asserts that each of these was met at least so often, and no other at all.
    fn assert_met(&self, least: &[(Outcome, usize)]) {
        let mut expected: Vec<Outcome> = least.iter().map(|&(outcome, _)| outcome).collect();
        expected.sort();
        let met: Vec<Outcome> = self.0.keys().copied().collect();
        assert_eq!(met, expected, "{self:?}");
        for (outcome, least) in least {
            assert!(self.0[outcome] >= *least, "{outcome:?}: {self:?}");
        }
    }
}

/// Accepted, with the first's and the second's status.
const fn accepted(first: u32, second: u32) -> Outcome {
    Outcome::Accepted { second, first }
}

/// How often something was seen, by name.
#[derive(Debug, Default)]
struct Tally(BTreeMap<&'static str, usize>);

impl Tally {
    /// Counts one more of each that was seen.
    fn count(&mut self, seen: &[(&'static str, bool)]) {
        for &(name, seen) in seen {
            *self.0.entry(name).or_default() += usize::from(seen);
        }
    }

    /// Asserts that each was seen at least so often.
    fn assert_seen(&self, least: &[(&'static str, usize)]) {
        assert_eq!(self.0.len(), least.len(), "{self:?}");
        for (name, least) in least {
            assert!(self.0[name] >= *least, "{name}: {self:?}");
        }
    }

    /// Counts what the tables of a chain are.
    fn count_tables(&mut self, chain: &Chain) {
        let [first, second] = chain.tables();
        self.count(&[
            ("the first is marked", first.marked),
            ("the second is marked", second.marked),
            ("the first has no default", first.default.is_none()),
            ("the second has no default", second.default.is_none()),
            ("the first writes nothing", first.most_outputs() == 0),
            ("the second writes nothing", second.most_outputs() == 0),
            ("one table is both", chain.is_twice()),
        ]);
    }

    /// Counts what an accepted call has done.
    fn count_call(&mut self, sessions: &[Session; 2], call: &Call, left: &Left) {
        if !left.is_accepted() {
            return;
        }
        let finish = call.piece.is_none();
        let gives = left.sessions[0].tally.produced > sessions[0].tally.produced;
        let holds = sessions.map(|session| session.held_count > 0);
        let waits = |session: &Session| session.state == 0 && session.held_count == 1;
        self.count(&[
            ("a feed in which the first gives", !finish && gives),
            ("a finish in which the first gives", finish && gives),
            ("a finish in which the first holds", finish && holds[0]),
            ("a finish in which the second holds", finish && holds[1]),
            ("a finish in which both hold", finish && holds == [true; 2]),
            ("a first unit waits in the first", waits(&left.sessions[0])),
            ("a first unit waits in the second", waits(&left.sessions[1])),
        ]);
    }
}

/// A list has 2 to 16 calls, of which one in twelve is a finish, and a third of the
/// tables has no default: of three lists one is closed and one is stopped about half way.
/// Of the buffers of the others, twice in eight each is too short. Where the first stops
/// the second seldom does in the same call, and at its own end only if it holds part of
/// a pattern. The guards are a third or less of what these odds give.
#[test]
fn random_lists_of_calls() {
    let mut random = Random::new(SEED + 1);
    let (mut met, mut tally) = (Met::default(), Tally::default());
    for chain in chains(SEED).take(LISTS) {
        tally.count_tables(&chain);
        let calls = random.between(2, 16);
        let called = Called::random(&mut random, &chain, calls, |sessions, call, left| {
            met.note(chain.words(), sessions, call, left);
            tally.count_call(sessions, call, left);
        });
        called.assert_defined(&chain);
    }
    println!("{met:?} {tally:?}");
    met.assert_met(&[
        (accepted(OPEN, OPEN), LISTS / 2),
        (accepted(OPEN, STOPPED), LISTS / 18),
        (accepted(OK, OK), LISTS / 12),
        (accepted(OK, STOPPED), LISTS / 1000),
        (accepted(STOPPED, OPEN), LISTS / 18),
        (accepted(STOPPED, STOPPED), LISTS / 200),
        (Outcome::First(13), LISTS),
        (Outcome::Second(13), LISTS / 3),
        (Outcome::Buffer(18), LISTS / 4),
        (Outcome::Buffer(15), LISTS / 5),
    ]);
    tally.assert_seen(&[
        ("the first is marked", LISTS / 8),
        ("the second is marked", LISTS / 8),
        ("the first has no default", LISTS / 8),
        ("the second has no default", LISTS / 8),
        ("the first writes nothing", LISTS / 400),
        ("the second writes nothing", LISTS / 400),
        ("one table is both", LISTS / 25),
        ("a feed in which the first gives", LISTS / 2),
        ("a finish in which the first gives", LISTS / 60),
        ("a finish in which the first holds", LISTS / 60),
        ("a finish in which the second holds", LISTS / 60),
        ("a finish in which both hold", LISTS / 200),
        ("a first unit waits in the first", LISTS / 60),
        ("a first unit waits in the second", LISTS / 60),
    ]);
}

/// Sessions of a chain after a few calls.
fn random_sessions(random: &mut Random, chain: &Chain) -> [Session; 2] {
    let calls = random.between(0, 4);
    Called::random(random, chain, calls, |_, _, _| ()).sessions
}

/// Each field of either session in turn. Nearly every other value of the held places, of
/// the state and of the count is unsound, and half of the values of the others; one value
/// of received in six leaves no room for a piece. The guards are a third or less.
#[test]
fn damaged_sessions() {
    let mut random = Random::new(SEED + 3);
    let mut met = Met::default();
    let mut refused: BTreeMap<(usize, String), usize> = BTreeMap::new();
    for chain in chains(SEED + 2).take(BASES) {
        let (words, sessions) = (chain.words(), random_sessions(&mut random, &chain));
        let input = chain.machines()[0].input(&mut random);
        for link in [0, 1] {
            for field in Field::all() {
                let mut sessions = sessions;
                sessions[link] = damaged_session(&mut random, words[link], &sessions[link], field);
                let call = Call::random(&mut random, words, &sessions, &mut &input[..]);
                let left = compare(words, sessions, &call);
                met.note(words, &sessions, &call, &left);
                let times = refused.entry((link, format!("{field:?}"))).or_default();
                *times += usize::from(left.code == 12);
            }
        }
    }
    println!("{met:?} {refused:?}");
    met.assert_met(&[
        (accepted(OPEN, OPEN), BASES / 5),
        (accepted(OPEN, STOPPED), BASES / 100),
        (accepted(OK, OK), BASES / 60),
        (accepted(OK, STOPPED), 1),
        (accepted(STOPPED, OPEN), BASES / 60),
        (accepted(STOPPED, STOPPED), BASES / 500),
        (Outcome::First(12), 4 * BASES),
        (Outcome::Second(12), 4 * BASES),
        (Outcome::First(13), BASES / 3),
        (Outcome::Second(13), BASES / 6),
        (Outcome::First(14), BASES / 60),
        (Outcome::Second(14), BASES / 40),
        (Outcome::Buffer(18), BASES / 10),
        (Outcome::Buffer(15), BASES / 10),
    ]);
    assert_eq!(refused.len(), 28);
    assert!(
        refused.values().all(|&times| times >= BASES / 10),
        "{refused:?}"
    );
}

/// Each part of either words in turn, one in twenty cut short. Of the sessions one in
/// eight has a status that is none, and one in eight is damaged elsewhere, of the same
/// machine or of the other: the words of both are tested before. The guards are a third
/// or less.
#[test]
fn damaged_words() {
    let mut random = Random::new(SEED + 5);
    let (mut met, mut both) = (Met::default(), 0);
    let fields: Vec<Field> = Field::all().collect();
    for chain in chains(SEED + 4).take(BASES) {
        let sessions = random_sessions(&mut random, &chain);
        let input = chain.machines()[0].input(&mut random);
        let bases = chain.words().map(|words| Base::new(words.to_vec()));
        for (link, part) in [0, 1]
            .into_iter()
            .flat_map(|link| Part::ALL.map(|part| (link, part)))
        {
            let damaged = bases[link].damaged_in(&mut random, part);
            let (mut words, mut sessions) = (chain.words(), sessions);
            let unsound = random.below(2);
            match random.below(8) {
                0 => sessions[unsound].status = 3 + random.below(3) as u32,
                1 => {
                    let (field, session) = (*random.pick(&fields), sessions[unsound]);
                    sessions[unsound] =
                        damaged_session(&mut random, words[unsound], &session, field);
                }
                _ => (),
            }
            words[link] = &damaged;
            let call = Call::random(&mut random, words, &sessions, &mut &input[..]);
            if random.one_in(20) {
                words[link] = &damaged[..*random.pick(&[0, 6, WORDS - 1])];
            }
            let left = compare(words, sessions, &call);
            met.note(words, &sessions, &call, &left);
            both += usize::from(left.code == 11 && link == 1 && sessions[0].status > 2);
        }
    }
    println!("{met:?}, {both} of a second's words beside a first's status that is none");
    met.assert_met(&[
        (accepted(OPEN, OPEN), BASES / 2),
        (accepted(OPEN, STOPPED), BASES / 40),
        (accepted(OK, OK), BASES / 40),
        (accepted(OK, STOPPED), 1),
        (accepted(STOPPED, OPEN), BASES / 40),
        (accepted(STOPPED, STOPPED), BASES / 500),
        (Outcome::First(11), BASES),
        (Outcome::Second(11), BASES),
        (Outcome::First(12), BASES / 6),
        (Outcome::Second(12), BASES / 6),
        (Outcome::First(13), BASES / 3),
        (Outcome::Second(13), BASES / 6),
        (Outcome::First(14), 1),
        (Outcome::Second(14), 1),
        (Outcome::Buffer(18), BASES / 6),
        (Outcome::Buffer(15), BASES / 8),
    ]);
    assert!(both >= BASES / 20, "{both}");
}

/// A call with all that it is lent.
#[derive(Clone)]
struct Lent {
    words: [Vec<u16>; 2],
    sessions: [Session; 2],
    call: Call,
}

impl Lent {
    /// A feed of one character or more, or a finish, with the least lengths. None if a
    /// session has ended, or if not every fault can be made of it: both buffers have a
    /// length, and both machines have a group of K = 1.
    fn random(random: &mut Random, chain: &Chain) -> Option<Lent> {
        let (words, sessions) = (chain.words(), random_sessions(random, chain));
        let length = random.below(12) + 1;
        let piece = random_input(random, chain.tables()[0], length);
        let piece = (!random.one_in(3)).then_some(piece);
        let call = Call::least(words, &sessions, piece);
        let is_open = sessions.iter().all(|session| session.status == 0);
        let has_single =
            |link: usize| having_received(words[link], &sessions[link], MAX_RECEIVED).is_some();
        let suits = is_open && call.middle > 0 && call.output > 0 && has_single(0) && has_single(1);
        suits.then(|| Lent {
            words: words.map(<[u16]>::to_vec),
            sessions,
            call,
        })
    }

    /// The number that both answer.
    fn code(&self) -> u32 {
        let words = self.words.each_ref().map(|words| &words[..]);
        compare(words, self.sessions, &self.call).code
    }

    /// Ends a session, which then has received what it consumed.
    fn end(&mut self, link: usize, status: u32) {
        let session = &mut self.sessions[link];
        *session = Session {
            status,
            received: session.consumed(),
            state: 0,
            held_count: 0,
            held: [0; 8],
            ..*session
        };
    }

    /// Lets a session have received so many characters.
    fn receive(&mut self, link: usize, received: u64) {
        let later = having_received(&self.words[link], &self.sessions[link], received);
        self.sessions[link] = later.expect("the machines have a group of K = 1");
    }

    /// Lets a session have received so many that what comes to it now, at most the piece
    /// or the least middle length, reaches the limit, or is one above it.
    fn receive_to_limit(&mut self, link: usize, above: u64) {
        let piece = self.call.piece.as_ref().map_or(0, Vec::len);
        let coming = [piece, self.call.middle][link] as u64;
        self.receive(link, MAX_RECEIVED - coming + above);
    }

    /// The call with faults, in the order of their tests.
    fn with(&self, faults: &[&Fault]) -> Lent {
        let mut lent = self.clone();
        for (_, make) in faults {
            make(&mut lent);
        }
        lent
    }
}

/// Something that a call is refused for, with the number.
type Fault = (u32, fn(&mut Lent));

/// "Each of 11 to 14 is tested for the first, then the second", then 18, then 15. The
/// faults before 18 and 15 look at the least lengths, and so are made before these. The
/// first of 14 is no fault of a finish.
const FAULTS: [Fault; 10] = [
    (11, |lent| lent.words[0][0] = 0),
    (11, |lent| lent.words[1][0] = 0),
    (12, |lent| lent.sessions[0].tally.produced = u64::MAX),
    (12, |lent| lent.sessions[1].tally.produced = u64::MAX),
    (13, |lent| lent.end(0, 2)),
    (13, |lent| lent.end(1, 1)),
    (14, |lent| lent.receive_to_limit(0, 1)),
    (14, |lent| lent.receive_to_limit(1, 1)),
    (18, |lent| lent.call.middle -= 1),
    (15, |lent| lent.call.output -= 1),
];

/// With the least lengths a call is accepted, each fault alone is refused by its number,
/// and two by that of the one that is tested first. Where both sessions have received
/// as much as leaves just room for what comes, it is accepted too.
#[test]
fn every_two_faults_are_refused_by_the_one_that_is_tested_first() {
    let mut random = Random::new(SEED + 7);
    let (mut feeds, mut finishes) = (0, 0);
    for chain in chains(SEED + 6).take(CHAINS_WITH_FAULTS) {
        let Some(lent) = Lent::random(&mut random, &chain) else {
            continue;
        };
        let is_feed = lent.call.piece.is_some();
        *(if is_feed { &mut feeds } else { &mut finishes }) += 1;
        assert!(matches!(lent.code(), OK | STOPPED | OPEN));
        let mut at_limit = lent.clone();
        at_limit.receive_to_limit(0, 0);
        at_limit.receive_to_limit(1, 0);
        assert!(matches!(at_limit.code(), OK | STOPPED | OPEN));
        let faults = FAULTS.iter().enumerate();
        let faults = faults.filter(|&(place, _)| is_feed || place != 6);
        let faults: Vec<&Fault> = faults.map(|(_, fault)| fault).collect();
        for (place, fault) in faults.iter().enumerate() {
            assert_eq!(lent.with(&[fault]).code(), fault.0, "{place}");
            for other in &faults[place + 1..] {
                assert_eq!(lent.with(&[fault, other]).code(), fault.0, "{place}");
            }
        }
    }
    println!("{feeds} feeds, {finishes} finishes");
    assert!(feeds >= CHAINS_WITH_FAULTS / 9, "{feeds}");
    assert!(finishes >= CHAINS_WITH_FAULTS / 60, "{finishes}");
}

/// The chain of two tables.
fn chain_of(first: &[u8], second: &[u8]) -> Chain {
    let [first, second] = [first, second].map(|table| Table::read(table).unwrap());
    Chain::of(first, second).unwrap()
}

/// Calls a chain from fresh sessions with the least lengths, and finishes it unless it
/// has ended; answers the sessions and the joined outputs.
fn called(chain: &Chain, pieces: &[&[u16]]) -> ([Session; 2], Vec<u16>) {
    let (mut sessions, mut text) = ([Session::FRESH; 2], Vec::new());
    let pieces = pieces.iter().map(|piece| Some(piece.to_vec()));
    for piece in pieces.chain([None]) {
        let call = Call::least(chain.words(), &sessions, piece);
        let left = compare(chain.words(), sessions, &call);
        text.extend(left.text());
        sessions = left.sessions;
    }
    (sessions, text)
}

/// T1 undoes the escape of `a`, 10 × 57 + 55 - 528 being 97, and T3 writes 1 for `ab`.
/// T2 writes Y for `a` and stops at `b`; T3 is then not finished. The other way round T3
/// gives on the first `a` of `aa` in the feed and the other at its end, for which T2
/// writes Y and X; of `ac` it gives on both, and T2 writes Y and stops at 1, while T3 is
/// still open.
#[test]
fn by_hand() {
    let text = characters("&#97;ba");
    let (sessions, output) = called(&chain_of(&t1(), &t3()), &[&text[..4], &text[4..]]);
    assert_eq!(output, characters("1a"));
    assert_eq!(sessions.map(|session| session.status), [1, 1]);
    // Five takes and an emit; a back, a take and an emit for each of `b` and `a`; a close.
    assert_eq!((sessions[0].received, sessions[0].tally.steps), (7, 13));
    // Two takes and an emit; a take, a back, a take and an emit; a close.
    assert_eq!((sessions[1].received, sessions[1].tally.steps), (3, 8));

    let (sessions, output) = called(&chain_of(&t2(), &t3()), &[&characters("ab")]);
    assert_eq!(output, characters("Y"));
    assert_eq!(sessions.map(|session| session.status), [2, 0]);

    let (sessions, output) = called(&chain_of(&t3(), &t2()), &[&characters("aa")]);
    assert_eq!(output, characters("YX"));
    assert_eq!(sessions.map(|session| session.status), [1, 1]);

    let (sessions, output) = called(&chain_of(&t3(), &t2()), &[&characters("ac")]);
    assert_eq!(output, characters("Y"));
    assert_eq!(sessions.map(|session| session.status), [0, 2]);
    assert_eq!(sessions[1].received, 1);
}

/// T1 and bytes as two digits over 200,000 characters, in pieces of each length: the text
/// is that of both definitions.
#[test]
fn long_inputs() {
    let mut random = Random::new(SEED + 8);
    let chain = chain_of(&t1(), &two_digits());
    let parts = [
        "The ", "water ", "214 cm. ", "&#38;", "&#00;", "&#4", "&#", "&",
    ];
    let parts = std::iter::repeat_with(|| characters(random.pick::<&str>(&parts)));
    let input: Vec<u16> = parts.flatten().take(200_000).collect();
    let [first, second] = chain.tables();
    let expected = convert(second, &convert(first, &input).text).text;
    assert!(expected.len() > 300_000);
    for length in [1 << 16, 1000, 200_000] {
        let pieces: Vec<&[u16]> = input.chunks(length).collect();
        let (sessions, text) = called(&chain, &pieces);
        assert!(text == expected, "pieces of {length}");
        assert_eq!(sessions.map(|session| session.status), [1, 1]);
    }
}
