//! Request \[10\]: a chain of two machines, by hand and by the definitions of both tables.

use std::collections::BTreeMap;

use reference::automaton::TableAutomaton;
use reference::builder::{characters, encode, TableBuilder};
use reference::chain::{ended, feed, finish, Ended, Link};
use reference::compile::compiled;
use reference::lengths::MAX_RECEIVED;
use reference::machine::Status::{self, Closed, Open, Stopped};
use reference::random::Random;
use reference::refusal::Refusal;
use reference::samples::{
    lookahead, random_input, random_marked_table, random_table, rules, t1, t2, t3, units,
    written_for,
};
use reference::session::{self, held_places, Session};
use reference::table::Table;
use reference::uses::{Uses, DEFAULT, PAIRS};
use reference::words::WORDS;

mod letters;
use letters::{A, B, HIGH, LAST_HIGH, LAST_LOW, LOW};

/// What the buffers of calls by hand hold before.
const FILLING: u16 = 7;
/// Room that no call by hand needs more than.
const ROOM: usize = 400;

/// Two machines and their sessions.
#[derive(Clone)]
struct Chain {
    words: [Vec<u16>; 2],
    sessions: [Session; 2],
}

/// What an accepted call gave: both texts and both statuses.
#[derive(Debug, PartialEq)]
struct Passed {
    middle: Vec<u16>,
    output: Vec<u16>,
    statuses: [Status; 2],
}

/// What an accepted call gives.
fn passed(middle: &str, output: &str, statuses: [Status; 2]) -> Result<Passed, Refusal> {
    passed_units(&characters(middle), &characters(output), statuses)
}

/// The same by units.
fn passed_units(middle: &[u16], output: &[u16], statuses: [Status; 2]) -> Result<Passed, Refusal> {
    Ok(Passed {
        middle: middle.to_vec(),
        output: output.to_vec(),
        statuses,
    })
}

impl Chain {
    /// The machines of two tables, with fresh sessions.
    fn of(first: &[u8], second: &[u8]) -> Chain {
        Chain {
            words: [first, second].map(|table| compiled(table).unwrap()),
            sessions: [Session::FRESH; 2],
        }
    }

    /// Feeds a piece, or finishes without one, with buffers of such lengths. A refused
    /// call changes nothing; an accepted one answers the statuses of the sessions, and
    /// leaves what stands behind the texts.
    fn call(
        &mut self,
        piece: Option<&[u16]>,
        middle: usize,
        output: usize,
    ) -> Result<Passed, Refusal> {
        let before = self.sessions;
        let (mut middle, mut output) = (vec![FILLING; middle], vec![FILLING; output]);
        let [first, second] = &mut self.sessions;
        let [first_words, second_words] = &self.words;
        let first = Link {
            words: first_words,
            session: first,
        };
        let second = Link {
            words: second_words,
            session: second,
        };
        let answer = match piece {
            Some(piece) => feed(first, second, piece, &mut middle, &mut output),
            None => finish(first, second, &mut middle, &mut output),
        };
        let given = (self.sessions[0].produced - before[0].produced) as usize;
        let written = answer.map_or(0, |answer| answer.count);
        let behind = [&middle[given..], &output[written..]].concat();
        assert!(behind.iter().all(|&place| place == FILLING));
        let Ok(answer) = answer else {
            assert_eq!(self.sessions, before);
            return Err(answer.unwrap_err());
        };
        let statuses = [answer.first, answer.second];
        assert_eq!(self.sessions.map(|session| session.status), statuses);
        assert_eq!(
            self.sessions[1].produced,
            before[1].produced + written as u64
        );
        passed_units(&middle[..given], &output[..written], statuses)
    }

    /// Feeds a piece with more room than it needs.
    fn feed(&mut self, piece: &str) -> Result<Passed, Refusal> {
        self.call(Some(&characters(piece)), ROOM, ROOM)
    }

    /// Finishes with more room than it needs.
    fn finish(&mut self) -> Result<Passed, Refusal> {
        self.call(None, ROOM, ROOM)
    }

    /// Later calls are refused by 13.
    fn assert_ended(&mut self) {
        assert_eq!(self.feed("a"), Err(Refusal::Ended));
        assert_eq!(self.feed(""), Err(Refusal::Ended));
        assert_eq!(self.finish(), Err(Refusal::Ended));
    }

    /// The characters that a session holds.
    fn held(&self, link: usize) -> &[u16] {
        let session = &self.sessions[link];
        &session.held[..usize::from(session.count)]
    }
}

/// `ab` writes `xyz`, default x0: L is 2, E is 3.
fn writer() -> Vec<u8> {
    let table = TableBuilder::new().rule(2).spelled(0, "ab").text("xyz");
    table.copying_default().bytes()
}

/// `xy` writes `12`, default x0: L is 2, E is 2.
fn reader() -> Vec<u8> {
    let table = TableBuilder::new().rule(2).spelled(0, "xy").text("12");
    table.copying_default().bytes()
}

/// `zz` writes `z`, default x0: it copies what has no `z`.
fn copier() -> Vec<u8> {
    let table = TableBuilder::new().rule(2).spelled(0, "zz").text("z");
    table.copying_default().bytes()
}

/// T1 undoes the escape of `a`, which comes in pieces, and T3 reads `ab`. E of T1 is 5
/// and that of T3 is 1: a feed of n characters asks for 5 × (held + n) in the middle
/// and for so many and those that T3 holds in the output.
#[test]
fn an_escape_undone_and_read_by_t3() {
    let mut chain = Chain::of(&t1(), &t3());
    let call = |chain: &mut Chain, piece: &str, middle, output| {
        chain.call(Some(&characters(piece)), middle, output)
    };
    let open = [Open; 2];
    assert_eq!(call(&mut chain, "&#9", 15, 15), passed("", "", open));
    // 10 × 57 + 55 - 528 is 97.
    assert_eq!(call(&mut chain, "7;", 25, 25), passed("a", "", open));
    assert_eq!(chain.held(1), [A]);
    assert_eq!(call(&mut chain, "b", 5, 6), passed("b", "1", open));
    assert_eq!(chain.call(None, 0, 0), passed("", "", [Closed; 2]));
    // Five takes and an emit of rule 1; a back, a take and an emit of the default; a
    // close.
    let first = Session {
        status: Closed,
        received: 6,
        produced: 2,
        steps: 10,
        uses: Uses::of(&[(1, 1), (DEFAULT, 1)]),
        ..Session::FRESH
    };
    // Two takes, an emit of rule 0, a close.
    let second = Session {
        status: Closed,
        received: 2,
        produced: 1,
        steps: 4,
        uses: Uses::of(&[(0, 1)]),
        ..Session::FRESH
    };
    assert_eq!(chain.sessions, [first, second]);
    chain.assert_ended();
}

/// The same words lent twice: T3 writes `1a` for `aba`, and for that the same.
#[test]
fn a_table_after_itself() {
    let mut chain = Chain::of(&t3(), &t3());
    // `ab` is decided, and `a` may begin another.
    assert_eq!(chain.feed("aba"), passed("1", "1", [Open; 2]));
    assert_eq!(chain.finish(), passed("a", "a", [Closed; 2]));
}

/// The first writes `ca` at its end. Of these the second writes `c`, since `a` may begin
/// more; at its own end that is X.
#[test]
fn a_finish_where_the_second_holds_characters() {
    let first = TableBuilder::new().anchored(1).spelled(0, "a").text("ca");
    let mut chain = Chain::of(&first.copying_default().bytes(), &lookahead());
    assert_eq!(chain.feed("ba"), passed("b", "b", [Open; 2]));
    // Twice one held; once that and none held.
    assert_eq!(chain.call(None, 2, 2), passed("ca", "cX", [Closed; 2]));

    // Here the second has held `a` since the feed, and the first has nothing more.
    let mut chain = Chain::of(&copier(), &lookahead());
    assert_eq!(chain.feed("a"), passed("a", "", [Open; 2]));
    assert_eq!(chain.call(None, 0, 0), Err(Refusal::ShortOutput));
    assert_eq!(chain.call(None, 0, 1), passed("", "X", [Closed; 2]));
}

/// `xa` leaves `x` with the second and `a` with the first. Three characters in all then
/// ask for 3 × 3 in the middle, and for 2 × (1 + 9) in the output.
#[test]
fn the_least_lengths_of_a_feed() {
    let mut chain = Chain::of(&writer(), &reader());
    assert_eq!(chain.feed("xa"), passed("x", "", [Open; 2]));
    assert_eq!((chain.held(0), chain.held(1)), (&[A][..], &[120][..]));
    let piece = characters("bc");
    let short_middle = Err(Refusal::ShortMiddle);
    assert_eq!(chain.call(Some(&piece), 8, 20), short_middle);
    assert_eq!(chain.call(Some(&piece), 0, ROOM), short_middle);
    let short_output = Err(Refusal::ShortOutput);
    assert_eq!(chain.call(Some(&piece), 9, 19), short_output);
    assert_eq!(chain.call(Some(&piece), ROOM, 0), short_output);
    // `xx` is no pattern; `xy` is.
    let given = passed("xyzc", "x12zc", [Open; 2]);
    assert_eq!(chain.call(Some(&piece), 9, 20), given);
}

/// The same session asks at its finish for 3 × 1 in the middle, and for 2 × (1 + 3) in
/// the output.
#[test]
fn the_least_lengths_of_a_finish() {
    let mut chain = Chain::of(&writer(), &reader());
    chain.feed("xa").unwrap();
    assert_eq!(chain.call(None, 2, 8), Err(Refusal::ShortMiddle));
    assert_eq!(chain.call(None, 3, 7), Err(Refusal::ShortOutput));
    let given = passed("a", "xa", [Closed; 2]);
    assert_eq!(chain.call(None, 3, 8), given);
}

/// With E of 0 the first writes nothing, and the middle buffer may be empty. What the
/// second holds is still asked of the output.
#[test]
fn a_first_that_writes_nothing() {
    let mut chain = Chain::of(&rules(1).bytes(), &reader());
    let piece = characters("aaa");
    let nothing = passed("", "", [Open; 2]);
    assert_eq!(chain.call(Some(&piece), 0, 0), nothing);
    session::feed(
        &chain.words[1],
        &mut chain.sessions[1],
        &characters("x"),
        &mut [0; 2],
    )
    .unwrap();
    let short = Err(Refusal::ShortOutput);
    assert_eq!(chain.call(Some(&piece), 0, 1), short);
    assert_eq!(chain.call(Some(&piece), 0, 2), nothing);
    assert_eq!(chain.call(None, 0, 1), short);
    assert_eq!(chain.call(None, 0, 2), passed("", "x", [Closed; 2]));
}

/// With E of 0 for the second the output may be empty.
#[test]
fn a_second_that_writes_nothing() {
    let mut chain = Chain::of(&copier(), &rules(1).bytes());
    let piece = characters("aaa");
    assert_eq!(chain.call(Some(&piece), 3, 0), passed("aaa", "", [Open; 2]));
    assert_eq!(chain.call(None, 0, 0), passed("", "", [Closed; 2]));
}

/// T2 stops at `b` behind `a`, for which it writes Y. "The second isn't finished": it
/// holds the Y, which may begin YX.
#[test]
fn the_first_stops_in_a_feed() {
    let second = TableBuilder::new().rule(2).spelled(0, "YX").text("!");
    let mut chain = Chain::of(&t2(), &second.copying_default().bytes());
    assert_eq!(chain.feed("ab"), passed("Y", "", [Stopped, Open]));
    assert_eq!(chain.held(1), characters("Y"));
    assert_eq!(chain.sessions[0].received, 1);
    chain.assert_ended();
}

/// `ab` alone is read: the `a` that is left at the end stops the first, which then writes
/// nothing. The second holds `x`, which may begin `xy`.
#[test]
fn the_first_stops_at_the_finish() {
    let first = TableBuilder::new().rule(2).spelled(0, "ab").text("x");
    let mut chain = Chain::of(&first.bytes(), &reader());
    assert_eq!(chain.feed("aba"), passed("x", "", [Open; 2]));
    assert_eq!(chain.finish(), passed("", "", [Stopped, Open]));
    assert_eq!(chain.held(1), characters("x"));
    chain.assert_ended();
}

/// T2 as the second stops at `b`, and writes Y for the `a` before it. The first is open
/// and stays so.
#[test]
fn the_second_stops_in_a_feed() {
    let mut chain = Chain::of(&copier(), &t2());
    assert_eq!(chain.feed("abz"), passed("ab", "Y", [Open, Stopped]));
    assert_eq!(chain.sessions[1].received, 1);
    chain.assert_ended();
}

/// T2 stops at `b` and writes Y, at which T2 as the second stops at once.
#[test]
fn both_stop_in_a_feed() {
    let mut chain = Chain::of(&t2(), &t2());
    assert_eq!(chain.feed("ab"), passed("Y", "", [Stopped; 2]));
    chain.assert_ended();
}

/// The first writes the `z` that it holds; T2 has no rule for it.
#[test]
fn the_second_stops_at_what_the_first_writes_at_its_end() {
    let mut chain = Chain::of(&copier(), &t2());
    assert_eq!(chain.feed("az"), passed("a", "", [Open; 2]));
    assert_eq!(chain.finish(), passed("z", "Y", [Closed, Stopped]));
    chain.assert_ended();
}

/// The `a` that the second holds is no `ab` at its end, and there is no default.
#[test]
fn the_second_stops_at_its_own_end() {
    let second = TableBuilder::new().rule(2).spelled(0, "ab").text("1");
    let mut chain = Chain::of(&copier(), &second.bytes());
    assert_eq!(chain.feed("aba"), passed("aba", "1", [Open; 2]));
    assert_eq!(chain.finish(), passed("", "", [Closed, Stopped]));
    assert_eq!(chain.sessions[1].received, 2);
    chain.assert_ended();
}

/// Under a marked default as the first's, a first unit waits for what follows, and the
/// pair is then one text.
#[test]
fn a_pair_cut_between_pieces_waits_in_a_marked_first() {
    let mut chain = Chain::of(&units(), &copier());
    let call = |chain: &mut Chain, piece: &[u16]| chain.call(Some(piece), ROOM, ROOM);
    let open = [Open; 2];
    assert_eq!(call(&mut chain, &[HIGH]), passed("", "", open));
    assert_eq!((chain.held(0), chain.held(1)), (&[HIGH][..], &[][..]));
    let pair = passed_units(&[HIGH, LOW], &[HIGH, LOW], open);
    assert_eq!(call(&mut chain, &[LOW]), pair);
    assert_eq!(chain.sessions[0].uses, Uses::of(&[(PAIRS, 1)]));
    // "At the input's end it is treated alone", by 65535 less the character.
    assert_eq!(call(&mut chain, &[HIGH]), passed("", "", open));
    let alone = [65535 - HIGH];
    assert_eq!(chain.finish(), passed_units(&alone, &alone, [Closed; 2]));
}

/// Under a marked default as the second's, the first unit that the first gives waits: at
/// state 0, and one that a rule has at that rule's state.
#[test]
fn a_pair_cut_between_pieces_waits_in_a_marked_second() {
    let mut chain = Chain::of(&copier(), &units());
    let call = |chain: &mut Chain, piece: &[u16]| chain.call(Some(piece), ROOM, ROOM);
    let open = [Open; 2];
    let waits = |unit| passed_units(&[unit], &[], open);
    assert_eq!(call(&mut chain, &[LAST_HIGH]), waits(LAST_HIGH));
    assert_eq!((chain.held(0), chain.held(1)), (&[][..], &[LAST_HIGH][..]));
    assert_eq!(chain.sessions[1].state, 0);
    let pair = passed_units(&[LAST_LOW], &[LAST_HIGH, LAST_LOW], open);
    assert_eq!(call(&mut chain, &[LAST_LOW]), pair);
    assert_eq!(chain.sessions[1].uses, Uses::of(&[(PAIRS, 1)]));
    // 55297 before `b` is the rule that writes 2.
    assert_eq!(call(&mut chain, &[HIGH + 1]), waits(HIGH + 1));
    assert_ne!(chain.sessions[1].state, 0);
    assert_eq!(call(&mut chain, &[B]), passed("b", "2", open));
    assert_eq!(call(&mut chain, &[HIGH]), waits(HIGH));
    let alone = passed_units(&[], &[65535 - HIGH], [Closed; 2]);
    assert_eq!(chain.finish(), alone);
}

/// The first treats its waiting unit alone and gives it on as it is, and so does the
/// second with the same.
#[test]
fn a_first_unit_waits_in_both_at_the_end() {
    let table = TableBuilder::new().rule(2).spelled(0, "zz").text("z");
    let table = table.marked_default().copy().bytes();
    let mut chain = Chain::of(&table, &table);
    let piece = [HIGH];
    assert_eq!(chain.call(Some(&piece), 1, 1), passed("", "", [Open; 2]));
    let alone = passed_units(&piece, &piece, [Closed; 2]);
    assert_eq!(chain.call(None, 1, 1), alone);
}

/// A call as it is lent.
#[derive(Clone)]
struct Lent {
    chain: Chain,
    piece: Option<Vec<u16>>,
    middle: usize,
    output: usize,
}

impl Lent {
    /// A feed of `ab`, with the least lengths: 3 × 2 and 2 × 6.
    fn feed() -> Lent {
        Lent {
            chain: Chain::of(&writer(), &reader()),
            piece: Some(characters("ab")),
            middle: 6,
            output: 12,
        }
    }

    /// A finish where the first holds `a`, with the least lengths: 3 × 1 and 2 × 3.
    fn finish() -> Lent {
        let mut chain = Chain::of(&writer(), &reader());
        chain.feed("a").unwrap();
        Lent {
            chain,
            piece: None,
            middle: 3,
            output: 6,
        }
    }

    /// The call with faults, and the number that it is refused by; none if it is
    /// accepted.
    fn refused(&self, faults: &[&Fault]) -> Option<u8> {
        let mut lent = self.clone();
        for (_, make) in faults {
            make(&mut lent);
        }
        let piece = lent.piece.as_deref();
        let answer = lent.chain.call(piece, lent.middle, lent.output);
        answer.err().map(Refusal::number)
    }
}

/// Something that a call is refused for, with the number.
type Fault = (u8, fn(&mut Lent));

/// Each of 11 to 14 for the first and for the second, then 18 and 15, in the order of the
/// tests. The first of 14 is no fault of a finish, which has no piece.
const FAULTS: [Fault; 10] = [
    // No state.
    (11, |lent| lent.chain.words[0][0] = 0),
    // A word less.
    (11, |lent| lent.chain.words[1].truncate(WORDS - 1)),
    // A place that is not in use.
    (12, |lent| lent.chain.sessions[0].held[7] = 1),
    (12, |lent| lent.chain.sessions[1].held[7] = 1),
    (13, |lent| end(&mut lent.chain.sessions[0], Closed)),
    (13, |lent| end(&mut lent.chain.sessions[1], Stopped)),
    // One below the limit, and two more.
    (14, |lent| {
        receive(&mut lent.chain.sessions[0], MAX_RECEIVED - 1)
    }),
    // One more than the least middle length leaves.
    (14, |lent| {
        let least = lent.middle as u64;
        receive(&mut lent.chain.sessions[1], MAX_RECEIVED - least + 1);
    }),
    (18, |lent| lent.middle -= 1),
    (15, |lent| lent.output -= 1),
];

/// Ends a session of one character at most, which it then has not received.
fn end(session: &mut Session, status: Status) {
    session.received -= u64::from(session.count);
    session.held[0] = 0;
    session.count = 0;
    session.state = 0;
    session.status = status;
}

/// Lets a session that holds nothing have received so many characters, all of which the
/// default took.
fn receive(session: &mut Session, received: u64) {
    session.received = received;
    session.uses = Uses::of(&[(DEFAULT, received)]);
}

/// Asserts that a call is accepted, that each of its faults alone is refused by its
/// number, and two of them by that of the first, and so if all that follow are there.
fn assert_order(lent: &Lent, faults: &[&Fault]) {
    assert_eq!(lent.refused(&[]), None);
    for (place, fault) in faults.iter().enumerate() {
        let number = Some(fault.0);
        assert_eq!(lent.refused(&[fault]), number, "{place}");
        for other in &faults[place + 1..] {
            assert_eq!(lent.refused(&[fault, other]), number, "{place}");
        }
        assert_eq!(lent.refused(&faults[place..]), number, "{place}");
    }
}

#[test]
fn each_refusal_of_a_feed_and_their_order() {
    let faults: Vec<&Fault> = FAULTS.iter().collect();
    assert_order(&Lent::feed(), &faults);
}

#[test]
fn each_refusal_of_a_finish_and_their_order() {
    let faults: Vec<&Fault> = FAULTS.iter().collect();
    assert_order(&Lent::finish(), &[&faults[..6], &faults[7..]].concat());
}

/// Closed or stopped, the first or the second.
#[test]
fn sessions_that_have_ended_are_refused_by_13() {
    for lent in [Lent::feed(), Lent::finish()] {
        for link in [0, 1] {
            for status in [Closed, Stopped] {
                let mut lent = lent.clone();
                end(&mut lent.chain.sessions[link], status);
                assert_eq!(lent.refused(&[]), Some(13), "{link} {status:?}");
            }
        }
    }
}

/// "The second with the least middle length as its piece": 6, of which the first then
/// gives 3.
#[test]
fn received_up_to_the_limit() {
    let mut lent = Lent::feed();
    receive(&mut lent.chain.sessions[0], MAX_RECEIVED - 2);
    receive(&mut lent.chain.sessions[1], MAX_RECEIVED - 6);
    assert_eq!(lent.refused(&[]), None);
    for (link, received) in [(0, MAX_RECEIVED - 1), (1, MAX_RECEIVED - 5)] {
        let mut lent = lent.clone();
        receive(&mut lent.chain.sessions[link], received);
        assert_eq!(lent.refused(&[]), Some(14), "{link}");
    }
    let given = lent.chain.call(lent.piece.as_deref(), 6, 12);
    assert_eq!(given, passed("xyz", "12z", [Open; 2]));
    let received = lent.chain.sessions.map(|session| session.received);
    assert_eq!(received, [MAX_RECEIVED, MAX_RECEIVED - 3]);
}

/// A finish gives the second what the first holds, three times: 3 characters at most.
#[test]
fn received_up_to_the_limit_at_a_finish() {
    let mut lent = Lent::finish();
    receive(&mut lent.chain.sessions[1], MAX_RECEIVED - 2);
    assert_eq!(lent.refused(&[]), Some(14));
    receive(&mut lent.chain.sessions[1], MAX_RECEIVED - 3);
    assert_eq!(lent.refused(&[]), None);
    // The first at the limit: nothing more is received.
    let session = &mut lent.chain.sessions[0];
    *session = Session {
        state: 1,
        held: held_places(&[A]),
        count: 1,
        received: MAX_RECEIVED,
        uses: Uses::of(&[(DEFAULT, MAX_RECEIVED - 1)]),
        ..Session::FRESH
    };
    assert_eq!(lent.refused(&[]), None);
}

/// The automaton of a table.
fn automaton(table: &[u8]) -> TableAutomaton {
    TableAutomaton::of(Table::read(table).unwrap()).unwrap()
}

/// What a chain of two tables comes to on an input.
fn ended_on(first: &[u8], second: &[u8], input: &str) -> Ended {
    let first = Table::read(first).unwrap();
    ended(&first, &automaton(second), &characters(input))
}

/// The definitions in a row, by document 01's examples: T1 writes `&&#00;&&#` for
/// `&&#00;&#38;&#`, of which T3 has no rule. T2 stops at 1 of `ab`, and its Y waits
/// where a rule may begin with it, but not under T3. T2 after T2 stops at the Y.
#[test]
fn the_definitions_in_a_row() {
    let came_to = |text: &str, second| Ended {
        text: characters(text),
        second,
    };
    let undone = came_to("&&#00;&&#", Closed);
    assert_eq!(ended_on(&t1(), &t3(), "&&#00;&#38;&#"), undone);
    assert_eq!(ended_on(&t1(), &t3(), "&#97;ba"), came_to("1a", Closed));
    assert_eq!(ended_on(&copier(), &t2(), "aa"), came_to("YX", Closed));
    assert_eq!(ended_on(&copier(), &t2(), "ab"), came_to("Y", Stopped));
    assert_eq!(ended_on(&t2(), &t3(), "ab"), came_to("Y", Open));
    assert_eq!(ended_on(&t2(), &t2(), "ab"), came_to("", Stopped));
    let waits = TableBuilder::new().rule(2).spelled(0, "YX").text("!");
    let waits = waits.copying_default().bytes();
    assert_eq!(ended_on(&t2(), &waits, "aab"), came_to("Y", Open));
}

/// Random tables that compile: any, or marked ones, the first mostly written for the
/// second.
fn random_tables(random: &mut Random) -> Option<[TableAutomaton; 2]> {
    let [first, second] = match random.below(3) {
        0 => [(); 2].map(|()| random_marked_table(random)),
        _ => [(); 2].map(|()| random_table(random)),
    };
    let first = match random.below(4) {
        0 => first,
        _ => written_for(random, first, &second),
    };
    Some([
        TableAutomaton::of(first).ok()?,
        TableAutomaton::of(second).ok()?,
    ])
}

/// A list of calls of a chain from fresh sessions.
struct Played<'t> {
    tables: &'t [TableAutomaton; 2],
    chain: Chain,
    /// The accepted pieces.
    input: Vec<u16>,
    /// The joined outputs.
    output: Vec<u16>,
}

impl Played<'_> {
    /// Makes a call; answers the refusal, if any. The buffers are as long as they have to
    /// be, or one of them is a character shorter.
    fn call(&mut self, random: &mut Random, piece: Option<&[u16]>) -> Option<Refusal> {
        let held = [0, 1].map(|link| self.chain.held(link).len());
        let most = [0, 1].map(|link| self.tables[link].table.most_outputs());
        let least_middle = most[0] * (held[0] + piece.map_or(0, <[u16]>::len));
        let least_output = most[1] * (held[1] + least_middle);
        let [middle, output] = match random.below(6) {
            0 => [least_middle.saturating_sub(1), least_output],
            1 => [least_middle, least_output.saturating_sub(1)],
            _ => [least_middle, least_output],
        };
        match self.chain.call(piece, middle, output) {
            Ok(passed) => {
                self.input.extend(piece.unwrap_or_default());
                self.output.extend(passed.output);
                None
            }
            Err(refusal) => Some(refusal),
        }
    }
}

/// Whatever list of calls ended the chain, it came to what the definitions say. A third
/// of the tables that are not marked has no default and stops on most inputs, the first in
/// a feed or the second; seldom does the second stop in the very call that ends the first.
/// Of the calls a sixth has too short a middle buffer and a sixth too short an output. The
/// guards are a third or less.
#[test]
fn random_lists_of_calls_come_to_what_the_definitions_say() {
    let mut random = Random::new(1010);
    let (mut ends, mut refusals) = (BTreeMap::new(), BTreeMap::new());
    for _ in 0..6000 {
        let Some(tables) = random_tables(&mut random) else {
            continue;
        };
        let [first, second] = &tables;
        let mut played = Played {
            chain: Chain::of(&encode(&first.table), &encode(&second.table)),
            tables: &tables,
            input: Vec::new(),
            output: Vec::new(),
        };
        for _ in 0..10 {
            let length = random.below(7);
            let piece = random_input(&mut random, &first.table, length);
            let piece = (!random.one_in(8)).then_some(&piece[..]);
            if let Some(refusal) = played.call(&mut random, piece) {
                *refusals.entry(refusal.number()).or_insert(0) += 1;
            }
        }
        let statuses = played.chain.sessions.map(|session| session.status);
        *ends.entry(format!("{statuses:?}")).or_insert(0) += 1;
        if statuses != [Open; 2] {
            let came_to = Ended {
                text: played.output,
                second: statuses[1],
            };
            assert_eq!(came_to, ended(&first.table, second, &played.input));
        }
    }
    println!("{ends:?} {refusals:?}");
    for (statuses, least) in [
        ([Open, Open], 300),
        ([Open, Stopped], 200),
        ([Closed, Closed], 500),
        ([Closed, Stopped], 12),
        ([Stopped, Open], 200),
        ([Stopped, Stopped], 12),
    ] {
        assert!(ends[&format!("{statuses:?}")] >= least, "{ends:?}");
    }
    assert_eq!(ends.len(), 6, "{ends:?}");
    let numbers: Vec<u8> = refusals.keys().copied().collect();
    assert_eq!(numbers, [13, 15, 18]);
    assert!(
        refusals.values().all(|&times| times >= 2000),
        "{refusals:?}"
    );
}
