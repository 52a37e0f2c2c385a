//! Compiled tables, and lists of calls of a session under them, compared after
//! each call and with the reckoning of demand 3.

use reference::automaton::TableAutomaton;
use reference::builder::encode;
use reference::random::Random;
use reference::reckoning::{reckon, Call};
use reference::samples::random_input;
use reference::table::Table;
use reference::words::WORDS;

use crate::calls::{code, compare, random_call, written, Left};
use crate::face::{self, Session, OK};
use crate::uses::taken;

/// A table that compiles, with its words, which the library made.
pub struct Compiled {
    /// The independent version's automaton of the table.
    pub automaton: TableAutomaton,
    /// The machine words.
    pub words: Vec<u16>,
}

impl Compiled {
    /// A table and its words, unless there are too many classes or states.
    ///
    /// # Panics
    ///
    /// If the library refuses what the independent version compiles.
    pub fn of(table: Table) -> Option<Compiled> {
        let bytes = encode(&table);
        let automaton = TableAutomaton::of(table).ok()?;
        let mut words = vec![0; WORDS];
        assert_eq!(face::compile(&bytes, &mut words), OK);
        Some(Compiled { automaton, words })
    }

    /// A random input of up to 200 characters.
    pub fn input(&self, random: &mut Random) -> Vec<u16> {
        let length = random.below(201);
        random_input(random, &self.automaton.table, length)
    }
}

/// "The sum over rules of count times K, plus the default's count, is the consumed
/// total."
///
/// # Panics
///
/// If it is not.
pub fn assert_used(words: &[u16], session: &Session) {
    let consumed = u128::from(session.consumed());
    assert_eq!(taken(words, session), consumed, "{session:?}");
}

/// A session under random calls, compared after each.
pub struct Called {
    /// The session after the calls.
    pub session: Session,
    calls: Vec<Call>,
    codes: Vec<u32>,
    text: Vec<u16>,
}

impl Called {
    /// So many random calls of a fresh session. Each is noted, with the session
    /// before it and what it left.
    pub fn random(
        random: &mut Random,
        machine: &Compiled,
        calls: i64,
        mut note: impl FnMut(&Session, &Call, &Left),
    ) -> Called {
        let input = machine.input(random);
        let mut unread = &input[..];
        let mut called = Called {
            session: Session::FRESH,
            calls: Vec::new(),
            codes: Vec::new(),
            text: Vec::new(),
        };
        for _ in 0..calls {
            let call = random_call(random, &machine.words, &called.session, &mut unread);
            let left = compare(&machine.words, called.session, &call);
            assert_used(&machine.words, &left.session);
            note(&called.session, &call, &left);
            called.text.extend(left.text());
            called.codes.push(left.code);
            called.session = left.session;
            called.calls.push(call);
        }
        called
    }

    /// Demand 3: the answers, the session and the joined outputs are those of the
    /// reckoning, which needs only the table and the calls.
    ///
    /// # Panics
    ///
    /// If they are not.
    pub fn assert_reckoned(&self, machine: &Compiled) {
        let reckoning = reckon(&machine.automaton, &self.calls);
        let codes: Vec<u32> = reckoning.answers.iter().copied().map(code).collect();
        assert_eq!(self.codes, codes, "{:?}", self.calls);
        assert_eq!(
            self.session,
            written(&reckoning.session),
            "{:?}",
            self.calls
        );
        assert_eq!(self.text, reckoning.output, "{:?}", self.calls);
    }
}
