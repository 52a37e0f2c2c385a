//! Feed and finish against the independent version: after every call the same
//! answer, session, count and output buffer, the whole of it; and a preview before
//! each feed, which sees what the feed then gives.

use std::collections::BTreeMap;

use compare::calls::{compare, fed, next_piece, random_call, Left};
use compare::cases::sound_tables;
use compare::damage::{damaged_session, further, Base, Field, Part};
use compare::face::{self, Session, OK, OPEN, STOPPED};
use compare::lists::{Called, Compiled};
use reference::automaton::Automaton;
use reference::builder::encode;
use reference::machine::{Machine, Step};
use reference::random::Random;
use reference::reckoning::Call;
use reference::states::StateNo;
use reference::words::{Words, WORDS};

/// The seed of the random tables.
const SEED: u64 = 65;
/// How many tables are compared, each with a list of calls.
const LISTS: usize = 50_000;
/// How many machines have their words damaged, and as many their sessions.
const BASES: usize = 4_000;
/// How many inputs are fed in three ways.
const INPUTS: usize = 6_000;

/// The tables of a seed that compile.
fn machines(seed: u64) -> impl Iterator<Item = Compiled> {
    sound_tables(seed).filter_map(Compiled::of)
}

/// What was met: answers, steps by their sort, and rules that only the input's
/// end lets through.
#[derive(Debug, Default)]
struct Met {
    answers: BTreeMap<u32, usize>,
    steps: BTreeMap<&'static str, usize>,
}

impl Met {
    /// Notes an answer; of an accepted call, runs the machine again step by step.
    fn note(&mut self, words: &[u16], session: &Session, call: &Call, left: &Left) {
        *self.answers.entry(left.code).or_default() += 1;
        if !matches!(left.code, OK | STOPPED | OPEN) {
            return;
        }
        let words = Words::sound(words).expect("the call was accepted");
        let (piece, ended) = match call {
            Call::Feed { piece, .. } => (&piece[..], false),
            Call::Finish { .. } => (&[][..], true),
        };
        let held = &session.held[..usize::from(session.held_count)];
        let mut machine = Machine::resume(&words, StateNo(session.state), held, piece, ended);
        loop {
            let state = machine.state();
            let Some(step) = machine.step() else {
                return;
            };
            let (go, end) = (words.accept(state), words.accept_at_end(state));
            let name = match step {
                Step::Emit if go.is_some() && go != end => "emit, go and end differ",
                Step::Emit if go.is_none() && end.is_some() => "emit, end alone",
                Step::Emit => "emit",
                Step::Read => "read",
                Step::RollBack => "roll back",
                Step::Stop => "stop",
                Step::Close => "close",
            };
            *self.steps.entry(name).or_default() += 1;
        }
    }

    /// Asserts that each of these answers was met at least so often, and no other
    /// answer at all.
    fn answered(&self, least: &[(u32, usize)]) {
        let met: Vec<u32> = self.answers.keys().copied().collect();
        let expected: Vec<u32> = least.iter().map(|&(code, _)| code).collect();
        assert_eq!(met, expected, "{self:?}");
        for (code, least) in least {
            assert!(self.answers[code] >= *least, "{code}: {self:?}");
        }
    }

    /// Asserts that each of these steps was made at least so often.
    fn stepped(&self, least: &[(&str, usize)]) {
        for (step, least) in least {
            assert!(self.steps[step] >= *least, "{step}: {self:?}");
        }
    }
}

/// The guards are a third or less of what the odds give. A list has 2 to 16
/// calls, 9 in the mean: 9 LISTS of calls. One call in twelve is a finish, so that
/// half of the lists have one, and a third of the tables has no default, so that
/// a sixth of the lists and more is stopped; what ends does so about half way,
/// and a third of the calls comes after it. Of the buffers of the others, which
/// are 6 LISTS, a fourth is too short. The accepted feeds, 4 LISTS, have 9
/// characters each in the mean: 30 LISTS of reads, with an emit for three and a
/// roll-back for six of them at least. A finish holds something once in four
/// times, of which a third is a whole pattern, and a third of these anchored. A
/// tenth of the tables has an anchored rule and a later one for the same word.
#[test]
fn random_lists_of_calls() {
    let mut random = Random::new(SEED + 1);
    let mut met = Met::default();
    for machine in machines(SEED).take(LISTS) {
        let calls = random.between(2, 16);
        let called = Called::random(&mut random, &machine, calls, |session, call, left| {
            met.note(&machine.words, session, call, left)
        });
        called.assert_reckoned(&machine);
    }
    println!("{met:?}");
    met.answered(&[
        (OK, LISTS / 6),
        (13, LISTS),
        (15, LISTS / 2),
        (STOPPED, LISTS / 18),
        (OPEN, LISTS),
    ]);
    met.stepped(&[
        ("read", 10 * LISTS),
        ("emit", 3 * LISTS),
        ("emit, end alone", LISTS / 216),
        ("emit, go and end differ", LISTS / 30),
        ("roll back", LISTS),
        ("stop", LISTS / 18),
        ("close", LISTS / 6),
    ]);
}

/// Each field of a session in turn, 14 BASES of them. Nearly every other value of
/// the eight held places, of the state and of the count is unsound, and half of
/// the values of the others: 12 BASES are refused by 12, and 2 BASES are sound. A
/// fourth of these has ended. Of the buffers of the others a fourth is too short,
/// a twelfth of the calls is a finish, a tenth of the feeds stops, and one value
/// of received in six leaves no room for the piece. The guards are a third or
/// less.
#[test]
fn damaged_sessions() {
    let mut random = Random::new(SEED + 3);
    let mut met = Met::default();
    let mut refused: BTreeMap<String, usize> = BTreeMap::new();
    for machine in machines(SEED + 2).take(BASES) {
        let calls = random.between(0, 4);
        let session = Called::random(&mut random, &machine, calls, |_, _, _| ()).session;
        let input = machine.input(&mut random);
        for field in Field::all() {
            let damaged = damaged_session(&mut random, &machine.words, &session, field);
            let call = random_call(&mut random, &machine.words, &damaged, &mut &input[..]);
            let left = compare(&machine.words, damaged, &call);
            met.note(&machine.words, &damaged, &call, &left);
            *refused.entry(format!("{field:?}")).or_default() += usize::from(left.code == 12);
        }
    }
    println!("{met:?} {refused:?}");
    met.answered(&[
        (OK, BASES / 40),
        (12, 4 * BASES),
        (13, BASES / 6),
        (14, BASES / 20),
        (15, BASES / 10),
        (STOPPED, BASES / 40),
        (OPEN, BASES / 3),
    ]);
    assert_eq!(refused.len(), 14);
    assert!(
        refused.values().all(|&times| times >= BASES / 10),
        "{refused:?}"
    );
}

/// Sessions of each depth, led on by targets until none is left. Most rules are
/// unanchored, so that the last of most paths is settled and refused by 12; a
/// path has two states before it in the mean. The guards are a third or less.
#[test]
fn sessions_led_on_by_targets() {
    let mut random = Random::new(SEED + 9);
    let mut met = Met::default();
    for machine in machines(SEED + 8).take(BASES) {
        let input = machine.input(&mut random);
        let mut session = Session::FRESH;
        while let Some(further) = further(&mut random, &machine.words, &session) {
            session = further;
            let call = random_call(&mut random, &machine.words, &session, &mut &input[..]);
            let left = compare(&machine.words, session, &call);
            met.note(&machine.words, &session, &call, &left);
        }
    }
    println!("{met:?}");
    met.answered(&[
        (OK, BASES / 50),
        (12, BASES / 6),
        (15, BASES / 10),
        (STOPPED, BASES / 50),
        (OPEN, BASES / 3),
    ]);
}

/// Each part of the words in turn, 12 BASES of them, one in twenty cut short. Of
/// the changes of header, class starts, states and targets most are unsound, of
/// the others few: half are refused by 11. One session in eight has a status that
/// is none. Of the other sessions, 5 BASES, a fourth has ended, and few are not
/// sound under the words, one in a hundred. Of the buffers of those that are left
/// a fourth is too short, a twelfth of the calls is a finish, a tenth of the feeds
/// stops. The guards are a third or less.
#[test]
fn damaged_words() {
    let mut random = Random::new(SEED + 5);
    let (mut met, mut unfit) = (Met::default(), 0);
    for machine in machines(SEED + 4).take(BASES) {
        let calls = random.between(0, 4);
        let session = Called::random(&mut random, &machine, calls, |_, _, _| ()).session;
        let input = machine.input(&mut random);
        let base = Base::new(machine.words);
        for part in Part::ALL.into_iter().flat_map(|part| [part; 2]) {
            let mut words = base.damaged_in(&mut random, part);
            let call = random_call(&mut random, &words, &session, &mut &input[..]);
            if random.one_in(20) {
                words.truncate(*random.pick(&[0, 6, WORDS - 1]));
            }
            let status = match random.below(8) {
                0 => 3,
                _ => session.status,
            };
            let session = Session { status, ..session };
            let left = compare(&words, session, &call);
            met.note(&words, &session, &call, &left);
            unfit += usize::from(left.code == 12 && status != 3);
        }
    }
    println!("{met:?}, {unfit} sessions that don't fit the words");
    met.answered(&[
        (OK, BASES / 20),
        (11, 2 * BASES),
        (12, BASES / 4),
        (13, BASES / 3),
        (15, BASES / 4),
        (STOPPED, BASES / 20),
        (OPEN, BASES / 2),
    ]);
    assert!(unfit >= BASES / 60, "{unfit}");
}

/// The input in random pieces.
fn pieces<'i>(random: &mut Random, mut input: &'i [u16]) -> Vec<&'i [u16]> {
    let mut pieces = Vec::new();
    while !input.is_empty() {
        pieces.push(next_piece(random, &mut input));
    }
    pieces
}

#[test]
fn one_piece_single_characters_and_random_pieces() {
    let mut random = Random::new(SEED + 7);
    let mut ended = BTreeMap::new();
    for machine in machines(SEED + 6).take(INPUTS) {
        let input = machine.input(&mut random);
        let whole = fed(&machine.words, [&input[..]].into_iter());
        assert_eq!(fed(&machine.words, input.chunks(1)), whole, "{input:?}");
        let pieces = pieces(&mut random, &input);
        assert_eq!(fed(&machine.words, pieces.into_iter()), whole, "{input:?}");

        // Direct conversion gives the same text, end and place.
        let (session, text) = whole;
        let mut output = vec![0; 8 * input.len()];
        let table = encode(&machine.automaton.table);
        let direct = face::converted(&table, &input, &mut output).expect("the table compiles");
        assert_eq!(text, output[..direct.count], "{input:?}");
        assert_eq!(session.received, direct.place as u64, "{input:?}");
        *ended.entry(session.status).or_insert(0) += 1;
    }
    println!("{ended:?}");
    // A third of the tables has no default and stops on most inputs.
    assert!(ended[&1] >= INPUTS / 3, "{ended:?}");
    assert!(ended[&2] >= INPUTS / 10, "{ended:?}");
}
