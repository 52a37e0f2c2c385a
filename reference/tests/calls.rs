//! Demand 3 with the counts of uses: lists of feeds and finishes of compiled
//! machines, from a fresh session, against the reckoning and against Definition 7.

use std::collections::BTreeMap;

use reference::automaton::{Automaton, TableAutomaton};
use reference::builder::{characters, encode, TableBuilder};
use reference::compile::compiled;
use reference::machine::{Machine, Status, Step};
use reference::meaning::{choose, convert, Choice, Ending};
use reference::random::Random;
use reference::reckoning::{reckon, Call, Reckoning};
use reference::refusal::Refusal;
use reference::samples::{random_input, random_marked_table, random_table, t1, t2};
use reference::session::{feed, finish, Answer, Session};
use reference::table::Table;
use reference::uses::{Uses, DEFAULT, PAIRS};
use reference::words::Words;

/// A table with its automaton and its machine words.
struct Subject {
    automaton: TableAutomaton,
    words: Vec<u16>,
}

impl Subject {
    /// The subject of a table, if it compiles.
    fn of(table: Table) -> Option<Subject> {
        let words = compiled(&encode(&table));
        let automaton = TableAutomaton::of(table);
        assert_eq!(words.as_ref().err(), automaton.as_ref().err());
        Some(Subject {
            automaton: automaton.ok()?,
            words: words.ok()?,
        })
    }

    /// The table itself.
    fn table(&self) -> &Table {
        &self.automaton.table
    }
}

/// What a list of calls gave.
struct Played {
    calls: Vec<Call>,
    answers: Vec<Result<Answer, Refusal>>,
    output: Vec<u16>,
    session: Session,
}

impl Played {
    /// Nothing called yet.
    fn new() -> Played {
        Played {
            calls: Vec::new(),
            answers: Vec::new(),
            output: Vec::new(),
            session: Session::FRESH,
        }
    }

    /// Makes a call with a buffer of a filling, and checks that a refusal
    /// changes nothing, and that an accepted call keeps the session sound and
    /// leaves the rest of the buffer.
    fn call(&mut self, subject: &Subject, call: Call, filling: u16) {
        let before = self.session;
        let session = &mut self.session;
        let (answer, buffer) = match &call {
            Call::Feed { piece, output } => {
                let mut buffer = vec![filling; *output as usize];
                let answer = feed(&subject.words, session, piece, &mut buffer);
                (answer, buffer)
            }
            Call::Finish { output } => {
                let mut buffer = vec![filling; *output as usize];
                (finish(&subject.words, session, &mut buffer), buffer)
            }
        };
        let count = answer.map_or(0, |answer| answer.count);
        assert!(buffer[count..].iter().all(|&place| place == filling));
        match answer {
            Ok(answer) => assert_eq!(answer.status, self.session.status),
            Err(_) => assert_eq!(self.session, before),
        }
        let words = Words::sound(&subject.words).unwrap();
        assert!(self.session.sound_held(&words).is_ok());
        self.output.extend(&buffer[..count]);
        self.answers.push(answer);
        self.calls.push(call);
    }
}

/// The length of the output that a call asks for, or one that is too short, or
/// longer.
fn random_output_length(random: &mut Random, needed: usize) -> u64 {
    let length = match random.below(5) {
        0 if needed > 0 => random.below(needed),
        1 => needed.saturating_sub(1),
        2 => needed + random.below(20),
        _ => needed,
    };
    length as u64
}

/// A random call of a machine that holds so many characters.
fn random_call(random: &mut Random, table: &Table, held: usize, finishing: bool) -> Call {
    let most_outputs = table.most_outputs();
    if finishing {
        let output = random_output_length(random, most_outputs * held);
        return Call::Finish { output };
    }
    let longest = *random.pick(&[0, 1, 2, 4, 12, 24]);
    let length = random.below(longest + 1);
    let piece = random_input(random, table, length);
    let output = random_output_length(random, most_outputs * (held + length));
    Call::Feed { piece, output }
}

/// Plays a random list of calls: feeds, now and then a finish among them, and
/// often one as the last.
fn play(random: &mut Random, subject: &Subject) -> Played {
    let mut played = Played::new();
    let count = random.below(12);
    for number in 0..count {
        let held = usize::from(played.session.count);
        let finishing = random.one_in(20) || number + 1 == count && random.one_in(2);
        let call = random_call(random, subject.table(), held, finishing);
        let filling = random.character();
        played.call(subject, call, filling);
    }
    played
}

/// How often something was seen, by name.
#[derive(Default)]
struct Tally(BTreeMap<&'static str, usize>);

impl Tally {
    /// Counts one more if it was seen.
    fn count(&mut self, name: &'static str, seen: bool) {
        *self.0.entry(name).or_default() += usize::from(seen);
    }

    /// Asserts that each was seen more often than the number beside it.
    fn assert_above(&self, least: &[(&'static str, usize)]) {
        for (name, least) in least {
            assert!(self.0[name] > *least, "{name}: {:?}", self.0);
        }
    }
}

/// Each sentence of demand 3 about a list of calls.
fn assert_demand_3(random: &mut Random, subject: &Subject, played: &Played, tally: &mut Tally) {
    let reckoned = reckon(&subject.automaton, &played.calls);
    assert_eq!(played.answers, reckoned.answers);
    assert_eq!(played.output, reckoned.output);
    assert_eq!(played.session, reckoned.session);

    assert_consumed(subject, played, &reckoned);
    assert_uses(subject.table(), &played.session);

    let n = reckoned.input.len() as u64;
    let longest = subject.table().longest() as u64;
    assert!(played.session.steps <= (longest + 3) * n + 1);

    if played.session.status != Status::Open {
        assert_definition_7(subject, played, &reckoned);
    }
    let feed_stopped = played.session.status == Status::Stopped && !reckoned.ended;
    if feed_stopped {
        assert_the_stop_is_final(random, subject, played, &reckoned);
    }
    tally_list(tally, subject, played, &reckoned);
}

/// "Consumed is received less held", and it counts "the characters that emits
/// removed" from the plain machine's store. The held characters are those of the
/// input that follow.
fn assert_consumed(subject: &Subject, played: &Played, reckoned: &Reckoning) {
    let mut machine = Machine::start(&subject.automaton, &reckoned.input, reckoned.ended);
    machine.run();
    let (session, consumed) = (&played.session, machine.consumed());
    assert_eq!(session.received - u64::from(session.count), consumed);
    let following = &reckoned.input[consumed as usize..session.received as usize];
    assert_eq!(session.held[..following.len()], *following);
}

/// The places of the counts of a table's choices, with the characters that each takes.
fn lengths(table: &Table) -> impl Iterator<Item = (usize, usize)> + '_ {
    let rules = table.rules.iter().map(|rule| rule.length()).enumerate();
    let default = table.default.iter().map(|_| (DEFAULT, 1));
    let pairs = table.marked.then_some((PAIRS, 2));
    rules.chain(default).chain(pairs)
}

/// "The sum over rules of count times K, plus the default's count, is the
/// consumed total", to which a pair adds 2, and nothing else was used.
fn assert_uses(table: &Table, session: &Session) {
    let mut others = session.uses;
    let mut consumed = 0;
    for (place, length) in lengths(table) {
        consumed += others.0[place] * length as u64;
        others.0[place] = 0;
    }
    assert_eq!(consumed, session.received - u64::from(session.count));
    assert_eq!(others, Uses::NONE);
}

/// How often Definition 7 makes each choice, up to a place of an input.
fn chosen(table: &Table, input: &[u16], end: usize) -> Uses {
    let (mut uses, mut place) = (Uses::NONE, 0);
    while place < end {
        let (number, taken) = match choose(table, &input[place..]) {
            Some(Choice::Rule(rule)) => (rule.index(), table.rules[rule.index()].length()),
            Some(Choice::Default) => (DEFAULT, 1),
            Some(Choice::Pair) => (PAIRS, 2),
            None => panic!("no choice before the end"),
        };
        uses.0[number] += 1;
        place += taken;
    }
    uses
}

/// "The joined outputs are the text of demand 2's definition for the input. The
/// session is then closed exactly when that definition reaches the input's end,
/// and otherwise stopped at its place."
fn assert_definition_7(subject: &Subject, played: &Played, reckoned: &Reckoning) {
    let meaning = convert(subject.table(), &reckoned.input);
    assert_eq!(played.output, meaning.text);
    let status = match meaning.ending {
        Ending::Closed => Status::Closed,
        Ending::Stopped => Status::Stopped,
    };
    assert_eq!(played.session.status, status);
    assert_eq!(played.session.received, meaning.place as u64);
    assert_eq!(played.session.produced, meaning.text.len() as u64);
    let uses = chosen(subject.table(), &reckoned.input, meaning.place);
    assert_eq!(played.session.uses, uses);
}

/// "Where a feed stopped it, the definition's text and place and the plain
/// machine's steps are the same for every input that begins with this one."
fn assert_the_stop_is_final(
    random: &mut Random,
    subject: &Subject,
    played: &Played,
    reckoned: &Reckoning,
) {
    for more in [0, 1, 2, 5, 20] {
        let mut input = reckoned.input.clone();
        input.extend(random_input(random, subject.table(), more));
        let meaning = convert(subject.table(), &input);
        assert_eq!(meaning.text, played.output);
        assert_eq!(meaning.ending, Ending::Stopped);
        assert_eq!(meaning.place as u64, played.session.received);
        for ended in [false, true] {
            let mut machine = Machine::start(&subject.automaton, &input, ended);
            machine.run();
            assert_eq!(machine.status(), Status::Stopped);
            assert_eq!(machine.output(), played.output);
            assert_eq!(machine.consumed(), played.session.received);
            assert_eq!(machine.steps(), played.session.steps);
        }
    }
}

/// Counts what a list has shown.
fn tally_list(tally: &mut Tally, subject: &Subject, played: &Played, reckoned: &Reckoning) {
    let session = &played.session;
    let stopped = session.status == Status::Stopped;
    tally.count("lists", true);
    tally.count("open and holding", session.count > 0);
    tally.count("closed", session.status == Status::Closed);
    tally.count(
        "closed after text",
        session.status == Status::Closed && session.produced > 3,
    );
    tally.count("stopped by a feed", stopped && !reckoned.ended);
    tally.count("stopped by a finish", stopped && reckoned.ended);
    tally.count("stopped after text", stopped && session.produced > 0);
    let used = |uses: &[u64]| uses.iter().filter(|&&uses| uses > 0).count();
    let (rules, default) = (
        &session.uses.0[..DEFAULT],
        &session.uses.0[DEFAULT..=DEFAULT],
    );
    tally.count("several rules used", used(rules) > 1);
    tally.count("default and rule used", used(rules) * used(default) > 0);
    let pairs = session.uses.0[PAIRS] > 0;
    tally.count("pairs and rule used", pairs && used(rules) > 0);
    tally.count("pairs and default used", pairs && used(default) > 0);
    tally.count(
        "a first unit waits",
        session.count > 0 && session.state == 0,
    );
    for answer in &played.answers {
        tally.count("accepted", answer.is_ok());
        tally.count("accepted and written", answer.is_ok_and(|a| a.count > 0));
        tally.count("refused by 13", *answer == Err(Refusal::Ended));
        tally.count("refused by 15", *answer == Err(Refusal::ShortOutput));
    }
    let mut machine = Machine::start(&subject.automaton, &reckoned.input, reckoned.ended);
    loop {
        let state = machine.state();
        let Some(step) = machine.step() else { break };
        let accept = subject.automaton.accept(state);
        let at_end = subject.automaton.accept_at_end(state);
        let depth = subject.automaton.states.get(state).depth;
        tally.count("steps", true);
        tally.count("roll-backs", step == Step::RollBack);
        tally.count("deep roll-backs", step == Step::RollBack && depth > 1);
        tally.count("emits", step == Step::Emit);
        let go_differs = step == Step::Emit && accept.is_some() && accept != at_end;
        tally.count("emits of a go that is not the end", go_differs);
        let anchored = step == Step::Emit && accept.is_none() && at_end.is_some();
        tally.count("emits at the end only", anchored);
    }
}

/// Plays random lists of calls of so many tables and asserts demand 3 of each.
fn play_lists(seed: u64, tables: usize, table: impl Fn(&mut Random) -> Table) -> Tally {
    let mut random = Random::new(seed);
    let mut tally = Tally::default();
    let mut played_tables = 0;
    while played_tables < tables {
        let Some(subject) = Subject::of(table(&mut random)) else {
            continue;
        };
        played_tables += 1;
        for _ in 0..6 {
            let played = play(&mut random, &subject);
            assert_demand_3(&mut random, &subject, &played, &mut tally);
        }
    }
    tally
}

/// Of the lists of marked tables, half have a table whose rules leave pairs to the
/// default, and a third of them such an input; the guards are far below.
#[test]
fn random_lists_of_calls_under_marked_defaults_give_what_is_reckoned() {
    play_lists(2028, 2000, random_marked_table).assert_above(&[
        ("lists", 11_000),
        ("open and holding", 2000),
        ("a first unit waits", 300),
        ("closed", 2000),
        ("pairs and rule used", 2000),
        ("pairs and default used", 2000),
        ("refused by 15", 4000),
        ("deep roll-backs", 2000),
    ]);
}

#[test]
fn random_lists_of_calls_give_what_is_reckoned() {
    play_lists(2026, 6000, random_table).assert_above(&[
        ("lists", 30_000),
        ("open and holding", 5000),
        ("closed", 5000),
        ("closed after text", 2000),
        ("stopped by a feed", 3000),
        ("stopped by a finish", 300),
        ("stopped after text", 1500),
        ("several rules used", 3000),
        ("default and rule used", 3000),
        ("accepted", 100_000),
        ("accepted and written", 30_000),
        ("refused by 13", 20_000),
        ("refused by 15", 20_000),
        ("steps", 400_000),
        ("roll-backs", 40_000),
        ("deep roll-backs", 10_000),
        ("emits", 100_000),
        ("emits of a go that is not the end", 3000),
        ("emits at the end only", 300),
    ]);
}

/// All ways to cut an input into pieces, as lists of pieces.
fn cuts(input: &[u16]) -> Vec<Vec<Vec<u16>>> {
    let places = input.len().saturating_sub(1);
    (0..1usize << places)
        .map(|mask| {
            let mut pieces = vec![Vec::new()];
            for (place, &character) in input.iter().enumerate() {
                if place > 0 && mask >> (place - 1) & 1 == 1 {
                    pieces.push(Vec::new());
                }
                pieces.last_mut().expect("a piece").push(character);
            }
            pieces
        })
        .collect()
}

#[test]
fn every_cut_of_short_inputs_gives_what_is_reckoned() {
    let mut random = Random::new(2027);
    let mut tally = Tally::default();
    for number in 0..300 {
        let table = match number % 2 {
            0 => random_table(&mut random),
            _ => random_marked_table(&mut random),
        };
        let Some(subject) = Subject::of(table) else {
            continue;
        };
        let most_outputs = subject.table().most_outputs() as u64;
        let input = random_input(&mut random, subject.table(), 7);
        for pieces in cuts(&input) {
            let mut played = Played::new();
            for piece in pieces {
                let output = most_outputs * (piece.len() as u64 + 8);
                played.call(&subject, Call::Feed { piece, output }, 7);
            }
            let output = most_outputs * 8;
            played.call(&subject, Call::Finish { output }, 7);
            assert_demand_3(&mut random, &subject, &played, &mut tally);
            assert_ne!(played.session.status, Status::Open);
        }
    }
    tally.assert_above(&[
        ("closed", 3000),
        ("stopped by a feed", 300),
        ("pairs and rule used", 300),
        ("pairs and default used", 300),
    ]);
}

/// A feed of a text with an output length.
fn feed_of(text: &str, output: u64) -> Call {
    Call::Feed {
        piece: characters(text),
        output,
    }
}

#[test]
fn a_reckoning_by_hand_under_t1() {
    let subject = Subject::of(Table::read(&t1()).unwrap()).unwrap();
    let calls = [
        // E is 5: two characters need ten places.
        feed_of("&#", 9),
        feed_of("&#", 10),
        // Two held and three fed need 25.
        feed_of("38;", 24),
        feed_of("38;", 25),
        feed_of("", 0),
        feed_of("&#", 10),
        Call::Finish { output: 9 },
        Call::Finish { output: 10 },
        feed_of("", 0),
        Call::Finish { output: 0 },
    ];
    let open = |count| {
        Ok(Answer {
            count,
            status: Status::Open,
        })
    };
    let closed = Ok(Answer {
        count: 2,
        status: Status::Closed,
    });
    let answers = [
        Err(Refusal::ShortOutput),
        open(0),
        Err(Refusal::ShortOutput),
        open(1),
        open(0),
        open(0),
        Err(Refusal::ShortOutput),
        closed,
        Err(Refusal::Ended),
        Err(Refusal::Ended),
    ];
    // Five takes and an emit of rule 1; two takes, an emit of rule 2 and a close.
    let session = Session {
        status: Status::Closed,
        received: 7,
        produced: 3,
        steps: 10,
        uses: Uses::of(&[(1, 1), (2, 1)]),
        ..Session::FRESH
    };
    let mut played = Played::new();
    for call in calls.clone() {
        played.call(&subject, call, 7);
    }
    assert_eq!(played.answers, answers);
    assert_eq!(played.output, characters("&&#"));
    assert_eq!(played.session, session);
    let reckoned = reckon(&subject.automaton, &calls);
    assert_eq!(reckoned.answers, answers);
    assert_eq!(reckoned.input, characters("&#38;&#"));
    assert_eq!(reckoned.output, characters("&&#"));
    assert_eq!(reckoned.session, session);
}

#[test]
fn a_reckoning_by_hand_of_a_stop_under_t2() {
    let subject = Subject::of(Table::read(&t2()).unwrap()).unwrap();
    let calls = [feed_of("a", 1), feed_of("aabaa", 6), feed_of("a", 9)];
    let reckoned = reckon(&subject.automaton, &calls);
    let answer = |count, status| Ok(Answer { count, status });
    let answers = [
        answer(0, Status::Open),
        answer(3, Status::Stopped),
        Err(Refusal::Ended),
    ];
    assert_eq!(reckoned.answers, answers);
    assert_eq!(reckoned.output, characters("YYY"));
    // Take and emit rule 1 three times, back and stop.
    let session = Session {
        status: Status::Stopped,
        received: 3,
        produced: 3,
        steps: 8,
        uses: Uses::of(&[(1, 3)]),
        ..Session::FRESH
    };
    assert_eq!(reckoned.session, session);
    assert_eq!(reckoned.input, characters("aaabaa"));
}

#[test]
fn a_place_may_cost_as_many_steps_as_the_bound_has_for_it() {
    // Anchored `aaaa` with a copying default. Where four `a` are followed by
    // more, it takes four, goes back, takes and emits one: L + 3 = 7 steps for
    // one character. So it is at 47 places of 50 `a` and a `b`; then three, two
    // and one `a` are taken in vain, none at the `b`, and a close ends it.
    let table = TableBuilder::new().anchored(4).spelled(0, "aaaa");
    let table = Table::read(&table.copying_default().bytes()).unwrap();
    let subject = Subject::of(table).unwrap();
    let input = characters(&("a".repeat(50) + "b"));
    let mut machine = Machine::start(&subject.automaton, &input, true);
    machine.run();
    assert_eq!(machine.output(), input);
    assert_eq!(machine.steps(), 47 * 7 + 6 + 5 + 4 + 3 + 1);
    assert!(machine.steps() <= 7 * 51 + 1);
}
