//! Request \[8\] by hand: rows of inputs with the session before the finish and what
//! comes of it, the borders of both sorts of units, and the sessions in which a first
//! unit waits.

use reference::automaton::TableAutomaton;
use reference::builder::{characters, TableBuilder};
use reference::compile::compiled;
use reference::direct;
use reference::machine::{Machine, Status, Step};
use reference::meaning::{choose, convert, Choice};
use reference::refusal::Refusal;
use reference::session::{feed, finish, preview, Answer, Session};
use reference::table::{Group, Mode, RuleNo, Table};
use reference::uses::{Uses, DEFAULT, PAIRS};
use reference::words::Words;

mod letters;
use letters::{A, B, HIGH, LAST_HIGH, LAST_LOW, LOW};

/// `!`.
const MARK: u16 = 33;

/// `ab` writes `!`; the marked default writes `!` for one unit, so that it shows which
/// units it took alone.
fn table() -> Vec<u8> {
    let table = TableBuilder::new().rule(2).spelled(0, "ab").text("!");
    table.marked_default().text("!").bytes()
}

/// What a list of pieces gives from a fresh session.
struct Fed {
    /// The session after the pieces.
    before: Session,
    /// The session after the finish.
    after: Session,
    /// The joined outputs.
    text: Vec<u16>,
}

/// Feeds pieces and finishes; each feed is previewed, and sees what it gives.
fn fed(table: &[u8], pieces: &[&[u16]]) -> Fed {
    let words = compiled(table).unwrap();
    let (mut session, mut text) = (Session::FRESH, Vec::new());
    let mut output = [0; 64];
    for piece in pieces {
        let seen = preview(&words, &session, piece).unwrap();
        let answer = feed(&words, &mut session, piece, &mut output).unwrap();
        assert_eq!(
            (seen.count, seen.status, seen.session),
            (answer.count, answer.status, session)
        );
        text.extend(&output[..answer.count]);
    }
    let before = session;
    let answer = finish(&words, &mut session, &mut output).unwrap();
    text.extend(&output[..answer.count]);
    Fed {
        before,
        after: session,
        text,
    }
}

/// A row: what an input gives, worked out from the paper.
struct Row {
    input: &'static [u16],
    /// The characters held before the finish, at state 0 all.
    held: &'static [u16],
    /// The steps before the finish.
    waiting: u64,
    text: &'static [u16],
    /// The steps with the finish.
    steps: u64,
    /// Uses of the default and of pairs.
    uses: (u64, u64),
}

/// Under [`table`], whose state 0 has a target for `a` alone. Every other character
/// costs a back first; a take and an emit follow where it is taken alone, two takes and
/// an emit where it begins a pair. The last step is the close.
const ROWS: [Row; 9] = [
    // Back, take, take, emit: 4. Close: 5.
    Row {
        input: &[HIGH, LOW],
        held: &[],
        waiting: 4,
        text: &[HIGH, LOW],
        steps: 5,
        uses: (0, 1),
    },
    // Back: 1, "counted before the wait". At the end take, emit, close: 4.
    Row {
        input: &[HIGH],
        held: &[HIGH],
        waiting: 1,
        text: &[MARK],
        steps: 4,
        uses: (1, 0),
    },
    // Take `a`; at the first unit back, and the default takes `a` and is emitted: 4.
    // Then the pair: 8. Close: 9.
    Row {
        input: &[A, HIGH, LOW],
        held: &[],
        waiting: 8,
        text: &[MARK, HIGH, LOW],
        steps: 9,
        uses: (1, 1),
    },
    // The first unit before another first unit is alone: back, take, emit: 3. Then the
    // pair: 7. Close: 8.
    Row {
        input: &[HIGH, HIGH, LOW],
        held: &[],
        waiting: 7,
        text: &[MARK, HIGH, LOW],
        steps: 8,
        uses: (1, 1),
    },
    // A second unit is alone, and waits for nothing: back, take, emit. Close: 4.
    Row {
        input: &[LOW],
        held: &[],
        waiting: 3,
        text: &[MARK],
        steps: 4,
        uses: (1, 0),
    },
    // The second unit first: each is alone. Back, take, emit, back: 4, and it waits.
    // Take, emit, close: 7.
    Row {
        input: &[LOW, HIGH],
        held: &[HIGH],
        waiting: 4,
        text: &[MARK, MARK],
        steps: 7,
        uses: (2, 0),
    },
    // The pair of the borders' other ends, then a first unit that waits: 4 and back: 5.
    // Take, emit, close: 8.
    Row {
        input: &[LAST_HIGH, LAST_LOW, LAST_HIGH],
        held: &[LAST_HIGH],
        waiting: 5,
        text: &[LAST_HIGH, LAST_LOW, MARK],
        steps: 8,
        uses: (1, 1),
    },
    // Beside the borders: four characters alone, of 3 steps each, and the close.
    Row {
        input: &[HIGH - 1, LOW, HIGH, LAST_LOW + 1],
        held: &[],
        waiting: 12,
        text: &[MARK, MARK, MARK, MARK],
        steps: 13,
        uses: (4, 0),
    },
    // A first unit before `ab`: alone, 3. Take, take, emit the rule: 6. Close: 7.
    Row {
        input: &[HIGH, A, B],
        held: &[],
        waiting: 6,
        text: &[MARK, MARK],
        steps: 7,
        uses: (1, 0),
    },
];

/// All ways to cut an input into pieces, those cuts also with an empty piece between.
fn cuts(input: &[u16]) -> Vec<Vec<&[u16]>> {
    let places = input.len() - 1;
    let mut cuts = Vec::new();
    for mask in 0..1usize << places {
        let (mut plain, mut spaced, mut rest) = (Vec::new(), vec![&[][..]], input);
        for place in (0..places).filter(|place| mask >> place & 1 == 1) {
            let end = place + 1 - (input.len() - rest.len());
            let (piece, after) = rest.split_at(end);
            plain.push(piece);
            spaced.extend([piece, &[], &[]]);
            rest = after;
        }
        plain.push(rest);
        spaced.extend([rest, &[]]);
        cuts.extend([plain, spaced]);
    }
    cuts
}

impl Row {
    /// The uses: what is left of the characters taken is the rule's, two each.
    fn uses(&self) -> Uses {
        let (default, pairs) = self.uses;
        let rule = (self.input.len() as u64 - default - 2 * pairs) / 2;
        Uses::of(&[(0, rule), (DEFAULT, default), (PAIRS, pairs)])
    }

    /// The session before the finish: what the finish takes of the held unit is not
    /// written or counted yet.
    fn before(&self) -> Session {
        let held = self.held.len() as u64;
        let mut uses = self.uses();
        uses.0[DEFAULT] -= held;
        let mut places = [0; 8];
        places[..self.held.len()].copy_from_slice(self.held);
        Session {
            held: places,
            count: self.held.len() as u16,
            received: self.input.len() as u64,
            produced: self.text.len() as u64 - held,
            steps: self.waiting,
            uses,
            ..Session::FRESH
        }
    }

    /// The session after the finish.
    fn after(&self) -> Session {
        Session {
            status: Status::Closed,
            received: self.input.len() as u64,
            produced: self.text.len() as u64,
            steps: self.steps,
            uses: self.uses(),
            ..Session::FRESH
        }
    }
}

/// Each row whole and cut at every place, between the units among them, and with empty
/// feeds between.
#[test]
fn rows_by_hand() {
    for row in &ROWS {
        for pieces in cuts(row.input) {
            let fed = fed(&table(), &pieces);
            assert_eq!(fed.before, row.before(), "{pieces:x?}");
            assert_eq!(fed.after, row.after(), "{pieces:x?}");
            assert_eq!(fed.text, row.text, "{pieces:x?}");
        }
        let read = Table::read(&table()).unwrap();
        assert_eq!(convert(&read, row.input).text, row.text);
        let automaton = TableAutomaton::of(read).unwrap();
        let mut machine = Machine::start(&automaton, row.input, false);
        machine.run();
        assert_eq!(machine.held(), row.held);
        assert_eq!(machine.steps(), row.waiting);
        assert_eq!(*machine.uses(), row.before().uses);
    }
}

/// `D800 DC00` cut between the units: the session as it waits, through empty feeds.
#[test]
fn a_first_unit_waits_through_empty_feeds() {
    let waiting = Session {
        held: [HIGH, 0, 0, 0, 0, 0, 0, 0],
        count: 1,
        received: 1,
        steps: 1,
        ..Session::FRESH
    };
    let words = compiled(&table()).unwrap();
    let (mut session, mut output) = (Session::FRESH, [0; 4]);
    for piece in [&[HIGH][..], &[], &[]] {
        let answer = feed(&words, &mut session, piece, &mut output);
        let open = Answer {
            count: 0,
            status: Status::Open,
        };
        assert_eq!((answer, session), (Ok(open), waiting));
    }
    let answer = feed(&words, &mut session, &[LOW], &mut output).unwrap();
    assert_eq!((answer.count, output[..2].to_vec()), (2, vec![HIGH, LOW]));
    // Two takes and an emit more.
    assert_eq!((session.count, session.steps), (0, 4));
    assert_eq!(session.uses, Uses::of(&[(PAIRS, 1)]));
}

/// The steps of a machine over an input that has ended or not.
fn steps(table: &[u8], input: &[u16], ended: bool) -> Vec<Step> {
    let automaton = TableAutomaton::of(Table::read(table).unwrap()).unwrap();
    let mut machine = Machine::start(&automaton, input, ended);
    std::iter::from_fn(|| machine.step()).collect()
}

#[test]
fn the_steps_of_a_pair_and_of_a_unit_alone() {
    use Step::{Close, Emit, Read, RollBack};
    let pair = [RollBack, Read, Read, Emit];
    assert_eq!(steps(&table(), &[HIGH, LOW], false), pair);
    assert_eq!(steps(&table(), &[HIGH], false), [RollBack]);
    let alone = [RollBack, Read, Emit, Close];
    assert_eq!(steps(&table(), &[HIGH], true), alone);
    assert_eq!(steps(&table(), &[LOW], true), alone);
}

/// A table with the rule and the marked default that writes `!`.
fn with_rule(rule: impl Fn(TableBuilder) -> TableBuilder) -> Vec<u8> {
    let table = rule(TableBuilder::new()).text("R");
    table.marked_default().text("!").bytes()
}

/// The text of a list of pieces, and the same whole.
fn text(table: &[u8], pieces: &[&[u16]]) -> Vec<u16> {
    let fed = fed(table, pieces);
    let read = Table::read(table).unwrap();
    assert_eq!(convert(&read, &pieces.concat()).text, fed.text);
    fed.text
}

/// "A rule that fits always goes first, also one that takes a first unit alone"; where
/// it takes the second alone, the pair is there first.
#[test]
fn a_rule_that_fits_goes_first() {
    let first = with_rule(|table| table.rule(1).range(0, HIGH, LAST_HIGH));
    assert_eq!(text(&first, &[&[HIGH, LOW]]), characters("R!"));
    assert_eq!(text(&first, &[&[HIGH], &[LOW]]), characters("R!"));
    let second = with_rule(|table| table.rule(1).range(0, LOW, LAST_LOW));
    assert_eq!(text(&second, &[&[HIGH, LOW]]), [HIGH, LOW]);
    assert_eq!(text(&second, &[&[HIGH], &[LOW]]), [HIGH, LOW]);
    let both = with_rule(|table| table.rule(2).range(0, HIGH, HIGH).range(1, LOW, LOW));
    assert_eq!(text(&both, &[&[HIGH, LOW]]), characters("R"));
    assert_eq!(text(&both, &[&[HIGH], &[LOW]]), characters("R"));
    assert_eq!(text(&both, &[&[HIGH], &[LOW + 1]]), [HIGH, LOW + 1]);
    let at_end = with_rule(|table| table.anchored(1).range(0, HIGH, HIGH));
    assert_eq!(text(&at_end, &[&[HIGH]]), characters("R"));
    assert_eq!(text(&at_end, &[&[HIGH], &[LOW]]), [HIGH, LOW]);
}

/// "Nothing readable" is the whole unread text: `a`, a first unit and `b` is a pattern
/// that ends in vain at the second unit. Given back are `a` and the first unit; the
/// second is in the piece. Take, take, back, take, emit of `a`; back, take, take, emit
/// of the pair.
#[test]
fn a_first_unit_given_back_with_its_second_in_the_piece_is_a_pair() {
    use Step::{Emit, Read, RollBack};
    let table = with_rule(|table| {
        let table = table.rule(3).spelled(0, "a").range(1, HIGH, HIGH);
        table.spelled(2, "b")
    });
    let pair = [Read, Read, RollBack, Read, Emit, RollBack, Read, Read, Emit];
    assert_eq!(steps(&table, &[A, HIGH, LOW], false), pair);
    let cut = fed(&table, &[&[A, HIGH], &[LOW]]);
    assert_eq!(cut.text, [MARK, HIGH, LOW]);
    assert_eq!(cut.before.steps, 9);
    // A first unit with a target: it is taken, given back, and then begins a pair.
    let begun = with_rule(|table| table.rule(2).range(0, HIGH, HIGH).spelled(1, "b"));
    let pair = [Read, RollBack, Read, Read, Emit];
    assert_eq!(steps(&begun, &[HIGH, LOW], false), pair);
    assert_eq!(text(&begun, &[&[HIGH], &[LOW]]), [HIGH, LOW]);
}

/// Without the mark every unit is taken alone, and nothing waits at state 0.
#[test]
fn without_the_mark_there_are_no_pairs() {
    let rule = || TableBuilder::new().rule(2).spelled(0, "ab").text("!");
    let single = rule().default_group().text("!").bytes();
    let fed = fed(&single, &[&[HIGH], &[LOW]]);
    assert_eq!(fed.text, [MARK, MARK]);
    assert_eq!(fed.before.count, 0);
    assert_eq!(fed.after.uses, Uses::of(&[(DEFAULT, 2)]));
    let absent = compiled(&rule().bytes()).unwrap();
    let mut session = Session::FRESH;
    let stopped = feed(&absent, &mut session, &[HIGH, LOW], &mut [0; 2]);
    assert_eq!(stopped.map(|answer| answer.status), Ok(Status::Stopped));
}

/// Every character as a first and as a second unit.
#[test]
fn the_pairs_of_definition_7_are_those_of_utf_16() {
    let marked = Table::read(&table()).unwrap();
    for unit in 0..=u16::MAX {
        let is_pair = |units: [u16; 2]| char::decode_utf16(units).all(|unit| unit.is_ok());
        let first = is_pair([unit, LOW]);
        let expected = if first { Choice::Pair } else { Choice::Default };
        assert_eq!(choose(&marked, &[unit, LOW]), Some(expected), "{unit:x}");
        let second = is_pair([HIGH, unit]);
        let expected = if second {
            Choice::Pair
        } else {
            Choice::Default
        };
        assert_eq!(choose(&marked, &[HIGH, unit]), Some(expected), "{unit:x}");
    }
    assert_eq!(choose(&marked, &[HIGH]), Some(Choice::Default));
    assert_eq!(choose(&marked, &[A, B]), Some(Choice::Rule(RuleNo(0))));
}

/// `a` writes nothing, and neither does the default, marked or not.
fn silent() -> [Vec<u8>; 2] {
    let rule = || TableBuilder::new().rule(1).spelled(0, "a");
    [rule().marked_default(), rule().default_group()].map(|table| table.bytes())
}

/// "E is then at least 1", in the table and in header word 3; word 5 tells the mode.
#[test]
fn e_is_at_least_1_under_the_mark() {
    let expected = [(Mode::Paired, 1, 2), (Mode::Single, 0, 1)];
    for (bytes, (mode, most, word)) in silent().iter().zip(expected) {
        let table = Table::read(bytes).unwrap();
        assert_eq!(table.mode(), mode);
        assert_eq!(table.default, Some(Group::default_group()));
        assert_eq!(table.most_outputs(), most);
        let words = compiled(bytes).unwrap();
        assert_eq!((words[3], words[5]), (most as u16, word));
    }
}

/// So 15 asks for a place a unit, though no group writes anything but a pair.
#[test]
fn refusal_15_asks_for_both_units() {
    let [marked, single] = silent();
    let mut output = [0; 2];
    let mut convert = |table: &[u8], room: usize| {
        let converted = direct::convert(table, &[HIGH, LOW], &mut output[..room]);
        converted.map(|conversion| (conversion.place, conversion.count))
    };
    assert_eq!(convert(&marked, 1), Err(Refusal::ShortOutput));
    assert_eq!(convert(&single, 0), Ok((2, 0)));
    assert_eq!(convert(&marked, 2), Ok((2, 2)));
    assert_eq!(output, [HIGH, LOW]);

    let words = compiled(&marked).unwrap();
    let mut session = Session::FRESH;
    let count = |answer: Result<Answer, Refusal>| answer.map(|answer| answer.count);
    let none = feed(&words, &mut session, &[HIGH], &mut []);
    assert_eq!(count(none), Err(Refusal::ShortOutput));
    assert_eq!(count(feed(&words, &mut session, &[HIGH], &mut [0])), Ok(0));
    let one = feed(&words, &mut session, &[LOW], &mut [0]);
    assert_eq!(count(one), Err(Refusal::ShortOutput));
    // A finish asks for the held unit.
    let none = finish(&words, &mut session, &mut []);
    assert_eq!(count(none), Err(Refusal::ShortOutput));
    assert_eq!(count(finish(&words, &mut session, &mut [0])), Ok(0));
}

/// An open session that holds characters at state 0, with nothing before them.
fn waiting(held: &[u16]) -> Session {
    let mut places = [0; 8];
    places[..held.len()].copy_from_slice(held);
    Session {
        held: places,
        count: held.len() as u16,
        received: held.len() as u64,
        ..Session::FRESH
    }
}

/// Whether a session is sound under a table's words.
fn is_sound(table: &[u8], session: Session) -> bool {
    let words = compiled(table).unwrap();
    let words = Words::sound(&words).unwrap();
    session.sound_held(&words).is_ok()
}

/// "A sound session allows it where the mark is set, the unit is a first unit and state
/// 0 has no target for it."
#[test]
fn sound_sessions_with_a_waiting_unit() {
    let marked = table();
    for unit in [HIGH, HIGH + 1, LAST_HIGH] {
        assert!(is_sound(&marked, waiting(&[unit])));
    }
    for other in [0, A, B, HIGH - 1, LOW, LAST_LOW, LAST_LOW + 1, u16::MAX] {
        assert!(!is_sound(&marked, waiting(&[other])), "{other:x}");
    }
    assert!(!is_sound(&marked, waiting(&[HIGH, LOW])));
    assert!(!is_sound(&marked, waiting(&[HIGH, HIGH])));
    // With a target for it, which is state 1, it is held there and nowhere else.
    let target = with_rule(|table| table.rule(2).range(0, HIGH, HIGH).spelled(1, "b"));
    assert!(!is_sound(&target, waiting(&[HIGH])));
    assert!(is_sound(&target, waiting(&[HIGH + 1])));
    let at_target = Session {
        state: 1,
        ..waiting(&[HIGH])
    };
    assert!(is_sound(&target, at_target));
    assert!(!is_sound(&marked, at_target));
    // Without the mark.
    let rule = TableBuilder::new().rule(2).spelled(0, "ab").text("!");
    assert!(!is_sound(&rule.bytes(), waiting(&[HIGH])));
    let single = rule.default_group().text("!");
    assert!(!is_sound(&single.bytes(), waiting(&[HIGH])));
}

/// Steps are "at most (L + 3) times consumed plus held": one for the unit, its back. No
/// unit waits in a session that has ended.
#[test]
fn sound_sessions_with_a_waiting_unit_are_open_and_count_its_back() {
    for (steps, sound) in [(0, true), (1, true), (2, false)] {
        let session = Session {
            steps,
            ..waiting(&[HIGH])
        };
        assert_eq!(is_sound(&table(), session), sound, "{steps}");
    }
    for status in [Status::Closed, Status::Stopped] {
        let ended = Session {
            status,
            ..waiting(&[HIGH])
        };
        assert!(!is_sound(&table(), ended));
    }
}
