//! Every example of document 01, with its answers copied from the document, and
//! tables with digits, with answers worked out by hand, as all counts of uses are.

use reference::automaton::TableAutomaton;
use reference::builder::{characters, TableBuilder};
use reference::compile::{compile, compiled};
use reference::direct::{self, Conversion};
use reference::machine::{Machine, Status};
use reference::meaning::{self, Ending};
use reference::refusal::Refusal;
use reference::samples::{
    digits_and_sums, four_digits, t1, t1_with, t2, t3, t3_with_default, two_digits,
};
use reference::session::{feed, finish, Session};
use reference::table::{Table, RECORD_BYTES};
use reference::uses::{Uses, DEFAULT};
use reference::words::WORDS;

/// A row of the examples that convert.
struct Row {
    table: Vec<u8>,
    input: &'static str,
    text: &'static str,
    ending: Ending,
    place: usize,
    steps: u64,
    uses: Uses,
}

impl Row {
    /// A row whose conversion reaches the input's end, of which no group was used
    /// yet.
    fn closed(table: Vec<u8>, input: &'static str, text: &'static str, steps: u64) -> Row {
        Row {
            table,
            input,
            text,
            ending: Ending::Closed,
            place: characters(input).len(),
            steps,
            uses: Uses::NONE,
        }
    }

    /// The row, stopped at a place.
    fn stopped(self, place: usize) -> Row {
        Row {
            ending: Ending::Stopped,
            place,
            ..self
        }
    }

    /// The row with so many uses of each group.
    fn using(self, used: &[(usize, u64)]) -> Row {
        let uses = Uses::of(used);
        Row { uses, ..self }
    }
}

/// The eight P lines that convert an input, and tables with digits.
fn rows() -> Vec<Row> {
    let mut rows = lines_marked_p();
    rows.extend(rows_of_digits());
    rows
}

/// Tables with digits. An encoder takes and emits each character and closes; the
/// two-digit one goes back at a character above 255 and stops.
fn rows_of_digits() -> Vec<Row> {
    vec![
        Row::closed(two_digits(), "", "", 1),
        Row::closed(two_digits(), "\0IJO \x7f", "00494A4F207F", 13).using(&[(0, 6)]),
        Row::closed(two_digits(), "\u{99}\u{9a}\u{a9}\u{ff}", "999AA9FF", 9).using(&[(0, 4)]),
        Row::closed(two_digits(), "A\u{100}B", "41", 4)
            .stopped(1)
            .using(&[(0, 1)]),
        Row::closed(four_digits(), "\u{9a}\u{a9bc}\u{ffff}", "009AA9BCFFFF", 7).using(&[(0, 3)]),
        // `aZb` is taken, emitted; the last `a` is the anchored rule's.
        Row::closed(digits_and_sums(), "aZba", "%5A1", 7).using(&[(0, 1), (1, 1)]),
        // The second `a` may be any character; both are given back, and the
        // default has the first: 65535 less 97 is 65438, 0xff9e.
        Row::closed(digits_and_sums(), "aa", "0\u{ff9e}1", 8).using(&[(1, 1), (DEFAULT, 1)]),
        // 0xa123, of which 0x5edc is the rest.
        Row::closed(digits_and_sums(), "\u{a123}", "A\u{5edc}", 4).using(&[(DEFAULT, 1)]),
    ]
}

/// The eight P lines that convert an input.
fn lines_marked_p() -> Vec<Row> {
    vec![
        // The default has the first `&`, and each rule one of the others.
        Row::closed(t1(), "&&#00;&#38;&#", "&&#00;&&#", 20).using(&[
            (0, 1),
            (1, 1),
            (2, 1),
            (DEFAULT, 1),
        ]),
        Row::closed(t1(), "", "", 1),
        Row::closed(t1(), "&#", "&#", 4).using(&[(2, 1)]),
        Row::closed(t1(), "&#4", "&#4", 13).using(&[(DEFAULT, 3)]),
        Row::closed(t2(), "a", "X", 3).using(&[(0, 1)]),
        Row::closed(t2(), "aa", "YX", 5).using(&[(0, 1), (1, 1)]),
        Row::closed(t2(), "ab", "Y", 4).stopped(1).using(&[(1, 1)]),
        Row::closed(t3(), "aba", "1a", 8).using(&[(0, 1), (DEFAULT, 1)]),
    ]
}

/// The status that a session has after an ending.
fn status(ending: Ending) -> Status {
    match ending {
        Ending::Closed => Status::Closed,
        Ending::Stopped => Status::Stopped,
    }
}

/// Feeds the pieces and finishes; answers the joined outputs and the session.
/// Nothing more is called once a feed has stopped the session.
fn fed(words: &[u16], pieces: &[&[u16]]) -> (Vec<u16>, Session) {
    let mut session = Session::FRESH;
    let mut buffer = [0; 256];
    let mut text = Vec::new();
    for piece in pieces {
        let answer = feed(words, &mut session, piece, &mut buffer).expect("an open session");
        text.extend(&buffer[..answer.count]);
        if answer.status == Status::Stopped {
            return (text, session);
        }
    }
    let answer = finish(words, &mut session, &mut buffer).expect("an open session");
    text.extend(&buffer[..answer.count]);
    (text, session)
}

#[test]
fn definition_7_gives_the_text_and_place_of_each_row() {
    for row in rows() {
        let table = Table::read(&row.table).unwrap();
        let meaning = meaning::convert(&table, &characters(row.input));
        assert_eq!(meaning.text, characters(row.text), "{}", row.input);
        assert_eq!(
            (meaning.ending, meaning.place),
            (row.ending, row.place),
            "{}",
            row.input
        );
    }
}

#[test]
fn direct_conversion_answers_each_row_and_leaves_the_rest_of_the_buffer() {
    for row in rows() {
        let mut output = [7; 80];
        let answer = direct::convert(&row.table, &characters(row.input), &mut output);
        let text = characters(row.text);
        let expected = Conversion {
            ending: row.ending,
            place: row.place,
            count: text.len(),
        };
        assert_eq!(answer, Ok(expected), "{}", row.input);
        assert_eq!(output[..text.len()], text);
        assert!(output[text.len()..].iter().all(|&place| place == 7));
    }
}

#[test]
fn the_plain_machine_counts_the_steps_and_uses_of_each_row() {
    for row in rows() {
        let automaton = TableAutomaton::of(Table::read(&row.table).unwrap()).unwrap();
        let input = characters(row.input);
        let mut machine = Machine::start(&automaton, &input, true);
        machine.run();
        assert_eq!(machine.output(), characters(row.text), "{}", row.input);
        assert_eq!(machine.status(), status(row.ending), "{}", row.input);
        assert_eq!(machine.consumed(), row.place as u64, "{}", row.input);
        assert_eq!(machine.steps(), row.steps, "{}", row.input);
        assert_eq!(*machine.uses(), row.uses, "{}", row.input);
    }
}

#[test]
fn the_compiled_machine_gives_each_row_however_the_input_is_cut_in_three() {
    for row in rows() {
        let words = compiled(&row.table).unwrap();
        let input = characters(row.input);
        for second in 0..=input.len() {
            for first in 0..=second {
                let pieces = [&input[..first], &input[first..second], &input[second..]];
                let (text, session) = fed(&words, &pieces);
                assert_eq!(text, characters(row.text), "{}", row.input);
                let expected = Session {
                    status: status(row.ending),
                    received: row.place as u64,
                    produced: characters(row.text).len() as u64,
                    steps: row.steps,
                    uses: row.uses,
                    ..Session::FRESH
                };
                assert_eq!(session, expected, "{} {first} {second}", row.input);
            }
        }
    }
}

#[test]
fn t1_with_529_is_refused_by_7() {
    assert_eq!(compiled(&t1_with(-529)), Err(Refusal::Value));
    assert_eq!(
        direct::convert(&t1_with(-529), &[], &mut []),
        Err(Refusal::Value)
    );
}

#[test]
fn t3_with_the_default_65535_less_x0_is_accepted() {
    let table = t3_with_default(65535, -1);
    let (text, _) = fed(&compiled(&table).unwrap(), &[&[0, 65535, 97]]);
    assert_eq!(text, [65535, 0, 65535 - 97]);
}

#[test]
fn t3_with_the_default_x0_and_one_is_refused_by_7() {
    assert_eq!(compiled(&t3_with_default(1, 1)), Err(Refusal::Value));
    assert_eq!(
        direct::convert(&t3_with_default(1, 1), &[], &mut []),
        Err(Refusal::Value)
    );
}

#[test]
fn t1_has_28_records_10_classes_and_9_states() {
    let table = t1();
    assert_eq!(table.len(), 28 * RECORD_BYTES);
    let automaton = TableAutomaton::of(Table::read(&table).unwrap()).unwrap();
    assert_eq!(automaton.classes.starts().len(), 10);
    assert_eq!(automaton.states.list().len(), 9);
    let words = compiled(&table).unwrap();
    assert_eq!((words[0], words[1]), (9, 10));
}

/// One rule of eight positions with four single characters each, 32 in all. A
/// character that neither is 0 nor follows another nor is followed by one has
/// two class starts, itself and the next. The characters are `first` and 3, 5,
/// 7, … 63: with `first` = 1 the starts are 0 and twice 32, in all 65. With
/// `first` = 0 one of them falls on the start at 0: 64.
fn table_of_classes(first: u16) -> Vec<u8> {
    let odd = |number: usize| 2 * number as u16 + 1;
    let character = |number: usize| if number == 0 { first } else { odd(number) };
    (0..32)
        .fold(TableBuilder::new().rule(8), |table, number| {
            let character = character(number);
            table.range(number / 4, character, character)
        })
        .bytes()
}

#[test]
fn exactly_64_classes_are_accepted_and_one_more_is_refused_by_8() {
    let words = compiled(&table_of_classes(0)).unwrap();
    assert_eq!(words[1], 64);
    assert_eq!(compiled(&table_of_classes(1)), Err(Refusal::Classes));
}

/// 32 rules whose first characters differ, so that after one character each
/// rule stands alone in its state: a rule of length K gives K states that no
/// other rule shares. 31 rules of length 8 give 248, state 0 one more, and the
/// last rule as many as it is long: 7 for 256 states in all, 8 for 257. The
/// other positions take every character, so the classes are the 32 characters
/// and all those above.
fn table_of_states(last_length: usize) -> Vec<u8> {
    let lengths = (0..32).map(|rule| if rule < 31 { 8 } else { last_length });
    let rule = |table: TableBuilder, (first, length): (u16, usize)| {
        let table = table.rule(length).range(0, first, first);
        (1..length).fold(table, |table, position| table.range(position, 0, 65535))
    };
    (0..).zip(lengths).fold(TableBuilder::new(), rule).bytes()
}

#[test]
fn exactly_256_states_are_accepted_and_one_more_is_refused_by_9() {
    let words = compiled(&table_of_states(7)).unwrap();
    assert_eq!((words[0], words[1]), (256, 33));
    assert_eq!(compiled(&table_of_states(8)), Err(Refusal::States));
}

#[test]
fn the_limits_on_classes_and_states_do_not_apply_to_direct_conversion() {
    let closed = Conversion {
        ending: Ending::Closed,
        place: 0,
        count: 0,
    };
    for table in [table_of_classes(1), table_of_states(8)] {
        assert_eq!(direct::convert(&table, &[], &mut []), Ok(closed));
    }
}

/// What the program prints, from the library's entry points: "compiles, feeds
/// standard input, one character a byte, and prints each output character as
/// four upper-case hexadecimal digits on a line, then on one line `end` or
/// `stop`, consumed, steps; or `refused` and the number".
fn printed(table: &[u8], input: &[u8]) -> Vec<String> {
    let mut words = [0; WORDS];
    if let Err(refusal) = compile(table, &mut words) {
        return vec![format!("refused {}", refusal.number())];
    }
    let input: Vec<u16> = input.iter().copied().map(u16::from).collect();
    let (text, session) = fed(&words, &[&input]);
    let last = match session.status {
        Status::Stopped => "stop",
        _ => "end",
    };
    let lines = text.iter().map(|character| format!("{character:04X}"));
    lines
        .chain([format!("{last} {} {}", session.received, session.steps)])
        .collect()
}

#[test]
fn the_program_prints_its_example() {
    assert_eq!(printed(&t1(), b"A&#38;"), ["0041", "0026", "end 6 10"]);
}

#[test]
fn the_program_prints_stops_and_refusals() {
    assert_eq!(printed(&t2(), b"ab"), ["0059", "stop 1 4"]);
    assert_eq!(printed(&[], b"ab"), ["refused 5"]);
}

#[test]
fn slip_a_state_is_more_than_its_lowest_rule() {
    let (text, session) = fed(&compiled(&t2()).unwrap(), &[&characters("aa")]);
    assert_eq!(text, characters("YX"));
    assert_eq!(session.status, Status::Closed);
}

#[test]
fn slip_the_shortest_match_is_preferred() {
    let (text, _) = fed(&compiled(&t3()).unwrap(), &[&characters("aba")]);
    assert_eq!(text, characters("1a"));
}

#[test]
fn slip_the_end_of_a_piece_is_not_the_end_of_the_input() {
    let words = compiled(&t1()).unwrap();
    let mut session = Session::FRESH;
    let mut buffer = [0; 64];
    let first = feed(&words, &mut session, &characters("&#"), &mut buffer).unwrap();
    assert_eq!((first.count, first.status), (0, Status::Open));
    assert_eq!(session.held, [38, 35, 0, 0, 0, 0, 0, 0]);
    assert_eq!(session.count, 2);
    let second = feed(&words, &mut session, &characters("38;"), &mut buffer).unwrap();
    assert_eq!((second.count, second.status), (1, Status::Open));
    assert_eq!(buffer[0], 38);
    assert_eq!((session.held, session.count), ([0; 8], 0));
}

#[test]
fn slip_a_rollback_moves_on_by_one_character() {
    // After `&` leads nowhere at the second `&`, the pattern that begins there
    // must still be found, and so must one that begins inside what was given
    // back.
    let words = compiled(&t1()).unwrap();
    let (text, _) = fed(&words, &[&characters("&&#65;&#6&#66;")]);
    assert_eq!(text, characters("&A&#6B"));
}
