//! Every example of document 01 through the C face, by direct conversion and by
//! feed and finish, with its answers copied from the document, and tables with
//! digits, with answers worked out by hand.

use compare::calls::{by_library, fed, roomy_feed, Left, ROOMY_FINISH};
use compare::cases::pattern;
use compare::face::{check, convert, converted};
use compare::face::{compile, Session, OK, OPEN, STOPPED};
use reference::builder::{characters, TableBuilder};
use reference::samples::{
    digits_and_sums, four_digits, refused_tables, rules, t1, t1_with, t2, t3, t3_with_default,
    two_digits,
};
use reference::words::WORDS;

/// Converts an input into a long buffer and looks at all that the call leaves:
/// the answer, the place, the count, the text and the rest of the buffer.
fn expect(table: &[u8], input: &[u16], text: &[u16], code: u32, end: usize) {
    let found = pattern(7, 8 * input.len() + 20);
    let mut output = found.clone();
    let (mut place, mut count) = (u64::MAX, u64::MAX);
    let answer = convert(table, input, &mut output, &mut place, &mut count);
    assert_eq!((answer, place), (code, end as u64), "{input:?}");
    assert_eq!(count, text.len() as u64, "{input:?}");
    assert_eq!(output[..text.len()], *text, "{input:?}");
    assert_eq!(output[text.len()..], found[text.len()..], "{input:?}");
}

/// An input that is converted to its end.
fn expect_closed(table: &[u8], input: &str, text: &str) {
    let (input, text) = (characters(input), characters(text));
    expect(table, &input, &text, OK, input.len());
}

/// A call that is refused and changes nothing.
fn expect_refused(table: &[u8], input: &[u16], room: usize, number: u32) {
    let found = pattern(7, room);
    let mut output = found.clone();
    let (mut place, mut count) = (17, 19);
    let answer = convert(table, input, &mut output, &mut place, &mut count);
    assert_eq!((answer, place, count), (number, 17, 19));
    assert_eq!(output, found);
}

#[test]
fn the_lines_marked_p_that_convert() {
    expect_closed(&t1(), "&&#00;&#38;&#", "&&#00;&&#");
    expect_closed(&t1(), "", "");
    expect_closed(&t1(), "&#", "&#");
    expect_closed(&t1(), "&#4", "&#4");
    expect_closed(&t2(), "a", "X");
    expect_closed(&t2(), "aa", "YX");
    expect(&t2(), &characters("ab"), &characters("Y"), STOPPED, 1);
    expect_closed(&t3(), "aba", "1a");
}

#[test]
fn the_lines_marked_p_about_values() {
    assert_eq!(check(&t1_with(-529)), 7);
    expect_refused(&t1_with(-529), &characters("&#38;"), 25, 7);
    assert_eq!(check(&t3_with_default(65535, -1)), OK);
    expect(
        &t3_with_default(65535, -1),
        &[0, 65535, 97],
        &[65535, 0, 65535 - 97],
        OK,
        3,
    );
    assert_eq!(check(&t3_with_default(1, 1)), 7);
    expect_refused(&t3_with_default(1, 1), &[97], 1, 7);
}

#[test]
fn the_example_tables_are_accepted() {
    for table in [t1(), t2(), t3()] {
        assert_eq!(check(&table), OK);
    }
}

#[test]
fn the_text_of_the_programs_example() {
    expect(&t1(), &characters("A&#38;"), &[0x0041, 0x0026], OK, 6);
}

#[test]
fn the_shortest_match_is_preferred_and_a_rollback_moves_on_by_one() {
    expect_closed(&t3(), "abaaba", "1a1a");
    expect_closed(&t1(), "&&#65;&#6&#66;", "&A&#6B");
}

/// One rule of eight positions with four single characters each, 1, 3, 5, … 63:
/// 65 classes.
fn table_of_65_classes() -> Vec<u8> {
    (0..32)
        .fold(TableBuilder::new().rule(8), |table, number| {
            let character = 2 * number as u16 + 1;
            table.range(number / 4, character, character)
        })
        .bytes()
}

/// 32 rules of length 8 with first characters of their own: 257 states.
fn table_of_257_states() -> Vec<u8> {
    let rule = |table: TableBuilder, first: u16| {
        let table = table.rule(8).range(0, first, first);
        (1..8).fold(table, |table, position| table.range(position, 0, 65535))
    };
    (0..32).fold(TableBuilder::new(), rule).bytes()
}

#[test]
fn the_limits_on_classes_and_states_do_not_apply_to_direct_conversion() {
    for table in [table_of_65_classes(), table_of_257_states()] {
        assert_eq!(check(&table), OK);
        expect(&table, &[], &[], OK, 0);
    }
    let word = [1, 9, 17, 25, 33, 41, 49, 57];
    expect(&table_of_65_classes(), &word, &[], OK, 8);
    expect(
        &table_of_65_classes(),
        &[&word[..], &[1]].concat(),
        &[],
        STOPPED,
        8,
    );
    expect(&table_of_257_states(), &[31; 17], &[], STOPPED, 16);
}

#[test]
fn each_refusal_of_the_table_answers_its_number_and_changes_nothing() {
    for (number, table) in refused_tables() {
        let number = u32::from(number);
        assert_eq!(check(&table), number);
        expect_refused(&table, &[97], 8, number);
        expect_refused(&table, &[], 0, number);
    }
}

#[test]
fn refusal_15_an_output_shorter_than_e_times_the_input() {
    // T1's E is 5, the bound of refusal 15 whatever the text's length is.
    let input = characters("aaa");
    expect_refused(&t1(), &input, 0, 15);
    expect_refused(&t1(), &input, 14, 15);
    let mut output = [7; 15];
    let answer = converted(&t1(), &input, &mut output).unwrap();
    assert_eq!((answer.place, answer.count), (3, 3));
    assert_eq!(output[..4], [97, 97, 97, 7]);
}

#[test]
fn order_7_then_15() {
    expect_refused(&t1_with(-529), &characters("aaa"), 0, 7);
}

#[test]
fn empty_buffers() {
    assert_eq!(check(&[]), 5);
    expect_refused(&[], &[], 0, 5);
    expect_refused(&[], &[97], 3, 5);
    for table in [t1(), t2(), t3()] {
        let (mut place, mut count) = (17, 19);
        assert_eq!(convert(&table, &[], &mut [], &mut place, &mut count), OK);
        assert_eq!((place, count), (0, 0));
    }
}

#[test]
fn a_table_without_output_writes_nothing_into_an_empty_buffer() {
    let table = rules(1).bytes();
    let (mut place, mut count) = (17, 19);
    assert_eq!(
        convert(&table, &[97; 9], &mut [], &mut place, &mut count),
        OK
    );
    assert_eq!((place, count), (9, 0));
    assert_eq!(
        convert(&table, &[97, 98], &mut [], &mut place, &mut count),
        STOPPED
    );
    assert_eq!((place, count), (1, 0));
}

/// The machine words of a table.
fn machine(table: &[u8]) -> Vec<u16> {
    let mut words = vec![0; WORDS];
    assert_eq!(compile(table, &mut words), OK);
    words
}

/// Feeds a piece.
fn feed(words: &[u16], session: Session, piece: &str) -> Left {
    by_library(words, session, &roomy_feed(&characters(piece)))
}

/// What feeds of the pieces and a finish come to: the status, the joined outputs,
/// the characters consumed and the steps.
fn fed_text(table: &[u8], pieces: &[&str]) -> (u32, String, u64, u64) {
    let pieces: Vec<Vec<u16>> = pieces.iter().map(|piece| characters(piece)).collect();
    let (session, text) = fed(&machine(table), pieces.iter().map(Vec::as_slice));
    let text = String::from_utf16(&text).expect("the examples write text");
    (session.status, text, session.received, session.tally.steps)
}

/// An input that is closed, fed whole, in single characters and with empty pieces
/// between them.
fn expect_fed(table: &[u8], input: &str, text: &str, steps: u64) {
    let consumed = characters(input).len();
    expect_fed_to(table, input, (1, text, consumed, steps));
}

/// As [`expect_fed`], to any end.
fn expect_fed_to(table: &[u8], input: &str, expected: (u32, &str, usize, u64)) {
    let (status, text, consumed, steps) = expected;
    let expected = (status, text.to_string(), consumed as u64, steps);
    let single: Vec<&str> = input.split_inclusive(|_: char| true).collect();
    let spaced: Vec<&str> = single.iter().flat_map(|&piece| [piece, ""]).collect();
    for pieces in [&[input], &single[..], &spaced[..]] {
        assert_eq!(fed_text(table, pieces), expected, "{pieces:?}");
    }
}

#[test]
fn the_lines_marked_p_by_feed_and_finish() {
    expect_fed(&t1(), "&&#00;&#38;&#", "&&#00;&&#", 20);
    expect_fed(&t1(), "", "", 1);
    expect_fed(&t1(), "&#", "&#", 4);
    expect_fed(&t1(), "&#4", "&#4", 13);
    expect_fed(&t2(), "a", "X", 3);
    expect_fed(&t2(), "aa", "YX", 5);
    expect_fed_to(&t2(), "ab", (2, "Y", 1, 4));
    expect_fed(&t3(), "aba", "1a", 8);
}

#[test]
fn the_programs_example_by_feed_and_finish() {
    // `end 6 10`.
    expect_fed(&t1(), "A&#38;", "A&", 10);
}

#[test]
fn tables_with_digits() {
    expect_closed(&two_digits(), "\0IJO \x7f", "00494A4F207F");
    expect_closed(&two_digits(), "\u{99}\u{9a}\u{a9}\u{ff}", "999AA9FF");
    let above = characters("A\u{100}B");
    expect(&two_digits(), &above, &characters("41"), STOPPED, 1);
    expect_closed(&four_digits(), "\u{9a}\u{a9bc}\u{ffff}", "009AA9BCFFFF");
    expect_closed(&digits_and_sums(), "aZba", "%5A1");
    // 65535 less 97 is 65438, 0xff9e.
    expect_closed(&digits_and_sums(), "aa", "0\u{ff9e}1");
}

#[test]
fn tables_with_digits_by_feed_and_finish() {
    // A take and an emit each, and the close.
    expect_fed(&two_digits(), "\0IJO \x7f", "00494A4F207F", 13);
    let bytes = "\u{99}\u{9a}\u{a9}\u{ff}";
    expect_fed(&two_digits(), bytes, "999AA9FF", 9);
    expect_fed_to(&two_digits(), "A\u{100}B", (2, "41", 1, 4));
    let characters = "\u{9a}\u{a9bc}\u{ffff}";
    expect_fed(&four_digits(), characters, "009AA9BCFFFF", 7);
    // Three takes and an emit, a take and an emit at the end.
    expect_fed(&digits_and_sums(), "aZba", "%5A1", 7);
    // Two takes and a back, twice a take and an emit.
    expect_fed(&digits_and_sums(), "aa", "0\u{ff9e}1", 8);
}

#[test]
fn where_compilers_of_this_kind_slip() {
    // Looking only at the lowest rule of a state: YX is right.
    assert_eq!(fed_text(&t2(), &["a", "a"]).1, "YX");
    // Preferring the longest match: `1a`, not 2.
    assert_eq!(fed_text(&t3(), &["a", "b", "a"]).1, "1a");
    // Treating a piece's end as the input's end: `&#` is held, and is the
    // beginning of a match. 10 × 51 + 56 - 528 is 38, `&`.
    let words = machine(&t1());
    let first = feed(&words, Session::FRESH, "&#");
    assert_eq!((first.code, first.text()), (OPEN, &[][..]));
    assert_eq!(first.session.held[..2], characters("&#"));
    let second = feed(&words, first.session, "38;");
    assert_eq!((second.code, second.text()), (OPEN, &[38][..]));
    assert_eq!(second.session.held_count, 0);
    assert_eq!(fed_text(&t1(), &["&#", "38;"]).1, "&");
    // After a rollback, skipping all the characters given back instead of one.
    assert_eq!(fed_text(&t1(), &["&", "&#", "65;"]).1, "&A");
}

#[test]
fn a_feed_writes_as_soon_as_no_pattern_may_go_on() {
    // T2 `ab`: `a` waits for what follows it; the `b` stops the session.
    let words = machine(&t2());
    let first = feed(&words, Session::FRESH, "a");
    assert_eq!((first.code, first.text()), (OPEN, &[][..]));
    let second = feed(&words, first.session, "b");
    assert_eq!(
        (second.code, second.text()),
        (STOPPED, &characters("Y")[..])
    );
    assert_eq!(
        (second.session.received, second.session.tally.steps),
        (1, 4)
    );
    assert_eq!(feed(&words, second.session, "a").code, 13);
    assert_eq!(by_library(&words, second.session, &ROOMY_FINISH).code, 13);
}
