//! Document 01's examples through the safe interface, with the answers copied
//! from the document: direct, in one feed, in two pieces and one by one. Digits
//! likewise, with answers from the source's Examples 2 and 3 or worked out by hand.

use crate::tables::{four_digits, mixed, splits, t1, t1_with, t2, t3, t3_with, two_digits, units};
use cobbletwill::{check, convert, run, Ending, Machine, Refusal, Session, Status, MAX_EXPANSION};

/// Direct conversion gives a text and an ending at a place; so do all sessions,
/// after so many steps.
fn expect(table: &[u8], input: &str, text: &str, ending: Ending, place: usize, steps: u64) {
    let (input, text) = (units(input), units(text));
    let mut output = vec![0; MAX_EXPANSION * input.len()];
    let direct = convert(table, &input, &mut output).expect("accepted");
    assert_eq!((direct.ending, direct.place), (ending, place));
    assert_eq!(output[..direct.written], text);

    let machine = Machine::compile(table).expect("compiles");
    for pieces in splits(&input) {
        let (joined, session) = run(&machine, pieces.iter().copied()).expect("accepted");
        assert_eq!(joined, text, "{pieces:?}");
        let status = if ending == Ending::Closed { 1 } else { 2 };
        assert_eq!(
            (session.status, session.tally.steps),
            (status, steps),
            "{pieces:?}"
        );
        assert_eq!(session.consumed(), place as u64);
        assert_eq!(session.tally.produced, text.len() as u64);
        assert!(steps <= machine.most_steps(input.len() as u64));
    }
}

/// An input that is converted to its end.
fn closed(table: &[u8], input: &str, text: &str, steps: u64) {
    let place = units(input).len();
    expect(table, input, text, Ending::Closed, place, steps);
}

#[test]
fn the_lines_marked_p_that_convert() {
    closed(&t1(), "&&#00;&#38;&#", "&&#00;&&#", 20);
    closed(&t1(), "", "", 1);
    closed(&t1(), "&#", "&#", 4);
    closed(&t1(), "&#4", "&#4", 13);
    closed(&t2(), "a", "X", 3);
    closed(&t2(), "aa", "YX", 5);
    expect(&t2(), "ab", "Y", Ending::Stopped, 1, 4);
    closed(&t3(), "aba", "1a", 8);
    closed(&t1(), "A&#38;", "A&", 10);
}

#[test]
fn the_lines_marked_p_about_values() {
    assert_eq!(check(&t1_with(-529)), Err(Refusal::Value));
    assert_eq!(Machine::compile(&t1_with(-529)), Err(Refusal::Value));
    assert_eq!(check(&t3_with(65535, -1)), Ok(()));
    assert_eq!(check(&t3_with(1, 1)), Err(Refusal::Value));
}

/// Each byte is a take and an emit, and the end a close.
#[test]
fn bytes_as_two_digits() {
    closed(&two_digits(), "K", "4B", 3);
    closed(&two_digits(), "ok", "6F6B", 5);
    closed(
        &two_digits(),
        "\0\t\n\u{99}\u{9a}\u{a9}\u{ff}",
        "00090A999AA9FF",
        15,
    );
    let stopped = Ending::Stopped;
    expect(&two_digits(), "o\u{100}k", "6F", stopped, 1, 4);
}

/// Each character goes back, is taken and emitted, and the end closes.
#[test]
fn characters_as_four_digits() {
    closed(&four_digits(), "\u{9a}", "009A", 4);
    closed(
        &four_digits(),
        "\u{90af}_\u{a90f}\u{ffff}",
        "90AFA90FFFFF",
        3 + 2 + 3 + 3 + 1,
    );
}

/// Three takes and an emit for the rule; `%9` at the input's end goes back twice.
#[test]
fn digits_beside_sums() {
    closed(&mixed(), "%K\u{a9}", "4\u{aa}9", 5);
    closed(&mixed(), "%\u{9f}~%9", "9\u{7f}E%9", 4 + 2 + 3 + 3 + 1);
}

/// However an input is cut, so many uses of the rules from 0 on are counted, none
/// of any other number, and so many of the default.
fn used(table: &[u8], input: &str, rules: &[u64], default: u64) {
    let (machine, input) = (Machine::compile(table).expect("compiles"), units(input));
    for pieces in splits(&input) {
        let (_, session) = run(&machine, pieces.iter().copied()).expect("accepted");
        for rule in (0..40).chain([usize::MAX]) {
            let expected = rules.get(rule).copied().unwrap_or(0);
            assert_eq!(session.uses(rule), expected, "rule {rule}, {pieces:?}");
        }
        assert_eq!(session.default_uses(), default, "{pieces:?}");
    }
}

/// Worked out by hand from what each rule takes.
#[test]
fn uses_of_rules_and_of_the_default() {
    used(&t1(), "&&#00;&#38;&#", &[1, 1, 1], 1);
    used(&t1(), "", &[], 0);
    used(&t1(), "&#", &[0, 0, 1], 0);
    used(&t1(), "&#4", &[], 3);
    used(&t1(), "A&#38;&#65;&#00;B", &[1, 2], 2);
    used(&t2(), "a", &[1], 0);
    used(&t2(), "aaa", &[1, 2], 0);
    used(&t2(), "aab", &[0, 2], 0);
    used(&t3(), "aba", &[1], 1);
    used(&two_digits(), "o\u{100}k", &[1], 0);
    used(&mixed(), "%\u{9f}~%9", &[1], 2);
}

#[test]
fn t1_has_28_records_10_classes_and_9_states() {
    assert_eq!(t1().len(), 28 * 8);
    let machine = Machine::compile(&t1()).expect("compiles");
    assert_eq!((machine.class_count(), machine.state_count()), (10, 9));
    assert_eq!((machine.longest_pattern(), machine.expansion()), (5, 5));
    assert_eq!((machine.rule_count(), machine.has_default()), (3, true));
    assert_eq!(machine.most_steps(13), 105);
}

/// Worked out by hand: of `A&#38;&` the default writes `A` and rule 1 `&`, and the
/// last `&` is held. What was seen is what the feed then gives.
#[test]
fn a_preview_is_what_the_feed_gives() {
    let machine = Machine::compile(&t1()).expect("compiles");
    let mut session = Session::fresh();
    let seen = session.preview(&machine, &units("A&#38;&")).unwrap();
    assert_eq!((seen.written, seen.status), (2, Status::Open));
    assert_eq!((seen.session.received, seen.session.held_count), (7, 1));
    assert_eq!((seen.session.uses(1), seen.session.default_uses()), (1, 1));
    assert_eq!(session, Session::fresh());
    let fed = session.feed(&machine, &units("A&#38;&"), &mut [0; 35]);
    assert_eq!(
        fed.map(|fed| (fed.written, fed.status)),
        Ok((seen.written, seen.status))
    );
    assert_eq!(session, seen.session);

    let machine = Machine::compile(&t2()).expect("compiles");
    let seen = Session::fresh().preview(&machine, &units("ab")).unwrap();
    assert_eq!((seen.written, seen.status), (1, Status::Stopped));
    assert_eq!((seen.session.received, seen.session.tally.steps), (1, 4));
}

#[test]
fn a_pieces_end_is_not_the_inputs_end() {
    let machine = Machine::compile(&t1()).expect("compiles");
    let pieces = [units("&#"), units("38;")];
    let (joined, _) = run(&machine, pieces.iter().map(Vec::as_slice)).expect("accepted");
    assert_eq!(joined, units("&"));
}

#[test]
fn an_open_session_holds_what_may_still_fit() {
    let machine = Machine::compile(&t1()).expect("compiles");
    let mut session = Session::fresh();
    let mut output = [7; 20];
    let fed = session.feed(&machine, &units("A&#3"), &mut output).unwrap();
    assert_eq!((fed.written, fed.status), (1, Status::Open));
    assert_eq!(output[..2], [65, 7]);
    assert_eq!(
        (session.held_count, session.received, session.consumed()),
        (3, 4, 1)
    );
    assert_eq!(session.held, [38, 35, 51, 0, 0, 0, 0, 0]);
}
