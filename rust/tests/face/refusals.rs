//! Each refusal through the safe interface, and that it changes nothing.

use crate::tables::{default, mixed, plain, t1, t2};
use cobbletwill::record::{digit, output, range, rule, term, Record, DEFAULT};
use cobbletwill::{check, convert, raw, witness, Machine, Refusal, Session, Status, WORDS_SIZE};

/// A rule that takes any characters, of a first character and a length.
fn long(first: u16, length: u8) -> Vec<Record> {
    let others = (1..length).map(|position| range(position, 0, 65535));
    [rule(length, false), range(0, first, first)]
        .into_iter()
        .chain(others)
        .collect()
}

/// 32 rules of length 8, the last of another, every second character from one.
fn large(first: u16, last_length: u8) -> Vec<u8> {
    let lengths = [[8; 31].as_slice(), &[last_length]].concat();
    let rules = lengths.into_iter().zip((first..).step_by(2));
    rules
        .flat_map(|(length, first)| long(first, length))
        .collect::<Vec<_>>()
        .concat()
}

/// A table that is refused by each of 1 to 7.
fn refused_tables() -> [Vec<u8>; 7] {
    let one = || plain("a", false, "");
    [
        vec![1],
        [rule(1, false), range(0, 98, 97)].concat(),
        output(1).to_vec(),
        rule(1, false).to_vec(),
        default(0, 1).concat(),
        [one(), vec![output(49); 9]].concat().concat(),
        [one(), vec![output(65536)]].concat().concat(),
    ]
}

#[test]
fn tables_by_1_to_7() {
    for (table, number) in refused_tables().iter().zip(1..) {
        let refusal = Refusal::from_number(number).expect("a refusal");
        assert_eq!(check(table), Err(refusal));
        assert_eq!(Machine::compile(table), Err(refusal));
        assert_eq!(convert(table, &[97], &mut [7; 8]), Err(refusal));
        assert_eq!(witness(table, 0), Err(refusal));
    }
}

/// Records after a rule that takes `a` are refused so.
fn refused_after_a(records: &[Record], refusal: Refusal) {
    let table = [plain("a", false, ""), records.to_vec()].concat().concat();
    assert_eq!(check(&table), Err(refusal), "{records:?}");
    assert_eq!(Machine::compile(&table), Err(refusal), "{records:?}");
}

/// "One is refused by 3": a term after a digit. "Refusals 4 and 6 treat it as
/// kind 3."
#[test]
fn digits_by_2_to_6() {
    for shift in (0..=255).filter(|shift| ![0, 4, 8, 12].contains(shift)) {
        refused_after_a(&[digit(0, shift)], Refusal::Field);
    }
    refused_after_a(&[digit(8, 0)], Refusal::Field);
    for at in 3..8 {
        let mut record = digit(0, 4);
        record[at] = 1;
        refused_after_a(&[record], Refusal::Field);
    }
    refused_after_a(&[digit(1, 0)], Refusal::Place);
    refused_after_a(&[digit(0, 0), term(0, 1)], Refusal::Place);
    refused_after_a(&[digit(0, 0), range(0, 98, 98)], Refusal::Place);
    refused_after_a(&[DEFAULT, digit(1, 0)], Refusal::Place);
    assert_eq!(check(&digit(0, 0)), Err(Refusal::Place));
    refused_after_a(&[rule(1, false), digit(0, 0)], Refusal::Unfilled);

    let eight = [[digit(0, 4); 4], [output(49); 4]].concat();
    let table = [plain("a", false, ""), eight.clone()].concat().concat();
    assert_eq!(check(&table), Ok(()));
    for ninth in [digit(0, 0), output(49)] {
        refused_after_a(&[&eight[..], &[ninth]].concat(), Refusal::TooMany);
    }
}

/// "Terms of one output character may now come in any order of position, though a
/// position still occurs once."
#[test]
fn terms_in_any_order_and_a_position_repeated() {
    let sum = |terms: &[Record]| {
        let head = [plain("abc", false, ""), vec![output(200)]].concat();
        [&head[..], terms].concat().concat()
    };
    let [x0, x1, x2] = [term(0, 10), term(1, -1), term(2, 3)];
    let rising = Machine::compile(&sum(&[x0, x1, x2])).expect("compiles");
    for order in [
        [x0, x2, x1],
        [x1, x0, x2],
        [x1, x2, x0],
        [x2, x0, x1],
        [x2, x1, x0],
    ] {
        assert_eq!(check(&sum(&order)), Ok(()));
        assert_eq!(Machine::compile(&sum(&order)).as_ref(), Ok(&rising));
        // 200 + 10 * 97 - 98 + 3 * 99.
        let mut text = [0; 3];
        convert(&sum(&order), &[97, 98, 99], &mut text).expect("closes");
        assert_eq!(text, [1369, 0, 0]);
        for again in order {
            let terms = [&order[..], &[again]].concat();
            assert_eq!(check(&sum(&terms)), Err(Refusal::Place));
            assert_eq!(Machine::compile(&sum(&terms)), Err(Refusal::Place));
        }
        // Another output character names them anew.
        let twice = [&order[..], &[output(200)], &order].concat();
        assert_eq!(check(&sum(&twice)), Ok(()));
    }
}

/// The machine words of [`mixed`] with one word changed.
fn damaged(at: usize, word: u16) -> Result<Machine, Refusal> {
    let machine = Machine::compile(&mixed()).expect("compiles");
    let mut words = machine.words().to_vec();
    words[at] = word;
    Machine::from_words(&words)
}

/// "Sound words have a known sort, and a digit entry has one of the four shifts
/// and just one coefficient, of 1, below K." Block 0 stands at 17,222, its
/// entries of 10 words from 3 on, and K is 3.
#[test]
fn damaged_digits_by_11() {
    let entry = |number: usize| 17_222 + 3 + 10 * number;
    let unsound = |at, word| assert_eq!(damaged(at, word), Err(Refusal::UnsoundWords));
    let sound = |at, word| assert!(damaged(at, word).is_ok(), "word {at} as {word}");
    for number in 0..3 {
        unsound(entry(number), 2);
        unsound(entry(number), 65535);
    }
    let first = entry(0);
    for shift in [1, 3, 5, 16, 65535] {
        unsound(first + 1, shift);
    }
    for shift in [0, 4, 8, 12] {
        sound(first + 1, shift);
    }
    // Its coefficient is that of position 1.
    for coefficient in [0, 2, 65535] {
        unsound(first + 2 + 1, coefficient);
    }
    for position in [0, 2] {
        unsound(first + 2 + position, 1);
        unsound(first + 2 + position, 65535);
    }
    for position in 3..8 {
        sound(first + 2 + position, 1);
    }
    // As a sum a digit's entry is sound too. The sum with a coefficient of 1 and
    // the constant 1 is no digit's, for 1 is no shift.
    sound(first, 0);
    unsound(entry(1), 1);
    // Entry 3 is not in use.
    sound(entry(3), 2);
}

#[test]
fn compiling_by_8_and_9_at_one_beyond_the_limits() {
    let machine = Machine::compile(&large(0, 7)).expect("at the limits");
    assert_eq!((machine.class_count(), machine.state_count()), (64, 256));
    assert_eq!(Machine::compile(&large(1, 7)), Err(Refusal::Classes));
    assert_eq!(Machine::compile(&large(0, 8)), Err(Refusal::States));
    assert_eq!(witness(&large(1, 7), 0), Err(Refusal::Classes));
    assert_eq!(witness(&large(0, 8), 31), Err(Refusal::States));
    assert_eq!(check(&large(1, 8)), Ok(()));
}

#[test]
fn words_by_10_and_11() {
    let mut short = vec![7; WORDS_SIZE - 1];
    assert_eq!(raw::compile(&t1(), &mut short), 10);
    assert!(short.iter().all(|&word| word == 7));
    assert_eq!(Machine::from_words(&short), Err(Refusal::UnsoundWords));
    assert_eq!(
        Machine::from_words(&[0; WORDS_SIZE]),
        Err(Refusal::UnsoundWords)
    );
    let machine = Machine::compile(&t1()).expect("compiles");
    let longer = [machine.words(), &[7; 3]].concat();
    assert_eq!(Machine::from_words(&longer), Ok(machine));
}

/// A feed that is refused and changes nothing; but for a short output, a preview is
/// refused alike.
fn refused(session: Session, piece: &[u16], room: usize, refusal: Refusal) {
    let machine = Machine::compile(&t1()).expect("compiles");
    let preview = session.preview(&machine, piece);
    match refusal {
        Refusal::ShortOutput => assert!(preview.is_ok()),
        refusal => assert_eq!(preview, Err(refusal)),
    }
    let (mut later, mut output) = (session, vec![7; room]);
    assert_eq!(later.feed(&machine, piece, &mut output), Err(refusal));
    assert_eq!((later, output), (session, vec![7; room]));
}

#[test]
fn sessions_by_12_to_15() {
    let fresh = Session::fresh();
    let with = |change: fn(&mut Session)| {
        let mut session = Session::fresh();
        change(&mut session);
        session
    };
    refused(
        with(|session| session.tally.produced = 1),
        &[],
        9,
        Refusal::UnsoundSession,
    );
    refused(
        with(|session| session.status = 3),
        &[],
        9,
        Refusal::UnsoundSession,
    );
    refused(
        with(|session| session.held[7] = 1),
        &[],
        9,
        Refusal::UnsoundSession,
    );
    refused(with(|session| session.status = 1), &[], 9, Refusal::Ended);
    refused(with(|session| session.status = 2), &[], 9, Refusal::Ended);
    refused(
        with(|session| (session.received, session.uses[raw::USES_DEFAULT]) = (1 << 40, 1 << 40)),
        &[97],
        9,
        Refusal::TooLong,
    );
    refused(fresh, &[97, 97], 9, Refusal::ShortOutput);
}

/// T1 has three rules and a default. One use more of any of the 34 counts, or one
/// character more that no rule took, is refused.
#[test]
fn uses_that_do_not_add_up_by_12() {
    let mut session = Session::fresh();
    session.received = 1;
    refused(session, &[], 9, Refusal::UnsoundSession);
    for place in 0..raw::USES_SIZE {
        let mut session = Session::fresh();
        session.uses[place] = 1;
        refused(session, &[], 9, Refusal::UnsoundSession);
    }
}

#[test]
fn a_stopped_session_takes_nothing_more() {
    let machine = Machine::compile(&t2()).expect("compiles");
    let mut session = Session::fresh();
    let fed = session
        .feed(&machine, &[97, 98, 97], &mut [0; 3])
        .expect("accepted");
    assert_eq!((fed.written, fed.status), (1, Status::Stopped));
    assert_eq!((session.received, session.consumed()), (1, 1));
    assert_eq!(
        session.feed(&machine, &[97], &mut [0; 3]),
        Err(Refusal::Ended)
    );
    assert_eq!(session.finish(&machine, &mut [0; 3]), Err(Refusal::Ended));
}

#[test]
fn raw_calls_leave_written_as_found_when_refused() {
    let machine = Machine::compile(&t1()).expect("compiles");
    let (mut session, mut written) = (Session::fresh(), 19);
    assert_eq!(
        raw::feed(&[], &mut session, &[97], &mut [0; 9], &mut written),
        11
    );
    assert_eq!(
        raw::feed(machine.words(), &mut session, &[97], &mut [], &mut written),
        15
    );
    assert_eq!((session, written), (Session::fresh(), 19));
    let mut later = Session::fresh();
    later.received = 17;
    let found = later;
    assert_eq!(
        raw::preview(&[], &session, &[97], &mut later, &mut written),
        11
    );
    assert_eq!((later, written), (found, 19));
    assert_eq!(
        raw::feed(
            machine.words(),
            &mut session,
            &[97],
            &mut [0; 9],
            &mut written
        ),
        raw::OPEN
    );
    assert_eq!(written, 1);
    assert_eq!(
        raw::finish(machine.words(), &mut session, &mut [], &mut written),
        raw::OK
    );
    assert_eq!(written, 0);
}

#[test]
fn numbers_and_words() {
    for (refusal, number) in Refusal::ALL.into_iter().zip(1..) {
        assert_eq!(refusal.number(), number);
        assert_eq!(Refusal::from_number(number), Some(refusal));
    }
    assert_eq!(Refusal::from_number(0), None);
    assert_eq!(Refusal::from_number(64), None);
}

/// `tests/c` holds the header to the same texts.
#[test]
fn texts_are_those_of_the_header() {
    let texts = include_str!("../../../tests/c/texts.txt");
    let words: Vec<String> = Refusal::ALL.iter().map(Refusal::to_string).collect();
    assert_eq!(words, texts.lines().collect::<Vec<_>>());
}
