//! Request \[8\]: pairs outside the basic plane, directly and through sessions cut between
//! the units. Texts, counts and steps are worked out by hand.

use crate::tables::{default, plain};
use cobbletwill::raw::{USES_DEFAULT, USES_PAIRS, USES_SIZE};
use cobbletwill::record::{digit, output, Record, DEFAULT, MARKED_DEFAULT};
use cobbletwill::{check, convert, run, Ending, Machine, Refusal, Session, Status};

/// The least and the greatest unit of each sort.
const FIRST: [u16; 2] = [0xd800, 0xdbff];
const SECOND: [u16; 2] = [0xdc00, 0xdfff];
/// A point.
const POINT: u16 = 46;

/// `ab` writes X, and a default of a sort writes these.
fn table(sort: Record, written: &[Record]) -> Vec<u8> {
    [&plain("ab", false, "X")[..], &[sort], written]
        .concat()
        .concat()
}

/// The marked default writes a point for one unit.
fn marked() -> Vec<u8> {
    table(MARKED_DEFAULT, &[output(POINT.into())])
}

fn machine(table: &[u8]) -> Machine {
    Machine::compile(table).expect("compiles")
}

/// An input gives a text in so many steps, with so many uses of the default on a pair and
/// on one unit: directly, whole, and unit by unit with an empty feed before each.
fn expect(table: &[u8], input: &[u16], text: &[u16], steps: u64, uses: (u64, u64)) {
    let mut output = vec![0; 8 * input.len()];
    let direct = convert(table, input, &mut output).expect("accepted");
    assert_eq!((direct.ending, direct.place), (Ending::Closed, input.len()));
    assert_eq!(output[..direct.written], *text);

    let machine = machine(table);
    let parted = input.chunks(1).flat_map(|unit| [&[], unit]).collect();
    for pieces in [vec![input], parted] {
        let (joined, session) = run(&machine, pieces).expect("accepted");
        assert_eq!((&joined[..], session.tally.steps), (text, steps));
        assert_eq!((session.pair_uses(), session.default_uses()), uses);
    }
}

#[test]
fn pairs_are_written_unchanged() {
    for first in FIRST {
        for second in SECOND {
            let pair = [first, second];
            expect(&marked(), &pair, &pair, 5, (1, 0));
            expect(
                &marked(),
                &[97, first, second],
                &[POINT, first, second],
                9,
                (1, 1),
            );
            expect(
                &marked(),
                &[first, first, second],
                &[POINT, first, second],
                8,
                (1, 1),
            );
            let alone = table(DEFAULT, &[output(POINT.into())]);
            expect(&alone, &pair, &[POINT; 2], 7, (0, 2));
        }
    }
}

#[test]
fn units_that_are_no_pair_go_one_by_one() {
    for unit in [FIRST, SECOND].concat() {
        expect(&marked(), &[unit], &[POINT], 4, (0, 1));
        expect(&marked(), &[unit, 98], &[POINT; 2], 7, (0, 2));
        expect(&marked(), &[97, 98, unit], &[88, POINT], 7, (0, 1));
    }
    for [one, other] in [
        [SECOND[0], FIRST[0]],
        [FIRST[0] - 1, SECOND[0]],
        [FIRST[0], SECOND[1] + 1],
        FIRST,
        SECOND,
    ] {
        expect(&marked(), &[one, other], &[POINT; 2], 7, (0, 2));
    }
    // By the digits of the default, and by nothing.
    let digits = table(MARKED_DEFAULT, &[digit(0, 12), digit(0, 8)]);
    expect(&digits, &[0xdc00, 0xd800], &[68, 67, 68, 56], 7, (0, 2));
    expect(&table(MARKED_DEFAULT, &[]), &[0xd800], &[], 4, (0, 1));
}

/// The back is counted before the wait, and the takes when the second unit is there.
#[test]
fn a_first_unit_waits() {
    let machine = machine(&marked());
    let mut session = Session::fresh();
    for piece in [&FIRST[..1], &[]] {
        let seen = session.preview(&machine, piece).expect("accepted");
        let fed = session.feed(&machine, piece, &mut [0; 2]);
        let fed = fed.expect("accepted");
        assert_eq!((fed.written, fed.status), (0, Status::Open));
        assert_eq!((seen.written, seen.session), (0, session));
        assert_eq!((session.state, session.held_count), (0, 1));
        assert_eq!((session.held[0], session.tally.steps), (FIRST[0], 1));
    }
    let seen = session.preview(&machine, &SECOND[..1]).expect("accepted");
    assert_eq!((seen.written, seen.session.pair_uses()), (2, 1));
    assert_eq!((session.pair_uses(), session.consumed()), (0, 0));
    let mut output = [0; 2];
    session
        .feed(&machine, &SECOND[..1], &mut output)
        .expect("accepted");
    assert_eq!((output, session), ([FIRST[0], SECOND[0]], seen.session));
    assert_eq!((session.tally.steps, session.held_count), (4, 0));
}

#[test]
fn a_machine_tells_its_sort_of_default() {
    let sorts = |table: &[u8]| {
        let machine = machine(table);
        let default = (machine.has_default(), machine.keeps_pairs());
        (machine.words()[5], default, machine.expansion())
    };
    let nothing = plain("ab", false, "").concat();
    let with = |sort: Record| [&nothing[..], &sort].concat();
    assert_eq!(sorts(&nothing), (0, (false, false), 0));
    assert_eq!(sorts(&with(DEFAULT)), (1, (true, false), 0));
    assert_eq!(sorts(&with(MARKED_DEFAULT)), (2, (true, true), 1));
}

/// "Header word 5 is 2 for this mode. E is then at least 1, in sound words too."
#[test]
fn words_by_11() {
    let nothing = [&plain("ab", false, "")[..], &[MARKED_DEFAULT]].concat();
    let machine = machine(&nothing.concat());
    let damaged = |changes: &[(usize, u16)]| {
        let mut words = machine.words().to_vec();
        changes.iter().for_each(|&(at, word)| words[at] = word);
        Machine::from_words(&words).map(|_| ())
    };
    assert_eq!(damaged(&[]), Ok(()));
    assert_eq!(damaged(&[(3, 0)]), Err(Refusal::UnsoundWords));
    assert_eq!(damaged(&[(3, 0), (5, 1)]), Ok(()));
    for word in [3, 4, 256, 65535] {
        assert_eq!(damaged(&[(5, word)]), Err(Refusal::UnsoundWords));
    }
}

/// A feed of nothing is refused by 12 after a change of a session, and is accepted without.
fn unsound(machine: &Machine, sound: Session, change: impl Fn(&mut Session)) {
    let mut session = sound;
    assert!(session.feed(machine, &[], &mut [0; 9]).is_ok());
    session = sound;
    change(&mut session);
    let found = session;
    let fed = session.feed(machine, &[], &mut [0; 9]);
    assert_eq!(fed, Err(Refusal::UnsoundSession), "{found:?}");
    assert_eq!(session, found);
    let preview = session.preview(machine, &[]);
    assert_eq!(preview, Err(Refusal::UnsoundSession));
}

/// "A sound session allows it where the mark is set, the unit is a first unit and state 0
/// has no target for it."
#[test]
fn sessions_by_12() {
    let marked = machine(&marked());
    let mut waiting = Session::fresh();
    waiting
        .feed(&marked, &FIRST[..1], &mut [0; 1])
        .expect("accepted");
    for unit in [0xd7ff, 0xe000, 97, 98, SECOND[0], SECOND[1]] {
        unsound(&marked, waiting, |session| session.held[0] = unit);
    }
    unsound(&marked, waiting, |session| session.state = 1);
    unsound(&marked, waiting, |session| session.tally.steps = 2);
    unsound(&marked, waiting, |session| {
        (session.received, session.held_count, session.held[1]) = (2, 2, SECOND[0]);
    });
    for place in 0..USES_SIZE {
        unsound(&marked, waiting, |session| session.uses[place] = 1);
    }
    let unmarked = machine(&table(DEFAULT, &[output(POINT.into())]));
    unsound(&unmarked, Session::fresh(), |session| *session = waiting);

    // Two characters consumed are a pair, or two units; without the mark they are no pair.
    let mut consumed = Session::fresh();
    (consumed.received, consumed.uses[USES_DEFAULT]) = (2, 2);
    let pair = |session: &mut Session| {
        (session.uses[USES_DEFAULT], session.uses[USES_PAIRS]) = (0, 1);
    };
    unsound(&unmarked, consumed, pair);
    pair(&mut consumed);
    for pairs in [0, 2, u64::MAX, (1 << 63) + 1] {
        unsound(&marked, consumed, |session| {
            session.uses[USES_PAIRS] = pairs
        });
    }
}

/// Byte 1 of a default record is 0 or 1. Its output is asked for every character, though
/// units of pairs never come to it.
#[test]
fn marks_by_2_and_values_by_7() {
    let byte = |mark| [5, mark, 0, 0, 0, 0, 0, 0];
    for mark in 0..=1 {
        assert_eq!(check(&table(byte(mark), &[])), Ok(()));
    }
    for mark in 2..=255 {
        assert_eq!(check(&table(byte(mark), &[])), Err(Refusal::Field));
        assert_eq!(
            Machine::compile(&table(byte(mark), &[])),
            Err(Refusal::Field)
        );
    }
    let next = default(1, 1);
    assert_eq!(
        check(&table(MARKED_DEFAULT, &next[1..])),
        Err(Refusal::Value)
    );
}
