//! Previews against the independent version and against feeds: in a row along an
//! input, of long pieces, and where a feed's buffer is too short. Every other feed
//! that the tests compare is previewed too (`calls::compare`).

use std::collections::BTreeMap;

use compare::calls::{by_library, compare_preview, next_piece, random_call, roomy_feed};
use compare::cases::sound_tables;
use compare::face::{Session, OPEN, STOPPED};
use compare::lists::{Called, Compiled};
use reference::builder::characters;
use reference::compile::compiled;
use reference::random::Random;
use reference::reckoning::Call;
use reference::samples::{t1, t2, two_digits};

/// The seed of the random tables.
const SEED: u64 = 516;
/// How many tables are taken.
const TABLES: usize = 10_000;

/// "A feed made on a copy": by hand, of document 01's tables. Of `A&#` the default
/// writes `A`, and `&#` may still be a pattern's beginning; T2 writes `Y` for `a`
/// before `b`, and stops at `b`, having taken one character in four steps: take,
/// emit, back and stop.
#[test]
fn by_hand() {
    let words = compiled(&t1()).unwrap();
    let seen = compare_preview(&words, &Session::FRESH, &characters("A&#"));
    assert_eq!((seen.code, seen.count), (OPEN, 1));
    let session = seen.session;
    assert_eq!((session.received, session.held_count), (3, 2));
    assert_eq!(session.held, [38, 35, 0, 0, 0, 0, 0, 0]);
    assert_eq!((session.tally.produced, session.default_uses()), (1, 1));

    let words = compiled(&t2()).unwrap();
    let seen = compare_preview(&words, &Session::FRESH, &characters("ab"));
    assert_eq!((seen.code, seen.count), (STOPPED, 1));
    let session = seen.session;
    assert_eq!((session.status, session.received), (2, 1));
    assert_eq!((session.tally.produced, session.tally.steps), (1, 4));
    assert_eq!((session.uses(0), session.uses(1)), (0, 1));
}

/// Each preview goes on from the session that the last one saw: the counts add up
/// to those of one preview of the whole input, and the session is the same. A third
/// of the tables has no default and stops on most inputs.
#[test]
fn in_a_row() {
    let mut random = Random::new(SEED + 1);
    let mut ended = BTreeMap::new();
    for machine in sound_tables(SEED).filter_map(Compiled::of).take(TABLES) {
        let (words, input) = (&machine.words, machine.input(&mut random));
        let whole = compare_preview(words, &Session::FRESH, &input);
        let (mut session, mut count, mut unread) = (Session::FRESH, 0, &input[..]);
        while session.status == 0 && !unread.is_empty() {
            let seen = compare_preview(words, &session, next_piece(&mut random, &mut unread));
            count += seen.count;
            session = seen.session;
        }
        assert_eq!((session, count), (whole.session, whole.count), "{input:?}");
        *ended.entry(whole.code).or_insert(0) += 1;
    }
    println!("{ended:?}");
    assert!(ended[&OPEN] >= TABLES / 3, "{ended:?}");
    assert!(ended[&STOPPED] >= TABLES / 10, "{ended:?}");
}

/// Where a feed is refused by 15 alone, a preview sees what one with room gives. Of
/// five feeds one has a buffer that is too short, and a third of the calls comes
/// after the end; the guard is a third of the odds.
#[test]
fn without_room() {
    let mut random = Random::new(SEED + 3);
    let mut short = 0;
    for machine in sound_tables(SEED + 2).filter_map(Compiled::of).take(TABLES) {
        let calls = random.between(0, 4);
        let session = Called::random(&mut random, &machine, calls, |_, _, _| ()).session;
        let input = machine.input(&mut random);
        let call = random_call(&mut random, &machine.words, &session, &mut &input[..]);
        let Call::Feed { piece, .. } = &call else {
            continue;
        };
        if by_library(&machine.words, session, &call).code != 15 {
            continue;
        }
        let seen = compare_preview(&machine.words, &session, piece);
        let fed = by_library(&machine.words, session, &roomy_feed(piece));
        assert_eq!(
            (seen.code, seen.session, seen.count),
            (fed.code, fed.session, fed.count)
        );
        short += 1;
    }
    println!("{short} feeds without room");
    assert!(short >= TABLES / 30, "{short}");
}

/// Pieces of the lengths from which on more classes are worked out beforehand, 8
/// and 128, and long ones.
#[test]
fn pieces_by_length() {
    let mut random = Random::new(SEED + 5);
    for table in [t1(), two_digits()] {
        let words = compiled(&table).unwrap();
        for length in [1, 7, 8, 9, 127, 128, 129, 65_536, 200_000] {
            let parts = ["&#38;", "&#4", "&", "a", "é", "&#1234"];
            let mut text = Vec::new();
            while text.len() < length {
                text.extend(characters(random.pick::<&str>(&parts)));
            }
            text.truncate(length);
            let seen = compare_preview(&words, &Session::FRESH, &text);
            let fed = by_library(&words, Session::FRESH, &roomy_feed(&text));
            assert_eq!(
                (seen.code, seen.session, seen.count),
                (fed.code, fed.session, fed.count)
            );
        }
    }
}
