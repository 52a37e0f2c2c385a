//! The output that a feed or a finish needs and the longest piece for an output: with
//! one character less, or a piece longer by one, the call is refused. And the version.

use crate::tables::{plain, t1, units};
use cobbletwill::raw::USES_DEFAULT;
use cobbletwill::{version, Machine, Refusal, Session, MAX_CHARACTERS};

/// A session that was fed a text.
fn fed(machine: &Machine, text: &str) -> Session {
    let mut session = Session::fresh();
    let output = &mut [0; 99];
    session
        .feed(machine, &units(text), output)
        .expect("accepted");
    session
}

/// What a feed of so many `0` into so much output is refused by, if it is.
fn feed(session: Session, machine: &Machine, length: usize, room: usize) -> Option<Refusal> {
    let (mut later, piece) = (session, vec![48; length]);
    later.feed(machine, &piece, &mut vec![0; room]).err()
}

/// What a finish into so much output is refused by, if it is.
fn finish(session: Session, machine: &Machine, room: usize) -> Option<Refusal> {
    let mut later = session;
    later.finish(machine, &mut vec![0; room]).err()
}

/// T1 writes up to five characters for one, and holds up to four.
#[test]
fn a_call_with_just_that_room_is_accepted() {
    let machine = Machine::compile(&t1()).expect("compiles");
    for (text, held) in [("", 0), ("&", 1), ("a&#", 2), ("&#0", 3), ("&#00", 4)] {
        let session = fed(&machine, text);
        let room = session.finish_room(&machine);
        assert_eq!(room, 5 * held, "{text}");
        assert_eq!(finish(session, &machine, room), None);
        if room > 0 {
            let short = finish(session, &machine, room - 1);
            assert_eq!(short, Some(Refusal::ShortOutput));
        }
        for length in 1..20 {
            let room = session.feed_room(&machine, length);
            assert_eq!(room, 5 * (held + length), "{text}");
            assert_eq!(feed(session, &machine, length, room), None);
            let short = feed(session, &machine, length, room - 1);
            assert_eq!(short, Some(Refusal::ShortOutput));
        }
    }
}

#[test]
fn the_longest_piece_is_accepted_and_no_longer_one() {
    let machine = Machine::compile(&t1()).expect("compiles");
    for (text, held) in [("", 0), ("&", 1), ("a&#", 2), ("&#0", 3), ("&#00", 4)] {
        let session = fed(&machine, text);
        for room in 0..100 {
            let length = session.longest_piece(&machine, room);
            let longer = feed(session, &machine, length + 1, room);
            assert_eq!(longer, Some(Refusal::ShortOutput), "{text} {room}");
            let refusal = (room < 5 * held).then_some(Refusal::ShortOutput);
            assert_eq!(feed(session, &machine, length, room), refusal);
            assert!(refusal.is_none() || length == 0);
        }
    }
}

/// Rules without output, which take `0`: nothing is divided by E, which is 0.
#[test]
fn a_machine_that_writes_nothing_needs_no_room() {
    let table = plain("0", false, "").concat();
    let machine = Machine::compile(&table).expect("compiles");
    let mut session = Session::fresh();
    assert_eq!(machine.expansion(), 0);
    assert_eq!(session.feed_room(&machine, usize::MAX), 0);
    assert_eq!(session.longest_piece(&machine, 0) as u64, MAX_CHARACTERS);
    (session.received, session.uses[0]) = (MAX_CHARACTERS - 3, MAX_CHARACTERS - 3);
    assert_eq!(session.longest_piece(&machine, 0), 3);
    assert_eq!(feed(session, &machine, 3, 0), None);
    assert_eq!(feed(session, &machine, 4, 0), Some(Refusal::TooLong));
}

#[test]
fn near_the_limit_of_characters_the_piece_is_no_longer_than_that() {
    let machine = Machine::compile(&t1()).expect("compiles");
    let mut session = Session::fresh();
    session.received = MAX_CHARACTERS - 4;
    session.uses[USES_DEFAULT] = session.received;
    assert_eq!(session.longest_piece(&machine, usize::MAX), 4);
    assert_eq!(feed(session, &machine, 4, 20), None);
    assert_eq!(feed(session, &machine, 5, 25), Some(Refusal::TooLong));
    assert_eq!(session.longest_piece(&machine, 19), 3);
}

/// "0 for a session that can't be sound": the call is made, and says why not.
#[test]
fn a_session_that_is_not_sound_needs_no_room() {
    let machine = Machine::compile(&t1()).expect("compiles");
    for held_count in [9, 255, 65535] {
        let mut session = Session::fresh();
        session.held_count = held_count;
        let rooms = (
            session.feed_room(&machine, 7),
            session.finish_room(&machine),
        );
        assert_eq!((rooms, session.longest_piece(&machine, 99)), ((0, 0), 0));
        assert_eq!(feed(session, &machine, 7, 0), Some(Refusal::UnsoundSession));
        assert_eq!(finish(session, &machine, 0), Some(Refusal::UnsoundSession));
    }
    let mut session = Session::fresh();
    session.received = u64::MAX;
    assert_eq!(session.longest_piece(&machine, 99), 0);
    assert_eq!(session.feed_room(&machine, usize::MAX), usize::MAX);
}

#[test]
fn the_library_has_the_version_of_this_package() {
    let numbers = env!("CARGO_PKG_VERSION").split('.');
    let numbers: Vec<u32> = numbers
        .map(|number| number.parse().expect("a number"))
        .collect();
    let [major, minor, patch] = numbers[..] else {
        panic!("{numbers:?}");
    };
    assert_eq!(version(), 65536 * major + 256 * minor + patch);
}
