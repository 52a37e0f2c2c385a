//! Refusals 11 to 15 of feed and finish, and of previews of the same feeds: each
//! clause of a sound session, each refusal by a case, each adjacent pair of the
//! order by a case that breaks both, and that a refused call changes nothing.

use std::collections::BTreeMap;

use reference::automaton::{Automaton, TableAutomaton};
use reference::builder::{encode, TableBuilder};
use reference::compile::compiled;
use reference::lengths::MAX_RECEIVED;
use reference::machine::Status;
use reference::random::Random;
use reference::refusal::Refusal;
use reference::samples::{lookahead, random_input, random_marked_table, random_table, t1, t2};
use reference::session::{feed, finish, preview, Answer, Preview, Session};
use reference::states::StateNo;
use reference::table::{Mode, Table};
use reference::uses::{Uses, COUNTS, DEFAULT, PAIRS};
use reference::words::WORDS;

const A: u16 = 97;
const B: u16 = 98;
const STATUSES: [Status; 3] = [Status::Open, Status::Closed, Status::Stopped];

/// Feeds a copy of the session and checks that a refusal changes nothing, and that
/// a preview "is refused as feed is, except that refusal 15 can't occur".
fn fed(
    words: &[u16],
    session: Session,
    piece: &[u16],
    output: usize,
) -> Result<(Answer, Session, Vec<u16>), Refusal> {
    let fed = checked(session, output, |session, buffer| {
        feed(words, session, piece, buffer)
    });
    let seen = preview(words, &session, piece);
    match &fed {
        Ok((answer, later, _)) => {
            let expected = Preview {
                count: answer.count,
                status: answer.status,
                session: *later,
            };
            assert_eq!(seen, Ok(expected));
        }
        Err(Refusal::ShortOutput) => assert!(seen.is_ok()),
        Err(refusal) => assert_eq!(seen, Err(*refusal)),
    }
    fed
}

/// The same for a finish.
fn finished(
    words: &[u16],
    session: Session,
    output: usize,
) -> Result<(Answer, Session, Vec<u16>), Refusal> {
    checked(session, output, |session, buffer| {
        finish(words, session, buffer)
    })
}

/// A call with a buffer of sevens: refused, it changes neither session nor
/// buffer; accepted, it leaves the rest of the buffer.
fn checked(
    session: Session,
    output: usize,
    call: impl Fn(&mut Session, &mut [u16]) -> Result<Answer, Refusal>,
) -> Result<(Answer, Session, Vec<u16>), Refusal> {
    let mut after = session;
    let mut buffer = vec![7; output];
    let answer = call(&mut after, &mut buffer);
    let count = answer.map_or(0, |answer| answer.count);
    assert!(buffer[count..].iter().all(|&place| place == 7));
    if answer.is_err() {
        assert_eq!(after, session);
    }
    buffer.truncate(count);
    answer.map(|answer| (answer, after, buffer))
}

/// The words of the table `lookahead`: L is 2, E is 1, so that (L + 3) is 5.
/// State 1 is reached by `a`, state 2 by `aa` with go and end equal, state 3 by
/// `ab` with an end only.
fn words() -> Vec<u16> {
    compiled(&lookahead()).unwrap()
}

/// A table with anchored eight times character 0 and a copying default: L is 8,
/// E is 1, so that (L + 3) is 11. State d, up to 8, is reached by d characters 0,
/// which look like places not in use, and waits.
fn zeros() -> Vec<u8> {
    let table = TableBuilder::new().anchored(8).spelled(0, &"\0".repeat(8));
    table.text("Z").copying_default().bytes()
}

/// The characters that a session has consumed; none if less was received than is
/// held.
fn consumed(session: &Session) -> u64 {
    session.received.saturating_sub(session.count.into())
}

/// The session, all of whose consumed characters were the default's.
fn counted(session: Session) -> Session {
    Session {
        uses: Uses::of(&[(DEFAULT, consumed(&session))]),
        ..session
    }
}

/// An open session that holds characters at a state.
fn holding(state: u16, characters: &[u16]) -> Session {
    let mut held = [0; 8];
    held[..characters.len()].copy_from_slice(characters);
    counted(Session {
        state,
        held,
        count: characters.len() as u16,
        received: 1000,
        ..Session::FRESH
    })
}

/// An open session under T2, which has no default, that has used rule 1 for 999
/// characters and holds one.
fn holding_a_under_t2() -> Session {
    Session {
        uses: Uses::of(&[(1, 999)]),
        ..holding(1, &[A])
    }
}

/// A session of a status that holds nothing and has consumed so many characters.
fn received(received: u64, status: Status) -> Session {
    counted(Session {
        status,
        received,
        ..Session::FRESH
    })
}

/// A session that has ended.
fn ended(status: Status) -> Session {
    received(0, status)
}

/// Whether feed and finish take the session for sound.
fn is_sound(words: &[u16], session: Session) -> bool {
    let unsound = Err(Refusal::UnsoundSession);
    let by_feed = fed(words, session, &[], 64) != unsound;
    let by_finish = finished(words, session, 64) != unsound;
    assert_eq!(by_feed, by_finish);
    by_feed
}

/// The clauses of a sound session.
#[derive(Clone, Copy, Debug, PartialEq, Eq, PartialOrd, Ord)]
enum Clause {
    /// Received is at most the limit.
    Limit,
    /// Received is at least the count.
    Received,
    /// Produced is at most E times consumed.
    Produced,
    /// The count is at most 8.
    Count,
    /// The places from the count on are 0.
    Unused,
    /// Open, the held characters lead to the state.
    Path,
    /// Closed or stopped, the state is 0.
    EndedState,
    /// Closed or stopped, the count is 0.
    EndedCount,
    /// Steps are within their bound.
    Steps,
    /// The uses add up to the characters consumed.
    Sum,
    /// What the machine lacks was not used.
    Lacking,
}

/// The clauses that a session breaks, in exact numbers and by the table's own
/// states. For the others' sake a count above 8 uses eight places, and a count
/// above received leaves nothing consumed.
fn broken(automaton: &TableAutomaton, session: &Session) -> Vec<Clause> {
    let [received, produced, steps] =
        [session.received, session.produced, session.steps].map(i128::from);
    let count = i128::from(session.count);
    let consumed = (received - count).max(0);
    let (held, unused) = session.held.split_at(count.min(8) as usize);
    let open = session.status == Status::Open;
    let most_a_character = automaton.table.longest() as i128 + 3;
    let most_steps = match open {
        true => most_a_character * consumed + count,
        false => most_a_character * (consumed + 1),
    };
    let most_outputs = automaton.table.most_outputs() as i128;
    let clauses = [
        (Clause::Limit, received <= 1 << 40),
        (Clause::Received, received >= count),
        (Clause::Produced, produced <= most_outputs * consumed),
        (Clause::Count, count <= 8),
        (Clause::Unused, unused.iter().all(|&place| place == 0)),
        (Clause::Path, !open || leads(automaton, held, session.state)),
        (Clause::EndedState, open || session.state == 0),
        (Clause::EndedCount, open || count == 0),
        (Clause::Steps, steps <= most_steps),
        (
            Clause::Sum,
            taken(&automaton.table, &session.uses) == consumed,
        ),
        (Clause::Lacking, lacks_uses(&automaton.table, &session.uses)),
    ];
    let broken = clauses.into_iter().filter(|&(_, holds)| !holds);
    broken.map(|(clause, _)| clause).collect()
}

/// "The sum over rules of count times K, plus the default's count", and twice that of
/// pairs.
fn taken(table: &Table, uses: &Uses) -> i128 {
    let rules = table.rules.iter().zip(uses.0);
    let by_rules: i128 = rules
        .map(|(rule, uses)| rule.length() as i128 * i128::from(uses))
        .sum();
    let by_default = table.default.as_ref().map_or(0, |_| uses.0[DEFAULT]);
    let by_pairs = if table.marked { uses.0[PAIRS] } else { 0 };
    by_rules + i128::from(by_default) + 2 * i128::from(by_pairs)
}

/// Whether the counts of rules or a default that the table lacks are 0, and without the
/// mark that of pairs.
fn lacks_uses(table: &Table, uses: &Uses) -> bool {
    uses.0[table.rules.len()..DEFAULT]
        .iter()
        .all(|&uses| uses == 0)
        && (table.default.is_some() || uses.0[DEFAULT] == 0)
        && (table.marked || uses.0[PAIRS] == 0)
}

/// Whether characters lead from state 0 to a state by targets, none of which has
/// a go that equals its end, or are one first unit that waits at state 0.
fn leads(automaton: &TableAutomaton, characters: &[u16], state: u16) -> bool {
    if let ([unit @ 0xD800..=0xDBFF], 0, true) = (characters, state, automaton.table.marked) {
        return automaton.target(StateNo::START, *unit).is_none();
    }
    let mut reached = StateNo::START;
    for &character in characters {
        match automaton.target(reached, character) {
            Some(target) if automaton.accept_at_once(target).is_none() => reached = target,
            _ => return false,
        }
    }
    reached.0 == state
}

/// The automaton of a table's bytes.
fn automaton(table: &[u8]) -> TableAutomaton {
    TableAutomaton::of(Table::read(table).unwrap()).unwrap()
}

#[test]
fn fresh_and_reached_sessions_are_sound() {
    let words = words();
    assert!(is_sound(&words, Session::FRESH));
    assert!(is_sound(&words, holding(1, &[A])));
    assert!(is_sound(&words, holding(3, &[A, B])));
    assert!(is_sound(&words, ended(Status::Closed)));
    assert!(is_sound(&words, ended(Status::Stopped)));
}

/// Under `zeros`: asserts that a session is sound, and that a change, which the
/// default's uses follow, breaks one clause alone and is refused by 12.
fn assert_breaks(clause: Clause, sound: Session, change: impl Fn(&mut Session)) {
    let mut changed = sound;
    change(&mut changed);
    assert_broken(clause, &zeros(), sound, counted(changed));
}

/// Under a table: asserts that a session is sound, and that another breaks one
/// clause alone and is refused by 12.
fn assert_broken(clause: Clause, table: &[u8], sound: Session, changed: Session) {
    let (words, automaton) = (compiled(table).unwrap(), automaton(table));
    assert_eq!(broken(&automaton, &sound), []);
    assert!(is_sound(&words, sound), "{sound:?}");
    assert_eq!(broken(&automaton, &changed), [clause], "{changed:?}");
    assert!(!is_sound(&words, changed), "{changed:?}");
}

/// The open session that holds so many characters 0.
fn deep(count: u16) -> Session {
    holding(count, &[0; 8][..usize::from(count)])
}

#[test]
fn each_clause_of_an_open_session_broken_alone_is_refused_by_12() {
    assert_breaks(Clause::Limit, deep(8), |s| s.received = MAX_RECEIVED + 1);
    assert_breaks(Clause::Received, deep(1), |s| s.received = 0);
    assert_breaks(Clause::Received, deep(8), |s| s.received = 7);
    assert_breaks(Clause::Produced, deep(0), |s| s.produced = 1001);
    assert_breaks(Clause::Produced, deep(8), |s| s.produced = 993);
    assert_breaks(Clause::Count, deep(8), |s| s.count = 9);
    assert_breaks(Clause::Count, deep(8), |s| s.count = 264);
    assert_breaks(Clause::Unused, deep(0), |s| s.held[0] = 1);
    assert_breaks(Clause::Unused, deep(2), |s| s.held[2] = 1);
    assert_breaks(Clause::Unused, deep(7), |s| s.held[7] = 1);
    assert_breaks(Clause::Path, deep(0), |s| s.count = 1);
    assert_breaks(Clause::Path, deep(1), |s| s.count = 0);
    assert_breaks(Clause::Path, deep(7), |s| s.count = 8);
    assert_breaks(Clause::Path, deep(8), |s| s.count = 7);
    assert_breaks(Clause::Path, deep(8), |s| s.held[7] = 1);
    assert_breaks(Clause::Path, deep(8), |s| s.state = 7);
    assert_breaks(Clause::Path, deep(8), |s| s.state = 9);
    assert_breaks(Clause::Steps, deep(0), |s| s.steps = 11 * 1000 + 1);
    assert_breaks(Clause::Steps, deep(8), |s| s.steps = 11 * 992 + 8 + 1);
}

#[test]
fn each_clause_of_an_ended_session_broken_alone_is_refused_by_12() {
    for status in [Status::Closed, Status::Stopped] {
        let ended = Session { status, ..deep(0) };
        assert_breaks(Clause::Limit, ended, |s| s.received = MAX_RECEIVED + 1);
        assert_breaks(Clause::Produced, ended, |s| s.produced = 1001);
        assert_breaks(Clause::Unused, ended, |s| s.held[0] = 1);
        assert_breaks(Clause::Unused, ended, |s| s.held[7] = 1);
        assert_breaks(Clause::EndedState, ended, |s| s.state = 1);
        assert_breaks(Clause::EndedState, ended, |s| s.state = 9);
        assert_breaks(Clause::EndedCount, ended, |s| s.count = 1);
        assert_breaks(Clause::EndedCount, ended, |s| s.count = 8);
        assert_breaks(Clause::Steps, ended, |s| s.steps = 11 * 1001 + 1);
        // A count above 8 or above received breaks the count's 0 as well.
    }
}

#[test]
fn sound_received_is_at_most_the_limit() {
    let words = words();
    for status in STATUSES {
        assert!(is_sound(&words, received(1_099_511_627_776, status)));
        assert!(!is_sound(&words, received(1_099_511_627_777, status)));
        assert!(!is_sound(&words, received(u64::MAX, status)));
    }
}

#[test]
fn sound_received_is_at_least_the_count() {
    let words = words();
    let received = |received| {
        counted(Session {
            received,
            ..holding(3, &[A, B])
        })
    };
    assert!(is_sound(&words, received(2)));
    assert!(!is_sound(&words, received(1)));
    assert!(!is_sound(&words, received(0)));
}

#[test]
fn sound_produced_is_at_most_e_times_consumed() {
    let words = words();
    let holding = |produced| Session {
        produced,
        ..holding(1, &[A])
    };
    assert!(is_sound(&words, holding(999)));
    assert!(!is_sound(&words, holding(1000)));
    for status in STATUSES {
        let produced = |produced| Session {
            produced,
            ..received(10, status)
        };
        assert!(is_sound(&words, produced(10)));
        assert!(!is_sound(&words, produced(11)));
        assert!(!is_sound(&words, produced(u64::MAX)));
    }
    // E is 5 under T1.
    let t1 = compiled(&t1()).unwrap();
    let produced = |produced| Session {
        produced,
        ..received(10, Status::Open)
    };
    assert!(is_sound(&t1, produced(50)));
    assert!(!is_sound(&t1, produced(51)));
}

#[test]
fn sound_count_is_at_most_8_and_the_length_of_the_way_to_the_state() {
    let words = compiled(&zeros()).unwrap();
    for state in 0..=9 {
        // 256 + d and 65535 would pass for less in fewer bits.
        for count in (0..=17).chain(255..=265).chain([u16::MAX]) {
            let session = counted(Session {
                count,
                ..holding(state, &[])
            });
            let sound = state <= 8 && count == state;
            assert_eq!(is_sound(&words, session), sound, "{state} {count}");
        }
    }
}

#[test]
fn sound_places_from_the_count_on_are_zero() {
    let words = words();
    for sound in [holding(0, &[]), holding(1, &[A]), holding(3, &[A, B])] {
        for place in usize::from(sound.count)..8 {
            for character in [1, A, B, u16::MAX] {
                let mut session = sound;
                session.held[place] = character;
                assert!(!is_sound(&words, session), "{place}");
            }
        }
    }
}

#[test]
fn sound_places_below_the_count_may_be_zero() {
    let words = compiled(&zeros()).unwrap();
    assert!(is_sound(&words, holding(3, &[0, 0, 0])));
    assert!(!is_sound(&words, holding(3, &[0, 0, 1])));
    assert!(!is_sound(&words, holding(3, &[1, 0, 0])));
    assert!(!is_sound(&words, holding(0, &[0, 0, 0])));
}

#[test]
fn sound_open_sessions_have_a_state_below_the_number_of_states() {
    let words = words();
    assert_eq!(words[0], 4);
    for state in [4, 5, 255, 256, u16::MAX] {
        assert!(!is_sound(&words, holding(state, &[])));
        assert!(!is_sound(&words, holding(state, &[A])));
    }
}

#[test]
fn sound_held_characters_lead_to_the_state() {
    let words = words();
    assert!(!is_sound(&words, holding(1, &[B])));
    assert!(!is_sound(&words, holding(1, &[])));
    assert!(!is_sound(&words, holding(3, &[A, A])));
    assert!(!is_sound(&words, holding(3, &[B, B])));
    assert!(!is_sound(&words, holding(0, &[A])));
    // Under T1 `&#0` leads to state 3, `&#1` to state 4, both three deep.
    let t1 = compiled(&t1()).unwrap();
    for (digit, state) in [(48, 3), (49, 4)] {
        assert!(is_sound(&t1, holding(state, &[38, 35, digit])));
        assert!(!is_sound(&t1, holding(7 - state, &[38, 35, digit])));
    }
}

#[test]
fn sound_held_characters_do_not_lead_to_a_state_that_emits_at_once() {
    assert!(!is_sound(&words(), holding(2, &[A, A])));
    let broken = broken(&automaton(&lookahead()), &holding(2, &[A, A]));
    assert_eq!(broken, [Clause::Path]);
    // A go that differs from the end waits for the next character.
    assert!(is_sound(&compiled(&t2()).unwrap(), holding_a_under_t2()));
}

#[test]
fn sound_open_steps_are_at_most_5_times_consumed_plus_the_count() {
    let words = words();
    let steps = |steps| {
        counted(Session {
            received: 12,
            steps,
            ..holding(3, &[A, B])
        })
    };
    assert!(is_sound(&words, steps(52)));
    assert!(!is_sound(&words, steps(53)));
    assert!(!is_sound(&words, steps(u64::MAX)));
    // Nothing consumed, so that each of eight characters was taken once.
    let taken = |steps| {
        counted(Session {
            received: 8,
            steps,
            ..holding(8, &[0; 8])
        })
    };
    let zeros = compiled(&zeros()).unwrap();
    assert!(is_sound(&zeros, taken(8)));
    assert!(!is_sound(&zeros, taken(9)));
}

#[test]
fn sound_ended_steps_are_at_most_5_times_consumed_and_one() {
    let words = words();
    for status in [Status::Closed, Status::Stopped] {
        let steps = |steps| Session {
            steps,
            ..received(10, status)
        };
        assert!(is_sound(&words, steps(55)));
        assert!(!is_sound(&words, steps(56)));
    }
}

#[test]
fn sound_ended_sessions_are_at_state_0_with_nothing_held() {
    let words = words();
    for status in [Status::Closed, Status::Stopped] {
        let at = |session| Session { status, ..session };
        assert!(is_sound(&words, at(holding(0, &[]))));
        assert!(!is_sound(&words, at(holding(1, &[A]))));
        assert!(!is_sound(&words, at(holding(1, &[]))));
        assert!(!is_sound(&words, at(holding(0, &[A]))));
        assert!(!is_sound(&words, at(holding(4, &[]))));
        // A character 0 counts though its place looks unused.
        assert!(!is_sound(&words, at(holding(0, &[0]))));
    }
}

/// A table of so many rules, the one of a number being `a` and then any
/// characters, of length 1 to 8 in turn; without a default, with one, or with a marked
/// one.
fn of_all_lengths(count: usize, mode: Mode) -> Vec<u8> {
    let rule = |table: TableBuilder, number: usize| {
        let length = number % 8 + 1;
        let table = table.rule(length).spelled(0, "a");
        (1..length).fold(table, |table, position| table.range(position, 0, u16::MAX))
    };
    let table = (0..count).fold(TableBuilder::new(), rule);
    match mode {
        Mode::Absent => table.bytes(),
        Mode::Single => table.copying_default().bytes(),
        Mode::Paired => table.marked_default().copy().bytes(),
    }
}

/// How many characters one use takes, by the place of its count in these tables.
fn weight(place: usize) -> u64 {
    match place {
        DEFAULT => 1,
        PAIRS => 2,
        rule => rule as u64 % 8 + 1,
    }
}

/// A session that has consumed 840 characters, by these uses. 840 is a multiple of
/// every length.
fn consumed_840(uses: &[(usize, u64)]) -> Session {
    Session {
        received: 840,
        uses: Uses::of(uses),
        ..Session::FRESH
    }
}

/// Each of the 34 counts weighs as much as its group's K, the default's 1, a pair's 2.
#[test]
fn sound_uses_add_up_to_the_characters_consumed() {
    let table = of_all_lengths(32, Mode::Paired);
    for place in 0..COUNTS {
        let length = weight(place);
        let all = 840 / length;
        let sound = consumed_840(&[(place, all)]);
        for uses in [0, 1, all - 1, all + 1, u64::MAX] {
            let changed = consumed_840(&[(place, uses)]);
            assert_broken(Clause::Sum, &table, sound, changed);
        }
        // The rest by another group.
        let other = if place == DEFAULT { 0 } else { DEFAULT };
        let sound = consumed_840(&[(place, all - 1), (other, length)]);
        for rest in [0, length - 1, length + 1] {
            let changed = consumed_840(&[(place, all - 1), (other, rest)]);
            if changed != sound {
                assert_broken(Clause::Sum, &table, sound, changed);
            }
        }
    }
}

/// Uses that go over to another rule of the same K are not told apart; over to
/// one of another K they are, and so with the default and pairs.
#[test]
fn sound_uses_may_move_between_rules_of_one_length() {
    let table = of_all_lengths(32, Mode::Paired);
    let words = compiled(&table).unwrap();
    for (from, to) in pairs(&[0, 1, 7, 12, 31, PAIRS], &(0..COUNTS).collect::<Vec<_>>()) {
        let sound = consumed_840(&[(from, 840 / weight(from))]);
        let mut moved = sound;
        moved.uses.0[from] -= 1;
        moved.uses.0[to] += 1;
        match weight(from) == weight(to) {
            true => assert!(is_sound(&words, moved), "{from} {to}"),
            false => assert_broken(Clause::Sum, &table, sound, moved),
        }
    }
}

/// Each count that the machine lacks, with any number in it.
#[test]
fn sound_sessions_have_no_uses_of_what_the_machine_lacks() {
    let modes = [Mode::Absent, Mode::Single, Mode::Paired];
    for (rules, mode) in pairs(&[1, 2, 31, 32], &modes) {
        let table = of_all_lengths(rules, mode);
        let sound = consumed_840(&[(0, 840)]);
        let default = (mode == Mode::Absent).then_some(DEFAULT);
        let paired = (mode != Mode::Paired).then_some(PAIRS);
        let lacking = (rules..DEFAULT).chain(default).chain(paired);
        for (place, uses) in pairs(&lacking.collect::<Vec<_>>(), &[1, 840, 1 << 61, u64::MAX]) {
            let changed = consumed_840(&[(0, 840), (place, uses)]);
            assert_broken(Clause::Lacking, &table, sound, changed);
        }
    }
}

/// Nor have they where the sum fits with them, one for each character.
#[test]
fn sound_sessions_have_no_uses_of_a_lacking_default_for_those_of_a_rule() {
    let modes = [Mode::Single, Mode::Absent];
    let [with, without] = modes.map(|mode| compiled(&of_all_lengths(31, mode)).unwrap());
    for (rules, default) in [(0, 840), (1, 839), (839, 1)] {
        let session = consumed_840(&[(0, rules), (DEFAULT, default)]);
        assert!(is_sound(&with, session));
        assert!(!is_sound(&without, session));
        let session = consumed_840(&[(0, rules), (31, default)]);
        assert!(!is_sound(&without, session));
    }
}

/// The same of pairs without the mark, two for each.
#[test]
fn sound_sessions_have_no_uses_of_pairs_without_the_mark() {
    let modes = [Mode::Absent, Mode::Single, Mode::Paired];
    let [absent, single, paired] = modes.map(|mode| compiled(&of_all_lengths(31, mode)).unwrap());
    for (rules, pairs) in [(0, 420), (2, 419), (838, 1)] {
        let session = consumed_840(&[(0, rules), (PAIRS, pairs)]);
        assert!(is_sound(&paired, session));
        assert!(!is_sound(&single, session));
        assert!(!is_sound(&absent, session));
    }
}

/// Sums that are right modulo 2^64 alone: 2^61 uses of K = 8 and 2^62 of K = 4 add
/// 2^64 each, and so do 2^64 - 8 uses of K = 1 with one of K = 8, and 2^63 pairs.
#[test]
fn sound_uses_do_not_wrap_around() {
    let table = of_all_lengths(32, Mode::Paired);
    let sound = consumed_840(&[(0, 840)]);
    let wrapping: [&[(usize, u64)]; 6] = [
        &[(0, 840), (PAIRS, 1 << 63)],
        &[(0, 840), (7, 1 << 61)],
        &[(0, 840), (3, 1 << 62)],
        &[(0, 840), (7, 7 << 61)],
        &[(7, 106), (DEFAULT, u64::MAX - 7)],
        &[(0, 840), (1, 1 << 63), (9, 1 << 63), (31, 1 << 61)],
    ];
    for uses in wrapping {
        let terms = uses
            .iter()
            .map(|&(place, uses)| uses.wrapping_mul(weight(place)));
        assert_eq!(terms.fold(0, u64::wrapping_add), 840);
        assert_broken(Clause::Sum, &table, sound, consumed_840(uses));
    }
}

#[test]
fn any_numbers_are_sound_or_refused_by_12_without_an_overflow() {
    let (words, automaton) = (compiled(&zeros()).unwrap(), automaton(&zeros()));
    let numbers = [0, 1, 7, 8, 9, MAX_RECEIVED, MAX_RECEIVED + 1, u64::MAX];
    let (mut sound, mut unsound) = (0, 0);
    for status in STATUSES {
        for (state, count) in pairs(&[0, 1, 8, 9, u16::MAX], &[0, 1, 8, 9, 256, u16::MAX]) {
            for (received, (produced, steps)) in pairs(&numbers, &pairs(&numbers, &numbers)) {
                let session = counted(Session {
                    status,
                    state,
                    count,
                    received,
                    produced,
                    steps,
                    ..Session::FRESH
                });
                let expected = broken(&automaton, &session).is_empty();
                assert_eq!(is_sound(&words, session), expected, "{session:?}");
                *(if expected { &mut sound } else { &mut unsound }) += 1;
            }
        }
    }
    assert!(sound > 200, "{sound}");
    assert!(unsound > 20_000, "{unsound}");
}

/// Each of the first with each of the second.
fn pairs<S: Copy, T: Copy>(first: &[S], second: &[T]) -> Vec<(S, T)> {
    let pairs_of = |&one: &S| second.iter().map(move |&other| (one, other));
    first.iter().flat_map(pairs_of).collect()
}

/// A session with one field changed, most often by little. Of the changes of
/// received and of the count the default's uses follow every second.
fn damaged(random: &mut Random, session: &Session) -> Session {
    let mut damaged = *session;
    let more = match random.below(8) {
        0 => random.number(),
        _ => random.between(-2, 2) as u64,
    };
    let near = |number: u64| number.wrapping_add(more);
    match random.below(8) {
        0 => damaged.status = *random.pick(&STATUSES),
        1 => damaged.state = near(damaged.state.into()) as u16,
        2 => {
            let place = random.below(8);
            damaged.held[place] = near(damaged.held[place].into()) as u16;
        }
        3 => damaged.count = near(damaged.count.into()) as u16,
        4 => damaged.received = near(damaged.received),
        5 => damaged.produced = near(damaged.produced),
        6 => damaged.steps = near(damaged.steps),
        _ => {
            let any = random.below(COUNTS);
            let place = *random.pick(&[0, 1, any, DEFAULT, PAIRS]);
            damaged.uses.0[place] = near(damaged.uses.0[place]);
        }
    }
    if random.one_in(2) {
        let more = consumed(&damaged).wrapping_sub(consumed(session));
        damaged.uses.0[DEFAULT] = damaged.uses.0[DEFAULT].wrapping_add(more);
    }
    damaged
}

#[test]
fn damaged_sessions_are_sound_or_refused_by_12() {
    let mut random = Random::new(45);
    let mut seen: BTreeMap<Vec<Clause>, usize> = BTreeMap::new();
    for number in 0..4000 {
        let table = match number % 4 {
            0 => random_marked_table(&mut random),
            _ => random_table(&mut random),
        };
        let Ok(words) = compiled(&encode(&table)) else {
            continue;
        };
        let automaton = automaton(&encode(&table));
        let mut session = Session::FRESH;
        for character in random_input(&mut random, &table, 12) {
            // A refusal by 13 leaves the session as it is.
            let _ = feed(&words, &mut session, &[character], &mut [0; 72]);
            assert_eq!(broken(&automaton, &session), []);
            for _ in 0..6 {
                let mut session = damaged(&mut random, &session);
                if random.one_in(2) {
                    session = damaged(&mut random, &session);
                }
                let broken = broken(&automaton, &session);
                assert_eq!(is_sound(&words, session), broken.is_empty(), "{session:?}");
                *seen.entry(broken).or_default() += 1;
            }
        }
    }
    // Sound, and each clause alone. Few sessions hold eight characters, so that
    // a count above 8 mostly breaks more.
    let least: [(&[Clause], usize); 11] = [
        (&[], 5000),
        (&[Clause::Limit], 100),
        (&[Clause::Received], 100),
        (&[Clause::Produced], 100),
        (&[Clause::Unused], 1000),
        (&[Clause::Path], 1000),
        (&[Clause::EndedState], 500),
        (&[Clause::EndedCount], 100),
        (&[Clause::Steps], 100),
        (&[Clause::Sum], 500),
        (&[Clause::Lacking], 500),
    ];
    for (broken, least) in least {
        let count = seen.get(broken).copied().unwrap_or(0);
        assert!(count > least, "{broken:?}: {seen:?}");
    }
}

#[test]
fn refusal_11_short_words() {
    let words = words();
    for length in [0, 1, WORDS - 1] {
        let short = &words[..length];
        assert_eq!(
            fed(short, Session::FRESH, &[], 9),
            Err(Refusal::UnsoundWords)
        );
        assert_eq!(
            finished(short, Session::FRESH, 9),
            Err(Refusal::UnsoundWords)
        );
    }
}

#[test]
fn refusal_13_closed_or_stopped() {
    for status in [Status::Closed, Status::Stopped] {
        assert_eq!(fed(&words(), ended(status), &[A], 9), Err(Refusal::Ended));
        assert_eq!(finished(&words(), ended(status), 9), Err(Refusal::Ended));
    }
}

#[test]
fn refusal_14_received_plus_piece_above_the_limit() {
    let words = words();
    let near = received(MAX_RECEIVED - 2, Status::Open);
    let (answer, after, text) = fed(&words, near, &[B, B], 2).unwrap();
    assert_eq!((answer.count, answer.status), (2, Status::Open));
    assert_eq!(text, [B, B]);
    // Back, take and emit for each.
    let full = received(MAX_RECEIVED, Status::Open);
    let expected = Session {
        produced: 2,
        steps: 6,
        ..full
    };
    assert_eq!(after, expected);
    assert_eq!(fed(&words, near, &[B, B, B], 3), Err(Refusal::TooLong));
    // At the limit only an empty piece is fed.
    assert_eq!(fed(&words, full, &[B], 1), Err(Refusal::TooLong));
    assert!(fed(&words, full, &[], 0).is_ok());
    assert!(finished(&words, full, 0).is_ok());
}

#[test]
fn refusal_14_counts_held_characters_as_received() {
    let words = words();
    let near = counted(Session {
        received: MAX_RECEIVED - 1,
        ..holding(1, &[A])
    });
    assert!(fed(&words, near, &[B], 2).is_ok());
    assert_eq!(fed(&words, near, &[B, B], 3), Err(Refusal::TooLong));
}

#[test]
fn refusal_15_output_shorter_than_e_times_count_and_piece() {
    let words = words();
    let holding = holding(3, &[A, B]);
    assert!(fed(&words, holding, &[B; 5], 7).is_ok());
    assert_eq!(fed(&words, holding, &[B; 5], 6), Err(Refusal::ShortOutput));
    assert!(finished(&words, holding, 2).is_ok());
    assert_eq!(finished(&words, holding, 1), Err(Refusal::ShortOutput));
    // E is 5 under T1.
    let t1 = compiled(&t1()).unwrap();
    assert!(fed(&t1, Session::FRESH, &[A; 3], 15).is_ok());
    assert_eq!(
        fed(&t1, Session::FRESH, &[A; 3], 14),
        Err(Refusal::ShortOutput)
    );
    // Held characters 0 count as others do.
    let zeros = compiled(&zeros()).unwrap();
    let three = self::holding(3, &[0; 3]);
    assert!(fed(&zeros, three, &[0], 4).is_ok());
    assert_eq!(fed(&zeros, three, &[0], 3), Err(Refusal::ShortOutput));
    assert!(finished(&zeros, three, 3).is_ok());
    assert_eq!(finished(&zeros, three, 2), Err(Refusal::ShortOutput));
}

#[test]
fn order_11_then_12() {
    let mut words = words();
    words[0] = 0;
    let unsound = Session {
        received: u64::MAX,
        ..Session::FRESH
    };
    assert_eq!(fed(&words, unsound, &[A], 0), Err(Refusal::UnsoundWords));
    assert_eq!(finished(&words, unsound, 0), Err(Refusal::UnsoundWords));
}

#[test]
fn order_12_then_13() {
    let unsound = Session {
        produced: 1,
        ..ended(Status::Closed)
    };
    assert_eq!(
        fed(&words(), unsound, &[A], 9),
        Err(Refusal::UnsoundSession)
    );
    assert_eq!(finished(&words(), unsound, 9), Err(Refusal::UnsoundSession));
}

#[test]
fn order_13_then_14() {
    let full = received(MAX_RECEIVED, Status::Stopped);
    assert_eq!(fed(&words(), full, &[A], 9), Err(Refusal::Ended));
    // A finish has no piece, and a sound session's received is not above the
    // limit, so that 14 never refuses a finish. Nothing is held once the session
    // has ended, so that 15 doesn't come together with 13 either.
    assert_eq!(finished(&words(), full, 0), Err(Refusal::Ended));
}

#[test]
fn order_14_then_15() {
    let full = received(MAX_RECEIVED, Status::Open);
    assert_eq!(fed(&words(), full, &[A], 0), Err(Refusal::TooLong));
    // The same in a finish, where 14 can't refuse: 15 alone.
    let holding = counted(Session {
        received: MAX_RECEIVED,
        ..holding(1, &[A])
    });
    assert_eq!(finished(&words(), holding, 0), Err(Refusal::ShortOutput));
}

#[test]
fn a_stop_drops_what_is_unread_and_received_becomes_consumed() {
    let words = compiled(&t2()).unwrap();
    let piece = [A, A, B, A, A];
    let (answer, after, text) = fed(&words, Session::FRESH, &piece, 5).unwrap();
    assert_eq!((answer.count, answer.status), (2, Status::Stopped));
    assert_eq!(text, [89, 89]);
    // Take and emit rule 1 for each `a`, then back and stop.
    let expected = Session {
        status: Status::Stopped,
        received: 2,
        produced: 2,
        steps: 6,
        uses: Uses::of(&[(1, 2)]),
        ..Session::FRESH
    };
    assert_eq!(after, expected);
    // A held `a` is emitted before the stop.
    let (_, after, text) = fed(&words, holding_a_under_t2(), &[B, A], 3).unwrap();
    assert_eq!(text, [89]);
    let expected = Session {
        status: Status::Stopped,
        received: 1000,
        produced: 1,
        steps: 3,
        uses: Uses::of(&[(1, 1000)]),
        ..Session::FRESH
    };
    assert_eq!(after, expected);
}

#[test]
fn after_a_call_the_count_is_the_number_of_characters_in_the_store() {
    let words = compiled(&zeros()).unwrap();
    let mut session = Session::FRESH;
    for taken in 1..=8 {
        session = fed(&words, session, &[0], 8).unwrap().1;
        let expected = Session {
            state: taken,
            count: taken,
            received: taken.into(),
            steps: taken.into(),
            ..Session::FRESH
        };
        assert_eq!(session, expected);
    }
    // A ninth 0: back, take, emit by the default, and eight takes.
    let (_, session, text) = fed(&words, session, &[0], 9).unwrap();
    assert_eq!(text, [0]);
    let expected = Session {
        state: 8,
        count: 8,
        received: 9,
        produced: 1,
        steps: 19,
        uses: Uses::of(&[(DEFAULT, 1)]),
        ..Session::FRESH
    };
    assert_eq!(session, expected);
    // At the end an emit and a close.
    let (_, session, text) = finished(&words, session, 8).unwrap();
    assert_eq!(text, [90]);
    let expected = Session {
        status: Status::Closed,
        received: 9,
        produced: 2,
        steps: 21,
        uses: Uses::of(&[(0, 1), (DEFAULT, 1)]),
        ..Session::FRESH
    };
    assert_eq!(session, expected);
}
