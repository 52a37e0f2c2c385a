//! Request \[9\]: what Definition 7 chooses at a place of a whole input, the ways for an
//! input to go on, by hand, and that sessions hold nothing without need.

use reference::automaton::TableAutomaton;
use reference::builder::{characters, encode, TableBuilder};
use reference::compile::compiled;
use reference::machine::Status;
use reference::meaning::Choice;
use reference::needs::{chosen_at, AtPlace, Trial, Way};
use reference::random::Random;
use reference::reckoning::{reckon, Call};
use reference::samples::{
    lookahead, random_input, random_marked_table, random_table, t1, t1_marked, t2, t3, units,
};
use reference::session::{feed, Session};
use reference::table::{RuleNo, Table};
use reference::trial::{text_count, texts};

mod letters;
use letters::{A, B, HIGH, LAST_HIGH, LAST_LOW, LOW};

/// The seed of the random tables.
const SEED: u64 = 99;
/// How many small tables of each sort are tried.
const TABLES: usize = 1_500;
/// The most ways of a table that is tried.
const WAYS: usize = 400;
/// The most characters of an input.
const LONGEST_INPUT: usize = 20;

const DEFAULT: AtPlace = AtPlace::Chosen(Choice::Default);
const PAIR: AtPlace = AtPlace::Chosen(Choice::Pair);
const STOP: AtPlace = AtPlace::Stop;

/// A rule by its number.
const fn rule(number: u16) -> AtPlace {
    AtPlace::Chosen(Choice::Rule(RuleNo(number)))
}

/// A table that is accepted.
fn read(bytes: &[u8]) -> Table {
    Table::read(bytes).expect("accepted")
}

/// What is chosen at each place of an input, behind its end too.
fn at_each_place(table: &[u8], input: &[u16]) -> Vec<Option<AtPlace>> {
    let places = 0..input.len() + 2;
    places
        .map(|place| chosen_at(&read(table), input, place))
        .collect()
}

/// Two ways found at a place: they differ, each is what it says it is, and the first is
/// no longer than the other.
fn two_ways(table: &Table, input: &[u16], place: usize) -> Option<[Way; 2]> {
    let two = Trial::of(table).two_ways(input, place)?;
    for Way { text, chosen } in &two {
        let whole = [input, text].concat();
        assert_eq!(chosen_at(table, &whole, place), Some(*chosen), "{whole:?}");
    }
    assert_ne!(two[0].chosen, two[1].chosen, "{input:?} at {place}");
    assert!(two[0].text.len() <= two[1].text.len(), "{two:?}");
    Some(two)
}

/// Ways by hand, each with the choice at a place, in which all choices occur that any
/// way has there.
fn assert_ways(table: &[u8], input: &[u16], place: usize, ways: &[(&[u16], AtPlace)]) {
    let table = read(table);
    for &(way, chosen) in ways {
        let whole = [input, way].concat();
        assert_eq!(chosen_at(&table, &whole, place), Some(chosen), "{whole:x?}");
    }
    let expected = |choice: &AtPlace| ways.iter().any(|(_, chosen)| chosen == choice);
    let trial = Trial::of(&table);
    let mut tried = trial.ways(input, place);
    assert!(tried.all(|way| expected(&way.chosen)), "{input:x?}");
    for (_, chosen) in ways {
        let mut tried = trial.ways(input, place);
        assert!(tried.any(|way| way.chosen == *chosen), "{chosen:?}");
    }
    let is_open = ways.iter().any(|(_, chosen)| *chosen != ways[0].1);
    assert_eq!(two_ways(&table, input, place).is_some(), is_open);
}

/// The same for texts that are spelled.
fn assert_spelled(table: &[u8], input: &str, place: usize, ways: &[(&str, AtPlace)]) {
    let ways = ways.iter().map(|&(way, chosen)| (characters(way), chosen));
    let ways: Vec<(Vec<u16>, AtPlace)> = ways.collect();
    let ways: Vec<(&[u16], AtPlace)> = ways.iter().map(|(way, at)| (&way[..], *at)).collect();
    assert_ways(table, &characters(input), place, &ways);
}

/// T1 on `A&#00;&#`: the default on `A`, rule 0 on five characters, of which the other
/// four have no choice, and the anchored rule on the last two.
#[test]
fn choices_at_the_places_of_an_input() {
    let mut expected = vec![Some(DEFAULT), Some(rule(0)), None, None, None, None];
    expected.extend([Some(rule(2)), None, None, None]);
    assert_eq!(at_each_place(&t1(), &characters("A&#00;&#")), expected);
    assert_eq!(at_each_place(&t1(), &[]), [None, None]);
    // Of a pair the second unit has no choice; alone it has.
    let pairs = [Some(PAIR), None, Some(DEFAULT), Some(DEFAULT), None, None];
    assert_eq!(at_each_place(&t1_marked(), &[HIGH, LOW, LOW, HIGH]), pairs);
    let alone = [Some(DEFAULT), Some(DEFAULT), None, None];
    assert_eq!(at_each_place(&t1(), &[HIGH, LOW]), alone);
}

/// T2 stops at `b`, and chooses nothing behind it.
#[test]
fn nothing_is_chosen_behind_a_stop() {
    let expected = [Some(rule(1)), Some(STOP), None, None, None];
    assert_eq!(at_each_place(&t2(), &characters("aba")), expected);
    let table = read(&t2());
    let (input, trial) = (characters("ab"), Trial::of(&table));
    assert_eq!(trial.ways(&input, 2).next(), None);
    assert_eq!(two_ways(&table, &input, 2), None);
    assert!(trial.is_settled_before(&input, 2));
}

/// `&#00;` is rule 0, `&#` with two digits and `;` rule 1, `&#` at the end rule 2, and
/// else the default takes `&`. Once a digit has come, rule 2 can't fit any more, and
/// after a 3 neither can rule 0.
#[test]
fn t1_has_four_choices_at_the_start_of_a_pattern() {
    let after_and = [
        ("", DEFAULT),
        ("#", rule(2)),
        ("#00;", rule(0)),
        ("#38;", rule(1)),
        ("&", DEFAULT),
    ];
    assert_spelled(&t1(), "&", 0, &after_and);
    let after_both = [
        ("", rule(2)),
        ("00;", rule(0)),
        ("38;", rule(1)),
        ("x", DEFAULT),
    ];
    assert_spelled(&t1(), "&#", 0, &after_both);
    assert_spelled(&t1(), "A&#", 1, &after_both);
    let after_digit = [("", DEFAULT), ("8;", rule(1)), ("8", DEFAULT)];
    assert_spelled(&t1(), "&#3", 0, &after_digit);
    assert_spelled(&t1(), "&#00;&#3", 5, &after_digit);
}

/// What comes before is settled, and so is a whole pattern: `A` is the default's and
/// `&#00;` rule 0's whatever follows. Of `A&#0`, the `&` is not: `0;` makes it rule 0's,
/// and at the end it is the default's.
#[test]
fn t1_is_settled_before_the_start_of_a_pattern() {
    assert_spelled(&t1(), "A&#", 0, &[("", DEFAULT)]);
    assert_spelled(&t1(), "&#00;", 0, &[("", rule(0))]);
    let table = read(&t1());
    let settled =
        |input: &str, place: usize| Trial::of(&table).is_settled_before(&characters(input), place);
    assert!(settled("A&#0", 1));
    assert!(!settled("A&#0", 2));
    assert!(settled("A&#00;", 6));
    assert!(settled("", 0));
}

/// At the end `a` is the anchored rule's, rule 0; before anything it is rule 1's.
#[test]
fn t2_has_two_rules_for_a() {
    let ways = [("", rule(0)), ("a", rule(1)), ("b", rule(1))];
    assert_spelled(&t2(), "a", 0, &ways);
    assert_spelled(&t2(), "aa", 1, &ways);
    assert_spelled(&t2(), "aa", 0, &[("", rule(1))]);
    assert_spelled(&t2(), "b", 0, &[("", STOP)]);
}

/// `ab` is rule 0 and `aba` never chosen; `a` before anything else is the default's.
#[test]
fn t3_has_one_rule_and_the_default_for_a() {
    let ways = [("", DEFAULT), ("b", rule(0)), ("a", DEFAULT)];
    assert_spelled(&t3(), "a", 0, &ways);
    assert_spelled(&t3(), "aba", 2, &ways);
    assert_spelled(&t3(), "ab", 0, &[("", rule(0))]);
    assert_spelled(&t3(), "b", 0, &[("", DEFAULT)]);
}

/// `a` at the end is rule 0, `aa` rule 1, `ab` at the end rule 2.
#[test]
fn an_anchored_pattern_within_a_longer_one() {
    let ways = [
        ("", rule(0)),
        ("a", rule(1)),
        ("b", rule(2)),
        ("c", DEFAULT),
    ];
    assert_spelled(&lookahead(), "a", 0, &ways);
    assert_spelled(&lookahead(), "ab", 0, &[("", rule(2)), ("b", DEFAULT)]);
}

/// Without a default: `abc` is rule 0 or conversion stops.
#[test]
fn a_rule_or_the_stop() {
    let table = TableBuilder::new().rule(3).spelled(0, "abc").bytes();
    let ways = [("", STOP), ("c", rule(0)), ("b", STOP)];
    assert_spelled(&table, "ab", 0, &ways);
    assert_spelled(&table, "abcab", 3, &ways);
    assert_spelled(&table, "ac", 0, &[("", STOP)]);
}

/// A first unit that no rule begins with: the default takes it alone at the end and
/// before all but a second unit, with which it is a pair.
#[test]
fn a_first_unit_is_taken_alone_or_in_a_pair() {
    let ways: [(&[u16], AtPlace); 5] = [
        (&[], DEFAULT),
        (&[LOW], PAIR),
        (&[LAST_LOW], PAIR),
        (&[HIGH], DEFAULT),
        (&[B], DEFAULT),
    ];
    for unit in [HIGH, LAST_HIGH] {
        assert_ways(&units(), &[unit], 0, &ways);
        // Behind a character that the default takes, and behind a pair.
        assert_ways(&units(), &[B, unit], 1, &ways);
        assert_ways(&units(), &[HIGH, LOW, unit], 2, &ways);
    }
    // Before `a`, which may begin rule 0, it is the default's already.
    assert_ways(&units(), &[HIGH, A], 0, &[(&[], DEFAULT)]);
    assert_ways(&units(), &[LOW], 0, &[(&[], DEFAULT)]);
    assert_ways(&units(), &[HIGH, LOW], 0, &[(&[], PAIR)]);
    let table = read(&units());
    assert_eq!(two_ways(&table, &[HIGH, LOW], 1), None);
    assert_eq!(Trial::of(&table).ways(&[HIGH, LOW], 1).next(), None);
}

/// A first unit with which a rule begins: the unit 55297 before `b` is rule 1's.
#[test]
fn a_first_unit_is_taken_by_a_rule() {
    let ways: [(&[u16], AtPlace); 4] = [
        (&[], DEFAULT),
        (&[B], rule(1)),
        (&[LOW], PAIR),
        (&[A], DEFAULT),
    ];
    assert_ways(&units(), &[HIGH + 1], 0, &ways);
    // Behind an `a`, which stands before no `b` and is the default's.
    assert_ways(&units(), &[A, HIGH + 1], 1, &ways);
    assert_ways(&units(), &[A, HIGH + 1], 0, &[(&[], DEFAULT)]);
}

/// A pair within a longer rule: it is a pair at the end and before all but `b`. At the
/// end alone, an anchored rule may take its first unit.
#[test]
fn a_rule_or_a_pair() {
    let pair = |table: TableBuilder| table.range(0, HIGH, HIGH).range(1, LOW, LOW);
    let longer = pair(TableBuilder::new().rule(3)).spelled(2, "b");
    let longer = longer.marked_default().bytes();
    let ways: [(&[u16], AtPlace); 3] = [(&[], PAIR), (&[B], rule(0)), (&[A], PAIR)];
    assert_ways(&longer, &[HIGH, LOW], 0, &ways);
    let at_end = TableBuilder::new().anchored(1).range(0, HIGH, LAST_HIGH);
    let at_end = at_end.marked_default().bytes();
    let ways: [(&[u16], AtPlace); 3] = [(&[], rule(0)), (&[LOW], PAIR), (&[A], DEFAULT)];
    assert_ways(&at_end, &[LAST_HIGH], 0, &ways);
}

/// The places of a pair are one choice: a session that would hold its second unit alone
/// holds what is no place of a choice, and the first unit alone is not settled.
#[test]
fn units_are_settled_together() {
    let table = read(&units());
    let trial = Trial::of(&table);
    assert!(trial.is_settled_before(&[B, HIGH, LOW], 3));
    assert!(trial.is_settled_before(&[B, HIGH], 1));
    assert!(!trial.is_settled_before(&[B, HIGH], 2));
}

/// All texts of two characters, up to two; T2 has 3 classes and L = 1, T3 has 4 and
/// L = 3. Of the units' table the class starts are 0, `a`, `b`, `c`, 55297 and 55298;
/// the first and the second units bring 55296, 56320 and 57344, and L is 2.
#[test]
fn the_ways_of_a_trial() {
    let all: Vec<Vec<u16>> = texts(&[5, 7], 0..=2).collect();
    let expected: [&[u16]; 7] = [&[], &[5], &[7], &[5, 5], &[7, 5], &[5, 7], &[7, 7]];
    assert_eq!(all, expected);
    assert_eq!(texts(&[5, 7, 9], 3..=4).count(), 27 + 81);
    assert_eq!(text_count(3, 3..=4), 27 + 81);
    assert_eq!(text_count(2_000, 0..=9), usize::MAX);
    let size = |table: &[u8]| Trial::of(&read(table)).size();
    assert_eq!(size(&t2()), 1 + 3 + 9);
    assert_eq!(size(&t3()), 1 + 4 + 16 + 64 + 256);
    assert_eq!(size(&units()), 1 + 9 + 81 + 729);
    let table = read(&t2());
    let ways = Trial::of(&table).ways(&characters("a"), 0).count();
    assert_eq!(ways, size(&t2()));
}

/// What was met.
#[derive(Debug, Default)]
struct Met {
    /// Open sessions that hold characters, those that hold one at state 0, and those that
    /// hold none.
    holding: usize,
    units: usize,
    empty: usize,
}

impl Met {
    /// An open session after pieces that come to an input holds nothing without need.
    fn note(&mut self, table: &Table, session: &Session, input: &[u16]) {
        if session.status != Status::Open {
            return;
        }
        let count = usize::from(session.count);
        let consumed = session.received as usize - count;
        assert_eq!(session.received, input.len() as u64);
        assert_eq!(session.held[..count], input[consumed..]);
        let settled = Trial::of(table).is_settled_before(input, consumed);
        assert!(settled, "{input:?} before {consumed}, {table:?}");
        if count == 0 {
            self.empty += 1;
            return;
        }
        let two = two_ways(table, input, consumed);
        assert!(two.is_some(), "{input:?} at {consumed}, {table:?}");
        self.holding += 1;
        self.units += usize::from(session.state == 0);
    }
}

/// Feeds an input character by character, with an empty piece now and then; the session
/// after each holds nothing without need, and the last is the reckoning's.
fn feed_along(random: &mut Random, table: &Table, met: &mut Met) {
    let Ok(automaton) = TableAutomaton::of(table.clone()) else {
        return;
    };
    let words = compiled(&encode(table)).expect("it has an automaton");
    let length = random.below(LONGEST_INPUT + 1);
    let input = random_input(random, table, length);
    let (mut session, mut output) = (Session::FRESH, [0; 80]);
    let (mut calls, mut fed) = (Vec::new(), 0);
    while fed < input.len() && session.status == Status::Open {
        let piece = &input[fed..][..usize::from(!random.one_in(8))];
        fed += piece.len();
        feed(&words, &mut session, piece, &mut output).expect("accepted");
        met.note(table, &session, &input[..fed]);
        calls.push(Call::Feed {
            piece: piece.to_vec(),
            output: output.len() as u64,
        });
    }
    assert_eq!(session, reckon(&automaton, &calls).session);
}

/// Random tables, small enough for a trial, fed along random inputs.
fn feed_small(seed: u64, table: impl Fn(&mut Random) -> Table) -> Met {
    let (mut random, mut met, mut tables) = (Random::new(seed), Met::default(), 0);
    while tables < TABLES {
        let table = table(&mut random);
        if Trial::of(&table).size() <= WAYS {
            feed_along(&mut random, &table, &mut met);
            tables += 1;
        }
    }
    println!("{met:?}");
    met
}

/// Of ten characters on the average, about half leave a session that holds something,
/// but a third of the tables has no default and stops early: at least one session of
/// either sort a table. A first unit waits in a few inputs of a marked table.
#[test]
fn sessions_hold_nothing_without_need() {
    let met = feed_small(SEED, random_table);
    assert!(met.holding >= TABLES && met.empty >= TABLES, "{met:?}");
}

#[test]
fn sessions_of_marked_tables_hold_nothing_without_need() {
    let met = feed_small(SEED + 1, random_marked_table);
    assert!(met.holding >= TABLES && met.empty >= TABLES, "{met:?}");
    assert!(met.units >= TABLES / 3, "{met:?}");
}
