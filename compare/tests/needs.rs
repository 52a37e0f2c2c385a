//! Request \[9\] of the library: whenever a session is open and holds characters, the
//! independent version finds by trial two ways for the input to go on under which
//! Definition 7 makes different choices at the place of the first of them. Words that
//! have a machine wait without need are told apart.

use std::collections::BTreeMap;

use compare::both;
use compare::cases::{room, sound_tables};
use compare::face::{Session, OPEN, STOPPED};
use compare::lists::Compiled;
use compare::needs::{tried, Fed, Needless, Sort};
use compare::pairs::marked_tables;
use compare::rivals::rival_tables;
use reference::builder::{characters, TableBuilder};
use reference::needs::{Trial, Way};
use reference::random::Random;
use reference::samples::{random_input, t1, t2, t3, units};
use reference::table::Table;

/// The seed of the random tables.
const SEED: u64 = 999;
/// How many tables of each sort are taken, 21,000 in all.
const TABLES: usize = 7_000;
/// The most ways of a table, of which a trial that finds two tries a few.
const WAYS: usize = 3_000_000;
/// The most ways of a table of which all are tried.
const ALL_WAYS: usize = 1_000;
/// The most characters of an input.
const LONGEST_INPUT: usize = 24;
/// How many machines are damaged in each way, and the most ways of their tables.
const DAMAGED: usize = 1_000;
const DAMAGED_WAYS: usize = 3_000;
/// Room for what any piece of these tests comes to.
const ROOMY: usize = 8 * (8 + LONGEST_INPUT);

/// What was met.
#[derive(Debug, Default)]
struct Met {
    /// Feeds that were refused by 15.
    refused: usize,
    /// Open sessions that hold nothing, and those that hold characters, by how many.
    empty: usize,
    holding: BTreeMap<usize, usize>,
    /// A first unit held at state 0.
    units: usize,
    /// The sorts of the two choices that were found.
    sorts: BTreeMap<[Sort; 2], usize>,
    /// Sessions before whose held characters all places were tried in every way.
    settled: usize,
}

impl Met {
    /// Feeds random pieces to a fresh session: empty ones, single characters and a few
    /// more, of which some have too little room and are refused by 15. The session is
    /// tried after each.
    fn feed(&mut self, random: &mut Random, machine: &Compiled) {
        let table = &machine.automaton.table;
        let trial = Trial::of(table);
        let length = random.below(LONGEST_INPUT + 1);
        let input = random_input(random, table, length);
        let (mut fed, mut unread) = (Fed::FRESH, &input[..]);
        while !unread.is_empty() && fed.is_open() {
            let length = *random.pick(&[0, 1, 1, 1, 2, 3, 5]);
            let (piece, rest) = unread.split_at(length.min(unread.len()));
            unread = rest;
            let needed = table.most_outputs() * (fed.held().len() + piece.len());
            let code = fed.feed(&machine.words, piece, room(random, needed));
            assert!(matches!(code, OPEN | STOPPED | 15), "{code}, {fed:?}");
            self.refused += usize::from(code == 15);
            self.note(&trial, &fed);
        }
    }

    /// What an open session holds is what was fed behind the characters consumed, and is
    /// held by need; what comes before is settled.
    fn note(&mut self, trial: &Trial, fed: &Fed) {
        if !fed.is_open() {
            return;
        }
        let (input, consumed, held) = (&fed.input, fed.consumed(), fed.held());
        assert_eq!(fed.session.received, input.len() as u64, "{fed:?}");
        assert_eq!(input[consumed..], *held, "{fed:?}");
        if held.is_empty() {
            self.empty += 1;
        } else {
            let two = trial.two_ways(input, consumed);
            let two = two.unwrap_or_else(|| panic!("held without need: {fed:?}, {trial:?}"));
            self.note_held(&fed.session, &two);
        }
        if trial.size() <= ALL_WAYS {
            assert!(trial.is_settled_before(input, consumed), "{fed:?}");
            self.settled += 1;
        }
    }

    /// Counts a session that holds characters, with the two ways that were found.
    fn note_held(&mut self, session: &Session, two: &[Way; 2]) {
        let held = usize::from(session.held_count);
        *self.holding.entry(held).or_default() += 1;
        self.units += usize::from(session.state == 0);
        let mut sorts = two.each_ref().map(|way| Sort::of(way.chosen));
        sorts.sort();
        *self.sorts.entry(sorts).or_default() += 1;
    }

    /// Feeds the machines of tables of a sort.
    fn of(seed: u64, tables: impl Iterator<Item = Table>) -> Met {
        let (mut random, mut met) = (Random::new(seed), Met::default());
        for machine in tried(tables, WAYS).take(TABLES) {
            met.feed(&mut random, &machine);
        }
        println!("{met:?}");
        met
    }
}

/// How often something must be met at least: a third of what is met or less.
struct Least<'l> {
    refused: usize,
    empty: usize,
    units: usize,
    settled: usize,
    /// By how many characters are held, from one on.
    holding: &'l [usize],
    /// By the sorts of the two choices; no others are met.
    sorts: &'l [([Sort; 2], usize)],
}

impl Met {
    /// Each was met often.
    fn assert_often(&self, least: &Least) {
        assert!(self.refused >= least.refused, "{self:?}");
        assert!(self.empty >= least.empty, "{self:?}");
        assert!(self.units >= least.units, "{self:?}");
        assert!(self.settled >= least.settled, "{self:?}");
        for (held, &times) in (1..).zip(least.holding) {
            assert!(self.holding.get(&held) >= Some(&times), "{held}: {self:?}");
        }
        for (sorts, times) in least.sorts {
            assert!(self.sorts.get(sorts) >= Some(times), "{sorts:?}: {self:?}");
        }
        assert_eq!(self.sorts.len(), least.sorts.len(), "{self:?}");
    }
}

/// More than half of the open sessions hold characters, most of them one. A third of the
/// tables has no default, a third a marked one.
#[test]
fn tables_as_they_come() {
    Met::of(SEED, sound_tables(SEED + 1)).assert_often(&Least {
        refused: 2_500,
        empty: 6_000,
        units: 400,
        settled: 5_000,
        holding: &[4_500, 1_500, 600, 200, 80, 25, 10, 3],
        sorts: &[
            ([Sort::Rule, Sort::Rule], 450),
            ([Sort::Rule, Sort::Default], 5_000),
            ([Sort::Rule, Sort::Pair], 15),
            ([Sort::Rule, Sort::Stop], 1_000),
            ([Sort::Default, Sort::Pair], 450),
        ],
    });
}

/// A rule for the input's end before the same rule: two rules are met more often.
#[test]
fn tables_with_rivals() {
    Met::of(SEED + 2, rival_tables(SEED + 3)).assert_often(&Least {
        refused: 2_500,
        empty: 5_000,
        units: 400,
        settled: 5_000,
        holding: &[5_000, 1_500, 600, 200, 80, 25, 10, 4],
        sorts: &[
            ([Sort::Rule, Sort::Rule], 1_500),
            ([Sort::Rule, Sort::Default], 4_500),
            ([Sort::Rule, Sort::Pair], 15),
            ([Sort::Rule, Sort::Stop], 1_000),
            ([Sort::Default, Sort::Pair], 450),
        ],
    });
}

/// Every table has a default and so no stop. Units make more characters to try, so that
/// fewer tables with long rules are small enough.
#[test]
fn tables_with_marked_defaults() {
    Met::of(SEED + 4, marked_tables(SEED + 5)).assert_often(&Least {
        refused: 3_000,
        empty: 7_000,
        units: 1_500,
        settled: 3_000,
        holding: &[6_000, 1_500, 600, 150, 40, 9],
        sorts: &[
            ([Sort::Rule, Sort::Rule], 200),
            ([Sort::Rule, Sort::Default], 6_000),
            ([Sort::Rule, Sort::Pair], 300),
            ([Sort::Default, Sort::Pair], 2_500),
        ],
    });
}

/// Feeds an input by single characters, of which so many are held at last; answers the
/// sorts of the two choices that are found first, if any are held.
fn sorts_of(table: &[u8], input: &[u16], held: usize) -> Option<[Sort; 2]> {
    let machine = Compiled::of(Table::read(table).unwrap()).unwrap();
    let trial = Trial::of(&machine.automaton.table);
    let (mut fed, mut met) = (Fed::FRESH, Met::default());
    for piece in input.chunks(1) {
        assert_eq!(fed.feed(&machine.words, piece, ROOMY), OPEN);
    }
    assert_eq!(fed.held(), &input[input.len() - held..]);
    met.note(&trial, &fed);
    met.sorts.into_keys().next()
}

/// Found first are the end at once and the shortest way that differs from it. `&#` of T1
/// is the anchored rule's at the end and the default's before one character more; `a` of
/// T2 is the anchored rule's or the other rule's; the last `a` of T3 is the default's or,
/// before `b`, a rule's. Without a default, `ab` is a stop or the beginning of `abc`. A
/// first unit is alone, or of a pair. A whole pattern is not held.
#[test]
fn by_hand() {
    let of = |table: &[u8], input: &str, held| sorts_of(table, &characters(input), held);
    assert_eq!(of(&t1(), "A&#", 2), Some([Sort::Rule, Sort::Default]));
    assert_eq!(of(&t1(), "&#38;", 0), None);
    assert_eq!(of(&t2(), "aa", 1), Some([Sort::Rule, Sort::Rule]));
    assert_eq!(of(&t3(), "aba", 1), Some([Sort::Rule, Sort::Default]));
    assert_eq!(of(&t3(), "ab", 0), None);
    let abc = TableBuilder::new().rule(3).spelled(0, "abc").bytes();
    assert_eq!(of(&abc, "abcab", 2), Some([Sort::Rule, Sort::Stop]));
    assert_eq!(
        sorts_of(&units(), &[98, 0xD800], 1),
        Some([Sort::Default, Sort::Pair])
    );
    assert_eq!(sorts_of(&units(), &[0xD800, 0xDC00], 0), None);
}

/// Machines with words that have them wait without need, fed to where they wait: they
/// hold characters there, but no two ways are found, and every way has the same choice.
/// Under the compiled words the first of the characters is not held.
fn assert_needless(
    seed: u64,
    tables: impl Iterator<Item = Table>,
    damage: impl Fn(&mut Random, &Compiled) -> Option<Needless>,
) {
    let mut random = Random::new(seed);
    let damaged = tried(tables, DAMAGED_WAYS).filter_map(|machine| {
        let needless = damage(&mut random, &machine)?;
        Some((machine, needless))
    });
    for (machine, needless) in damaged.take(DAMAGED) {
        assert!(both::is_sound(&needless.words), "{needless:?}");
        let (mut fed, mut right) = (Fed::FRESH, Fed::FRESH);
        assert_eq!(fed.feed(&needless.words, &needless.input, ROOMY), OPEN);
        assert_eq!((fed.consumed(), fed.held()), (0, &needless.input[..]));
        let trial = Trial::of(&machine.automaton.table);
        assert_eq!(trial.two_ways(&fed.input, 0), None, "{fed:?}, {trial:?}");
        let ways = trial.ways(&fed.input, 0);
        let same = ways.filter(|way| way.chosen == needless.chosen).count();
        assert_eq!(same, trial.size(), "{fed:?}, {trial:?}");
        right.feed(&machine.words, &needless.input, ROOMY);
        assert!(right.consumed() > 0 || !right.is_open(), "{right:?}");
    }
}

#[test]
fn a_rule_that_is_put_off_is_needless() {
    assert_needless(SEED + 6, rival_tables(SEED + 7), Needless::without_go);
}

#[test]
fn a_target_that_no_rule_has_is_needless() {
    assert_needless(SEED + 8, sound_tables(SEED + 9), Needless::with_target);
    assert_needless(SEED + 10, marked_tables(SEED + 11), Needless::with_target);
}

#[test]
fn a_mark_that_the_table_has_not_is_needless() {
    assert_needless(SEED + 12, sound_tables(SEED + 13), Needless::with_mark);
}
