//! Live and dead rules against the independent version: the same verdict for every
//! rule and for numbers that no rule has, an input that Definition 7 agrees to, the
//! words of compiling, and on small tables trial of every short input.

use std::collections::BTreeMap;

use compare::both::{compile, witness, witnesses, Witnessed};
use compare::cases::{examples, large_table, sound_tables, tables};
use compare::face::{DEAD, OK};
use compare::rivals::rival_tables;
use reference::builder::{characters, encode, TableBuilder};
use reference::random::Random;
use reference::samples::{refused_tables, rules, t1, t2, t3};
use reference::table::{RuleNo, Table};
use reference::witness::{chosen_on_trial, most_tried};
use reference::words::WORDS;

/// The seed of the random tables.
const SEED: u64 = 6_666;
/// How many tables of each sort are taken, 20,000 in all.
const DAMAGED: usize = 6_000;
const SOUND: usize = 6_000;
const RIVALS: usize = 8_000;
/// The most inputs of a trial.
const TRIALS: usize = 3_000;

/// What was met.
#[derive(Debug, Default)]
struct Met {
    /// How often each refusal.
    refused: BTreeMap<u32, usize>,
    /// Rules that are chosen, and of these anchored ones, which are chosen where the
    /// input ends alone, and such that are chosen where it goes on alone.
    live: usize,
    at_end: usize,
    going_on: usize,
    /// Inputs of nine characters.
    nine: usize,
    /// Rules that are dead, and numbers that no rule has.
    dead: usize,
    no_rule: usize,
    /// Tables on which every short input was tried, and their dead rules.
    tried: usize,
    tried_dead: usize,
    /// Tables with 64 classes, and with 250 states or more.
    full_classes: usize,
    full_states: usize,
}

impl Met {
    /// Asks about a table: every rule and some other numbers, or two numbers if it is
    /// refused.
    fn ask(&mut self, random: &mut Random, table: &[u8]) {
        let room = match random.below(12) {
            0 => WORDS - 1,
            1..=4 => WORDS,
            _ => WORDS + 1 + random.below(40),
        };
        let first = random.below(40) as u32;
        let Witnessed { code, .. } = witness(table, room, first);
        if !matches!(code, OK | DEAD) {
            *self.refused.entry(code).or_default() += 1;
            assert_eq!(witness(table, room, random.number() as u32).code, code);
            return;
        }
        let read = Table::read(table).expect("a table that compiles");
        let count = read.rules.len() as u32;
        let others = [count, 31, 32, 33, random.number() as u32, u32::MAX];
        let numbers: Vec<u32> = (0..count).chain(others).collect();
        let (said, words) = witnesses(table, room, &numbers);
        self.full_classes += usize::from(words[1] == 64);
        self.full_states += usize::from(words[0] >= 250);
        for (&number, said) in numbers.iter().zip(&said) {
            self.note(&read, number, said);
        }
        self.try_all(&read, &said);
    }

    /// Counts what was said of a rule.
    fn note(&mut self, table: &Table, number: u32, said: &Witnessed) {
        let Some(rule) = table.rules.get(number as usize) else {
            assert_eq!(said.code, DEAD);
            self.no_rule += 1;
            return;
        };
        if said.code == DEAD {
            self.dead += 1;
            return;
        }
        self.live += 1;
        self.nine += usize::from(said.input.len() == 9);
        self.at_end += usize::from(rule.anchored);
        let length = rule.length();
        if rule.anchored {
            assert_eq!(said.input.len(), length);
        }
        if said.shortest.len() > length {
            self.going_on += 1;
            assert!(said.input.len() > length);
        }
    }

    /// On a small table, what is said of its rules is what trial of every short input
    /// comes to.
    fn try_all(&mut self, table: &Table, said: &[Witnessed]) {
        let Some(most) = most_tried(table, TRIALS) else {
            return;
        };
        let chosen = chosen_on_trial(table, most);
        for (number, said) in (0..table.rules.len() as u16).map(RuleNo).zip(said) {
            let live = chosen.contains(&number);
            assert_eq!(said.code == OK, live, "{number:?}, {table:?}");
            self.tried_dead += usize::from(!live);
        }
        self.tried += 1;
    }
}

/// Each refusal of compiling must be met often, tables at the limits, and the sorts of
/// rules.
#[test]
fn damaged_tables() {
    let (mut random, mut met) = (Random::new(SEED), Met::default());
    for table in tables(SEED + 1).take(DAMAGED) {
        met.ask(&mut random, &table);
    }
    println!("damaged: {met:?}");
    let refused: Vec<u32> = met.refused.keys().copied().collect();
    assert_eq!(refused, [1, 2, 3, 4, 5, 6, 7, 8, 9, 10]);
    assert!(met.refused.values().all(|&times| times >= 40), "{met:?}");
    assert!(met.full_classes >= 40 && met.full_states >= 40, "{met:?}");
    assert!(met.live >= 10_000 && met.dead >= 1_000, "{met:?}");
}

#[test]
fn sound_tables_as_they_come() {
    let (mut random, mut met) = (Random::new(SEED + 2), Met::default());
    for table in sound_tables(SEED + 3).take(SOUND) {
        met.ask(&mut random, &encode(&table));
    }
    println!("sound: {met:?}");
    assert!(met.live >= 10_000 && met.at_end >= 3_000, "{met:?}");
    assert!(met.going_on >= 200 && met.dead >= 3_000, "{met:?}");
    assert!(met.no_rule >= 20_000, "{met:?}");
    assert!(met.tried >= 1_000 && met.tried_dead >= 1_000, "{met:?}");
}

#[test]
fn rules_in_each_others_way() {
    let (mut random, mut met) = (Random::new(SEED + 4), Met::default());
    for table in rival_tables(SEED + 5).take(RIVALS) {
        met.ask(&mut random, &encode(&table));
    }
    println!("rivals: {met:?}");
    assert!(met.live >= 10_000 && met.dead >= 10_000, "{met:?}");
    assert!(met.at_end >= 3_000 && met.going_on >= 1_000, "{met:?}");
    assert!(met.nine >= 50, "{met:?}");
    assert!(met.tried >= 1_000 && met.tried_dead >= 1_000, "{met:?}");
}

/// What is said of a rule with room for words beyond, and with just enough, which is
/// the same.
fn said(table: &[u8], rule: u32) -> Option<Vec<u16>> {
    let said = witness(table, WORDS + 5, rule);
    assert_eq!(witness(table, WORDS, rule), said);
    assert_eq!(witness(table, WORDS - 1, rule).code, 10);
    match said.code {
        OK => Some(said.input),
        code => {
            assert_eq!(code, DEAD);
            None
        }
    }
}

/// Document 01's tables, by hand.
#[test]
fn by_hand() {
    let live = |table: &[u8], rule| said(table, rule).expect("live");
    assert!(live(&t1(), 0).starts_with(&characters("&#00;")));
    assert!(live(&t1(), 1).starts_with(&characters("&#")));
    assert_eq!(live(&t1(), 2), characters("&#"));
    assert_eq!(live(&t2(), 0), characters("a"));
    assert!(live(&t2(), 1).len() > 1);
    assert!(live(&t3(), 0).starts_with(&characters("ab")));
    for (table, rule) in [(t3(), 1), (t1(), 3), (t2(), 2), (t3(), 2)] {
        assert_eq!(said(&table, rule), None);
    }
    // 32 rules for the same character: the first is live.
    let same = rules(32).bytes();
    assert_eq!(live(&same, 0)[0], 97);
    assert!((1..40).all(|rule| said(&same, rule).is_none()));
}

/// Eight characters for the input's end, before equal ones: the only input is of nine.
#[test]
fn nine_characters() {
    let table = TableBuilder::new().anchored(8).spelled(0, "highflow");
    let table = table.rule(8).spelled(0, "highflow").bytes();
    assert_eq!(said(&table, 0), Some(characters("highflow")));
    let input = said(&table, 1).expect("live");
    assert!(input.len() == 9 && input.starts_with(&characters("highflow")));
}

/// 64 classes and 256 states, of which all 32 rules are live; one class or one state
/// more.
#[test]
fn tables_at_the_limits_and_one_beyond() {
    let table = large_table(0, 7);
    for rule in 0..32 {
        let input = said(&table, rule).expect("live");
        assert_eq!(u32::from(input[0]), 2 * rule);
    }
    assert!((32..36).all(|rule| said(&table, rule).is_none()));
    for rule in [0, 31, 32, u32::MAX] {
        assert_eq!(witness(&large_table(1, 7), WORDS, rule).code, 8);
        assert_eq!(witness(&large_table(0, 8), WORDS, rule).code, 9);
        assert_eq!(witness(&large_table(0, 8), WORDS - 1, rule).code, 10);
    }
}

#[test]
fn each_refusal_and_each_short_room() {
    for (number, table) in refused_tables() {
        for rule in [0, 1, u32::MAX] {
            let code = u32::from(number);
            assert_eq!(witness(&table, WORDS, rule).code, code);
            assert_eq!(witness(&table, WORDS + 7, rule).code, code);
            assert_eq!(witness(&table, WORDS - 1, rule).code, 10);
        }
    }
    for room in [0, 1, 5, 6, 70, 838, 17_222, 19_000, WORDS - 2, WORDS - 1] {
        assert_eq!(witness(&t1(), room, 0).code, 10);
    }
}

/// Every change of one byte of the example tables: refused as compiling refuses it, or
/// each rule judged.
#[test]
fn every_byte_of_the_examples_changed() {
    let (mut accepted, mut refused) = (0, 0);
    for mut table in examples() {
        for place in 0..table.len() {
            let found = table[place];
            for byte in [found ^ 1, found ^ 2, found.wrapping_sub(1), 0, 255] {
                table[place] = byte;
                let (said, _) = witnesses(&table, WORDS + 1, &[0, 1, 2, 3]);
                match compile(&table, WORDS + 1).0 {
                    OK => {
                        assert!(said.iter().all(|said| matches!(said.code, OK | DEAD)));
                        accepted += 1;
                    }
                    code => {
                        assert!(said.iter().all(|said| said.code == code));
                        refused += 1;
                    }
                }
            }
            table[place] = found;
        }
    }
    println!("one byte changed: {accepted} accepted, {refused} refused");
    assert!(accepted >= 500 && refused >= 1_000, "{accepted} {refused}");
}
