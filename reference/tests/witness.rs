//! Rules that can never be chosen: document 01's tables, rivals by hand, what is left
//! of the words, and the search against trial.

use std::collections::BTreeSet;

use reference::builder::{characters, TableBuilder};
use reference::compile::{compile, compiled};
use reference::meaning::chosen_rule;
use reference::random::Random;
use reference::refusal::Refusal;
use reference::samples::{lookahead, random_table, refused_tables, rules, t1, t2, t3};
use reference::table::{RuleNo, Table};
use reference::witness::{
    choices, chosen_on_trial, input_of, most_tried, trials, witness, MAX_INPUT,
};
use reference::words::WORDS;

/// The seed of the random tables.
const SEED: u64 = 66;
/// How many small tables are tried.
const TABLES: usize = 2_000;
/// The most inputs of a trial.
const TRIALS: usize = 30_000;

/// What is said of a rule of a table that compiles. The input of a live one has 1 to 9
/// characters, and the rule is the first choice on it.
fn said(table: &[u8], rule: u32) -> Option<Vec<u16>> {
    let input = witness(table, &mut [0; WORDS], rule).expect("compiles")?;
    assert!((1..=MAX_INPUT).contains(&input.len()), "{input:?}");
    let first = chosen_rule(&Table::read(table).expect("accepted"), &input);
    assert_eq!(first, Some(RuleNo(rule as u16)), "{input:?}");
    Some(input)
}

/// A rule is live; its input.
fn live(table: &[u8], rule: u32) -> Vec<u16> {
    said(table, rule).expect("live")
}

/// A rule is dead.
fn dead(table: &[u8], rule: u32) {
    assert_eq!(said(table, rule), None, "rule {rule}");
}

#[test]
fn t1_has_no_dead_rule() {
    assert!(live(&t1(), 0).starts_with(&characters("&#00;")));
    let input = live(&t1(), 1);
    assert!(input.starts_with(&characters("&#")) && !input.starts_with(&characters("&#00")));
    assert_eq!(live(&t1(), 2), characters("&#"));
}

/// Where the input ends, the anchored rule is the lower one.
#[test]
fn t2_has_no_dead_rule() {
    assert_eq!(live(&t2(), 0), characters("a"));
    let input = live(&t2(), 1);
    assert_eq!((input.len(), input[0]), (2, 97));
}

/// "T3's second rule is dead."
#[test]
fn the_second_rule_of_t3_is_dead() {
    assert!(live(&t3(), 0).starts_with(&characters("ab")));
    dead(&t3(), 1);
}

#[test]
fn numbers_that_no_rule_has_are_dead() {
    for (table, count) in [(t1(), 3), (t2(), 2), (t3(), 2), (lookahead(), 3)] {
        for number in [count, 31, 32, 33, 65_536, 1 << 31, u32::MAX] {
            dead(&table, number);
        }
    }
}

/// A table of texts that are taken, each anchored or not.
fn spelled(rules: &[(&str, bool)]) -> Vec<u8> {
    let table = rules.iter().fold(TableBuilder::new(), |table, rule| {
        let &(text, anchored) = rule;
        match anchored {
            true => table.anchored(text.len()).spelled(0, text),
            false => table.rule(text.len()).spelled(0, text),
        }
    });
    table.bytes()
}

/// An anchored rule goes before an equal one at the input's end alone: K + 1 characters,
/// 9 of the longest. The other way round it is dead.
#[test]
fn an_anchored_rule_before_an_equal_one() {
    for text in ["a", "ab", "abcdefg", "abcdefgh"] {
        let table = spelled(&[(text, true), (text, false), (text, true), (text, false)]);
        assert_eq!(live(&table, 0), characters(text));
        let input = live(&table, 1);
        assert!(input.len() == text.len() + 1 && input.starts_with(&characters(text)));
        dead(&table, 2);
        dead(&table, 3);
        let turned = spelled(&[(text, false), (text, true)]);
        assert!(live(&turned, 0).starts_with(&characters(text)));
        dead(&turned, 1);
    }
}

/// A shorter rule goes before a longer one whatever their numbers, but an anchored one
/// doesn't fit where the longer one does.
#[test]
fn shorter_rules() {
    let table = spelled(&[("abc", false), ("ab", true), ("abd", true), ("a", true)]);
    assert!(live(&table, 0).starts_with(&characters("abc")));
    assert_eq!(live(&table, 1), characters("ab"));
    assert_eq!(live(&table, 2), characters("abd"));
    assert_eq!(live(&table, 3), characters("a"));
    let table = spelled(&[("abc", false), ("abc", true), ("ab", true), ("ab", false)]);
    dead(&table, 0);
    dead(&table, 1);
    assert_eq!(live(&table, 2), characters("ab"));
    assert_eq!(live(&table, 3).len(), 3);
}

/// Rivals that together take every word of a rule, and all but one of them; a rule that
/// is chosen for the one character that is left.
#[test]
fn rivals_together() {
    let halves = TableBuilder::new().rule(1).range(0, 97, 100);
    let halves = halves.rule(1).range(0, 101, 104);
    let all = halves.clone().rule(1).range(0, 97, 104).bytes();
    assert!((97..=100).contains(&live(&all, 0)[0]));
    assert!((101..=104).contains(&live(&all, 1)[0]));
    dead(&all, 2);
    let more = halves.rule(1).range(0, 97, 105).bytes();
    assert_eq!(live(&more, 2)[0], 105);
    // Of the words of two characters, one is left, and no first character decides.
    let table = TableBuilder::new()
        .rule(2)
        .range(0, 97, 97)
        .range(1, 97, 98)
        .rule(2)
        .range(0, 97, 98)
        .range(1, 97, 97)
        .rule(2)
        .range(0, 97, 98)
        .range(1, 97, 98)
        .bytes();
    assert_eq!(live(&table, 2)[..2], characters("bb"));
}

/// "With compiling's buffer and refusals."
#[test]
fn words_are_left_as_by_compiling() {
    let found: Vec<u16> = (7..).take(WORDS + 5).collect();
    for (rule, is_live) in [(0, true), (1, false), (2, false), (u32::MAX, false)] {
        let mut words = found.clone();
        let answer = witness(&t3(), &mut words, rule).expect("compiles");
        assert_eq!(answer.is_some(), is_live);
        assert!(words[..WORDS] == compiled(&t3()).unwrap());
        assert!(words[WORDS..] == found[WORDS..]);
    }
    for (number, table) in refused_tables() {
        let mut words = found.clone();
        let refusal = witness(&table, &mut words, 0).unwrap_err();
        assert_eq!(refusal.number(), number);
        assert!(words[..WORDS].iter().all(|&word| word == 0));
        assert!(words[WORDS..] == found[WORDS..]);
        let mut short = found[..WORDS - 1].to_vec();
        assert_eq!(witness(&table, &mut short, 0), Err(Refusal::ShortWords));
        assert!(short == found[..WORDS - 1]);
    }
}

/// The rules that an input makes Definition 7 choose, by hand.
#[test]
fn choices_along_an_input() {
    let along = |table: &[u8], input: &str| {
        let table = Table::read(table).expect("accepted");
        let chosen = choices(&table, &characters(input)).into_iter();
        chosen.map(|rule| rule.0).collect::<Vec<_>>()
    };
    assert_eq!(along(&t1(), "&&#00;&#38;&#"), [0, 1, 2]);
    assert_eq!(along(&t2(), "aaa"), [1, 1, 0]);
    assert_eq!(along(&t2(), "aba"), [1]);
    assert_eq!(along(&t3(), "abaaba"), [0, 0]);
    assert_eq!(along(&t3(), ""), []);
}

#[test]
fn how_many_trials() {
    let table = |bytes: &[u8]| Table::read(bytes).expect("accepted");
    // T2 has 3 classes, T3 has 4.
    assert_eq!(trials(&table(&t2()), 9), 29_523);
    assert_eq!(trials(&table(&t3()), 3), 4 + 16 + 64);
    assert_eq!(trials(&table(&rules(1).bytes()), 1), 3);
    assert_eq!(most_tried(&table(&t2()), 29_523), Some(9));
    assert_eq!(most_tried(&table(&t2()), 29_522), Some(8));
    assert_eq!(most_tried(&table(&t3()), 4 + 16 + 64 + 256), Some(4));
    assert_eq!(most_tried(&table(&t3()), 4 + 16 + 64), None);
    // None of the inputs of T3 has its second rule chosen.
    let chosen = chosen_on_trial(&table(&t3()), MAX_INPUT);
    assert_eq!(chosen, BTreeSet::from([RuleNo(0)]));
}

/// Every rule is called live exactly if a trial has it chosen, at any place.
#[test]
fn the_search_and_trial_agree() {
    let mut random = Random::new(SEED);
    let (mut tables, mut live_rules, mut at_end, mut going_on, mut dead_rules) = (0, 0, 0, 0, 0);
    while tables < TABLES {
        let table = random_table(&mut random);
        let Some(most) = most_tried(&table, TRIALS) else {
            continue;
        };
        tables += 1;
        let chosen = chosen_on_trial(&table, most);
        for (number, rule) in (0..).zip(&table.rules) {
            let input = input_of(&table, number);
            let rule_no = RuleNo(number as u16);
            assert_eq!(input.is_some(), chosen.contains(&rule_no), "{table:?}");
            let Some(input) = input else {
                dead_rules += 1;
                continue;
            };
            live_rules += 1;
            assert_eq!(chosen_rule(&table, &input), Some(rule_no), "{table:?}");
            at_end += usize::from(rule.anchored);
            going_on += usize::from(input.len() > rule.length());
        }
        assert_eq!(input_of(&table, table.rules.len() as u32), None);
    }
    println!("live {live_rules}, anchored {at_end}, K + 1 {going_on}, dead {dead_rules}");
    assert!(live_rules >= 2_000, "{live_rules}");
    assert!(at_end >= 500, "{at_end}");
    assert!(going_on >= 50, "{going_on}");
    assert!(dead_rules >= 1_000, "{dead_rules}");
}

/// Compiling and the check refuse the same tables, damaged in a byte.
#[test]
fn refusals_are_those_of_compiling() {
    let mut random = Random::new(SEED + 1);
    let (mut accepted, mut refused) = (0, 0);
    for _ in 0..2_000 {
        let mut table = t1();
        let place = random.below(table.len());
        table[place] ^= 1 << random.below(8);
        let (mut words, mut expected) = (vec![7; WORDS], vec![7; WORDS]);
        let answer = witness(&table, &mut words, 1).map(|_| ());
        assert_eq!(answer, compile(&table, &mut expected));
        assert!(words == expected);
        match answer {
            Ok(()) => accepted += 1,
            Err(_) => refused += 1,
        }
    }
    assert!(accepted >= 100 && refused >= 500, "{accepted} {refused}");
}
