//! Request [3]: the class starts among the machine words after each range met.
//! The words in between are proved, not shown: what can be seen is the words of
//! the table that ends with a range, for each range of a table.

use std::collections::BTreeSet;

use compare::both::compile;
use compare::cases::{first_ranges, sound_tables};
use compare::face::{check, OK};
use reference::builder::{encode, TableBuilder};
use reference::classes::{starts_of, MAX_CLASSES};
use reference::random::Random;
use reference::table::{Range, MAX_RULES};
use reference::words::WORDS;

/// The seed of the random tables.
const SEED: u64 = 65_536;
/// How many random tables are cut after each of their ranges.
const TABLES: usize = 2_000;
/// In how many orders 64 starts are met.
const ORDERS: usize = 200;

/// The words from 6 to 69, and the number of classes: these starts, rising, and
/// zeros behind.
fn assert_in_place(words: &[u16], starts: &BTreeSet<u16>) {
    let mut expected = [0; MAX_CLASSES];
    for (word, &start) in expected.iter_mut().zip(starts) {
        *word = start;
    }
    assert_eq!(words[6..70], expected);
    assert_eq!(usize::from(words[1]), starts.len());
}

/// A rule of one position for each of some ranges, in their order.
fn rule_for_each(ranges: &[(u16, u16)]) -> TableBuilder {
    let one = |table: TableBuilder, &(low, high): &(u16, u16)| table.rule(1).range(0, low, high);
    ranges.iter().fold(TableBuilder::new(), one)
}

#[test]
fn after_each_range_of_random_tables() {
    let (mut cuts, mut in_rule, mut full, mut over) = (0, 0, 0, 0);
    for table in sound_tables(SEED).take(TABLES) {
        let ranges: Vec<Range> = table.ranges().copied().collect();
        for count in 1..=ranges.len() {
            let cut = first_ranges(&table, count);
            assert!(cut.ranges().eq(&ranges[..count]));
            let last = cut.rules.len() - 1;
            in_rule += usize::from(cut.rules[last].positions != table.rules[last].positions);
            cuts += 1;

            let starts = starts_of(&ranges[..count]);
            let (code, words) = compile(&encode(&cut), WORDS + 3);
            match code {
                OK => assert_in_place(&words, &starts),
                8 => assert!(starts.len() > MAX_CLASSES),
                9 => assert!(starts.len() <= MAX_CLASSES),
                _ => panic!("{code} for {cut:?}"),
            }
            full += usize::from(code == OK && starts.len() == MAX_CLASSES);
            over += usize::from(code == 8);
        }
    }
    println!("{cuts} cuts, {in_rule} within a rule, {full} with 64 starts, {over} with more");
    assert!(in_rule >= 10_000, "{in_rule}");
    assert!(full >= 100, "{full}");
    assert!(over >= 100, "{over}");
}

#[test]
fn falling_repeated_and_last_starts() {
    // Ranges in the order in which they are met, each with all starts after it.
    type Met = &'static [((u16, u16), &'static [u16])];
    let cases: [Met; 5] = [
        &[((0, 65535), &[0])],
        &[((1, 65535), &[0, 1]), ((0, 0), &[0, 1])],
        &[
            ((60000, 65535), &[0, 60000]),
            ((500, 600), &[0, 500, 601, 60000]),
            ((500, 500), &[0, 500, 501, 601, 60000]),
            ((0, 0), &[0, 1, 500, 501, 601, 60000]),
        ],
        &[
            ((65535, 65535), &[0, 65535]),
            ((65534, 65534), &[0, 65534, 65535]),
            ((65535, 65535), &[0, 65534, 65535]),
        ],
        &[
            ((7, 8), &[0, 7, 9]),
            ((9, 65534), &[0, 7, 9, 65535]),
            ((8, 8), &[0, 7, 8, 9, 65535]),
            ((0, 6), &[0, 7, 8, 9, 65535]),
        ],
    ];
    for met in cases {
        let ranges: Vec<(u16, u16)> = met.iter().map(|&(range, _)| range).collect();
        for (place, &(_, starts)) in met.iter().enumerate() {
            let (code, words) = compile(&rule_for_each(&ranges[..=place]).bytes(), WORDS);
            assert_eq!(code, OK);
            assert_in_place(&words, &starts.iter().copied().collect());
        }
    }
}

#[test]
fn sixty_four_starts_in_any_order_and_a_65th_wherever_it_is_met() {
    let mut random = Random::new(SEED);
    // 0, 2, .. 62: two starts each, 0 to 63 in all.
    let mut characters: Vec<u16> = (0..MAX_RULES as u16).map(|rule| 2 * rule).collect();
    let starts: BTreeSet<u16> = (0..MAX_CLASSES as u16).collect();
    for order in 0..ORDERS {
        match order {
            0 => (),
            1 => characters.reverse(),
            _ => random.shuffle(&mut characters),
        }
        // A second range for the rule at a place.
        let table = |second: Option<(usize, u16, u16)>| {
            let rules = characters.iter().enumerate();
            let rules = rules.fold(TableBuilder::new(), |table, (place, &character)| {
                let table = table.rule(1).range(0, character, character);
                match second {
                    Some((at, low, high)) if at == place => table.range(0, low, high),
                    _ => table,
                }
            });
            rules.bytes()
        };
        let (code, words) = compile(&table(None), WORDS);
        assert_eq!(code, OK);
        assert_in_place(&words, &starts);
        let place = random.below(MAX_RULES);
        for (low, high) in [(64, 64), (64, 65535), (64000, 65535), (65535, 65535)] {
            assert_eq!(compile(&table(Some((place, low, high))), WORDS).0, 8);
        }
        // Edges that are there already are no 65th.
        let next = characters[place] + 2;
        if next < 63 {
            let (code, words) = compile(&table(Some((place, next, next))), WORDS);
            assert_eq!(code, OK);
            assert_in_place(&words, &starts);
        }
    }
}

#[test]
fn a_65th_start_is_refused_after_all_that_the_table_check_refuses() {
    // Every second character from 1, four to a rule: 73 starts with 0, the 65th in the eighth rule.
    let rule = |table: TableBuilder, rule: u16| {
        let characters = (8 * rule + 1..8 * rule + 8).step_by(2);
        characters.fold(table.rule(1), |table, character| {
            table.range(0, character, character)
        })
    };
    let many = (0..9).fold(TableBuilder::new(), rule);
    assert_eq!(check(&many.bytes()), OK);
    assert_eq!(compile(&many.bytes(), WORDS).0, 8);

    let fifth = (0..5).fold(many.clone().rule(1), |table, k| {
        table.range(0, 2 * k, 2 * k)
    });
    let unknown = [many.bytes(), vec![7, 0, 0, 0, 0, 0, 0, 0]].concat();
    let cut = [many.bytes(), vec![1]].concat();
    let later = [
        (1, cut),
        (2, unknown),
        (3, many.clone().term(0, 1).bytes()),
        (4, many.clone().rule(2).range(1, 0, 0).bytes()),
        (4, many.clone().rule(2).range(0, 0, 0).bytes()),
        (6, fifth.bytes()),
        (7, many.output(65536).bytes()),
    ];
    for (number, table) in later {
        assert_eq!(compile(&table, WORDS).0, number);
    }
}
