//! Terms in any order of position: every order compiles to the same words and means
//! the same, and a position still occurs once.

use reference::builder::{encode, TableBuilder};
use reference::compile::compiled;
use reference::meaning::convert;
use reference::random::Random;
use reference::refusal::Refusal;
use reference::samples::{random_input, random_table, rules};
use reference::table::{Group, Sum, Table, MAX_LENGTH};
use reference::words::WORDS;

/// The characters of the rule, one for each position.
const WORD: &str = "tidegaug";
/// A coefficient for each position: signs and sizes of all sorts, and the values of
/// any of them with [`CONSTANT`] in 0 to 65535.
const COEFFICIENTS: [i16; MAX_LENGTH] = [1, -1, 256, -128, 2, -3, 7, 50];
const CONSTANT: i32 = 30_000;
/// Where document 01's layout, with request \[1\]'s blocks, has the coefficients of the
/// first output character of block 0 and of the default's, block 32.
const OF_RULE: usize = 17_222 + 3 + 2;
const OF_DEFAULT: usize = 17_222 + 32 * 83 + 3 + 2;

/// A rule of 8 positions, whose output characters are still to come.
fn rule() -> TableBuilder {
    TableBuilder::new().rule(MAX_LENGTH).spelled(0, WORD)
}

/// The table with a term of each position, in this order.
fn named(table: TableBuilder, positions: &[usize]) -> TableBuilder {
    positions.iter().fold(table, |table, &position| {
        table.term(position, COEFFICIENTS[position])
    })
}

/// One sum with terms of these positions, in this order.
fn sum(positions: &[usize]) -> TableBuilder {
    named(rule().output(CONSTANT), positions)
}

/// Every order of the positions.
fn orders(positions: &[usize]) -> Vec<Vec<usize>> {
    if positions.is_empty() {
        return vec![Vec::new()];
    }
    let each_first = (0..positions.len()).flat_map(|place| {
        let mut rest = positions.to_vec();
        let first = rest.remove(place);
        let rests = orders(&rest).into_iter();
        rests.map(move |rest| [&[first], &rest[..]].concat())
    });
    each_first.collect()
}

/// All eight positions in a random order.
fn random_order(random: &mut Random) -> [usize; MAX_LENGTH] {
    let mut order = [0, 1, 2, 3, 4, 5, 6, 7];
    random.shuffle(&mut order);
    order
}

/// The sum of these positions, in whatever order: its coefficients stand by position,
/// all other words are those of the sum without terms, and the value is reckoned here.
fn assert_summed(positions: &[usize]) {
    let table = sum(positions).bytes();
    let mut expected = compiled(&sum(&[]).bytes()).expect("a sum without terms");
    let word: Vec<u16> = WORD.encode_utf16().collect();
    let mut value = CONSTANT;
    for &position in positions {
        let coefficient = COEFFICIENTS[position];
        expected[OF_RULE + position] = coefficient as u16;
        value += i32::from(coefficient) * i32::from(word[position]);
    }
    let words = compiled(&table).expect("a sum in any order");
    assert_eq!(words.len(), WORDS);
    assert!(words == expected, "{positions:?}");
    let read = Table::read(&table).expect("a table that compiles");
    assert_eq!(convert(&read, &word).text, [value as u16], "{positions:?}");
}

#[test]
fn every_order_of_up_to_five_terms() {
    let sets: [&[usize]; 8] = [
        &[7],
        &[0, 1],
        &[2, 7],
        &[0, 1, 2],
        &[1, 4, 6],
        &[0, 1, 2, 3],
        &[0, 3, 5, 7],
        &[1, 2, 4, 6, 7],
    ];
    let mut tried = 0;
    for set in sets {
        for order in orders(set) {
            assert_summed(&order);
            tried += 1;
        }
    }
    assert_eq!(tried, 1 + 2 + 2 + 6 + 6 + 24 + 24 + 120);
}

#[test]
fn random_orders_of_eight_terms() {
    let mut random = Random::new(7);
    for _ in 0..500 {
        assert_summed(&random_order(&mut random));
    }
    assert_summed(&[7, 6, 5, 4, 3, 2, 1, 0]);
}

/// The table is refused by 3 at its last record: without it the table is accepted, and
/// a record of unknown kind behind it, refused by 2, changes nothing.
fn assert_last_misplaced(table: &TableBuilder) {
    let bytes = table.bytes();
    let (before, _) = bytes.split_at(bytes.len() - 8);
    assert!(Table::read(before).is_ok(), "{table:?}");
    assert_eq!(Table::read(&bytes), Err(Refusal::Place), "{table:?}");
    assert_eq!(compiled(&bytes), Err(Refusal::Place), "{table:?}");
    let followed = [&bytes[..], &[9; 8]].concat();
    assert_eq!(Table::read(&followed), Err(Refusal::Place), "{table:?}");
}

/// After every number of terms, each of the positions that they named: with none to
/// seven terms between, as the first output character and as a later one.
#[test]
fn a_position_repeated_at_every_distance() {
    let mut random = Random::new(8);
    let mut between = [0; MAX_LENGTH];
    for _ in 0..20 {
        let order = random_order(&mut random);
        for count in 1..=MAX_LENGTH {
            for place in 0..count {
                let terms = [&order[..count], &[order[place]]].concat();
                assert_last_misplaced(&sum(&terms));
                let later = sum(&order).digit(3, 4).output(CONSTANT);
                assert_last_misplaced(&named(later, &terms));
                between[count - 1 - place] += 1;
            }
        }
    }
    assert_eq!(between, [8, 7, 6, 5, 4, 3, 2, 1].map(|times| 20 * times));
}

/// The default has one position.
#[test]
fn a_position_repeated_in_the_default() {
    let default = |coefficient| {
        let sum = rule().default_group().output(0);
        sum.term(0, coefficient)
    };
    let words = compiled(&default(1).bytes()).expect("the default that writes x0");
    assert_eq!(words[OF_DEFAULT], 1);
    assert_last_misplaced(&default(1).term(0, 1));
    assert_last_misplaced(&default(1).term(0, -1));
    // Its sums are each for themselves, and the rule's have named nothing of them.
    let twice = default(1).output(65_535).term(0, -1);
    assert!(compiled(&twice.bytes()).is_ok());
    assert_last_misplaced(&twice.term(0, 2));
    let after_rule = sum(&[7, 0]).default_group().output(0).term(0, 1);
    assert!(compiled(&after_rule.bytes()).is_ok());
}

/// Eight sums of one group, each with all positions in an order of its own, and the same
/// again in the next group.
#[test]
fn another_output_character_names_the_same_positions() {
    let mut random = Random::new(9);
    let group = |table: TableBuilder, random: &mut Random| {
        (0..8).fold(table.rule(MAX_LENGTH).spelled(0, WORD), |table, _| {
            named(table.output(CONSTANT), &random_order(random))
        })
    };
    let first = group(TableBuilder::new(), &mut random);
    let table = group(first, &mut random);
    let words = compiled(&table.bytes()).expect("positions of sums of their own");
    for entry in (0..2).flat_map(|block| (0..8).map(move |sum| 83 * block + 10 * sum)) {
        let coefficients = COEFFICIENTS.map(|coefficient| coefficient as u16);
        assert_eq!(words[OF_RULE + entry..][..MAX_LENGTH], coefficients);
    }
}

#[test]
fn terms_behind_a_digit_and_of_positions_not_below_k() {
    assert_last_misplaced(&rule().digit(7, 0).term(0, 1));
    // A position that the sum before the digit named, and one that it didn't.
    for position in [1, 2, 6] {
        assert_last_misplaced(&sum(&[6, 1]).digit(2, 12).term(position, 1));
    }
    for length in 1..MAX_LENGTH {
        let filled = TableBuilder::new()
            .rule(length)
            .spelled(0, &WORD[..length])
            .output(CONSTANT);
        let falling: Vec<usize> = (0..length).rev().collect();
        assert!(compiled(&named(filled.clone(), &falling).bytes()).is_ok());
        for count in 0..=length {
            let terms = named(filled.clone(), &falling[..count]);
            for position in length..MAX_LENGTH {
                assert_last_misplaced(&terms.clone().term(position, 1));
            }
        }
    }
    assert_last_misplaced(&rules(1).default_group().output(0).term(1, 1));
    let default = rules(1).default_group().output(0).term(0, 1);
    assert_last_misplaced(&default.term(1, 1));
}

/// The table with the terms of each sum changed.
fn changed(table: &Table, change: impl FnMut(&mut Sum)) -> Table {
    let mut table = table.clone();
    let groups = table.rules.iter_mut().chain(&mut table.default);
    groups.flat_map(Group::sums_mut).for_each(change);
    table
}

#[test]
fn random_tables_in_two_orders() {
    let mut random = Random::new(10);
    let mut moved = 0;
    for _ in 0..4000 {
        let found = random_table(&mut random);
        let rising = changed(&found, |sum| sum.terms.sort_by_key(|term| term.position));
        let shuffled = changed(&found, |sum| random.shuffle(&mut sum.terms));
        moved += usize::from(shuffled != rising);
        // Terms are read as they stand.
        assert_eq!(Table::read(&encode(&shuffled)).as_ref(), Ok(&shuffled));
        assert!(compiled(&encode(&shuffled)) == compiled(&encode(&rising)));
        let length = random.below(60);
        let input = random_input(&mut random, &rising, length);
        assert_eq!(convert(&shuffled, &input), convert(&rising, &input));
    }
    assert!(moved >= 1500, "{moved}");
}
