//! Compiling and the test of words against the independent version: the same
//! answer and the same words, the whole buffer of them, for every table.

use std::collections::BTreeMap;

use compare::both::{compile, is_sound};
use compare::cases::{examples, large_table, pattern, tables};
use compare::damage::Base;
use compare::face::{check, OK};
use compare::orders::{depths_fall, random_order, renumbered};
use reference::builder::TableBuilder;
use reference::compile::compiled;
use reference::random::Random;
use reference::samples::{refused_tables, rules, t1, t1_with, t2, t3, t3_with_default};
use reference::words::WORDS;

/// The seed of the random tables.
const SEED: u64 = 19_961;
/// How many random tables are compiled.
const TABLES: usize = 40_000;
/// How many damaged words are tested.
const DAMAGED: usize = 60_000;

/// A table that is compiled; its words, of which the header is looked at.
fn accepted(table: &[u8], header: [u16; 6]) -> Vec<u16> {
    let (code, words) = compile(table, WORDS + 5);
    assert_eq!(code, OK);
    assert_eq!(words[..6], header);
    words
}

/// A table that is refused, by a number.
fn refused(table: &[u8], number: u32) {
    assert_eq!(compile(table, WORDS + 5).0, number);
}

#[test]
fn t1_has_10_classes_and_9_states() {
    let words = accepted(&t1(), [9, 10, 5, 5, 3, 1]);
    let starts = [0, 0x23, 0x24, 0x26, 0x27, 0x30, 0x31, 0x3a, 0x3b, 0x3c];
    assert_eq!(words[6..16], starts);
    let depths: Vec<u16> = (0..9).map(|state| words[70 + 3 * state]).collect();
    assert_eq!(depths, [0, 1, 2, 3, 3, 4, 4, 5, 5]);
    // `&#` has anchored rule 2 as its end; the last two states have a go.
    assert_eq!(words[76..79], [2, 3, 0]);
    assert_eq!(words[91..97], [5, 1, 1, 5, 2, 2]);
}

#[test]
fn t2_and_t3() {
    let words = accepted(&t2(), [2, 3, 1, 1, 2, 0]);
    assert_eq!(words[73..76], [1, 1, 2]);
    assert_eq!(words[838..841], [0, 1, 0]);
    let words = accepted(&t3(), [3, 4, 3, 1, 2, 1]);
    assert_eq!(words[70..79], [0, 0, 0, 1, 0, 0, 2, 1, 1]);
}

#[test]
fn the_lines_marked_p_about_values() {
    refused(&t1_with(-529), 7);
    accepted(&t3_with_default(65535, -1), [3, 4, 3, 1, 2, 1]);
    refused(&t3_with_default(1, 1), 7);
}

#[test]
fn classes_and_states_at_their_limits_and_one_beyond() {
    accepted(&large_table(0, 7), [256, 64, 8, 0, 32, 0]);
    refused(&large_table(1, 7), 8);
    refused(&large_table(0, 8), 9);
    refused(&large_table(1, 8), 8);
    // Direct conversion takes all of them.
    for (first, last_length) in [(0, 7), (1, 7), (0, 8), (1, 8)] {
        assert_eq!(check(&large_table(first, last_length)), OK);
    }
}

#[test]
fn rules_positions_ranges_and_outputs_at_their_limits_and_one_beyond() {
    accepted(&rules(32).bytes(), [2, 3, 1, 0, 32, 0]);
    refused(&rules(33).bytes(), 6);

    let spelled = |count| {
        TableBuilder::new()
            .rule(count)
            .spelled(0, &"a".repeat(count))
    };
    accepted(&spelled(8).bytes(), [9, 3, 8, 0, 1, 0]);
    refused(&spelled(9).bytes(), 2);

    let ranges = |count: u16| {
        let one = |table: TableBuilder, range| table.range(0, 2 * range, 2 * range);
        (0..count).fold(TableBuilder::new().rule(1), one)
    };
    accepted(&ranges(4).bytes(), [2, 8, 1, 0, 1, 0]);
    refused(&ranges(5).bytes(), 6);

    for (group, default) in [(rules(1), 0), (rules(1).default_group(), 1)] {
        let outputs = |count| (0..count).fold(group.clone(), TableBuilder::output).bytes();
        accepted(&outputs(8), [2, 3, 1, 8, 1, default]);
        refused(&outputs(9), 6);
    }
}

#[test]
fn the_last_words_of_the_last_blocks() {
    let full = |table: TableBuilder, length: usize| {
        (0..8).fold(table, |table, output| {
            let table = table.output(output - 97 * length as i32);
            (0..length).fold(table, |table, position| table.term(position, 1))
        })
    };
    let table = full(rules(31).rule(8).spelled(0, "aaaaaaaa"), 8);
    let table = (0..8).fold(table.default_group(), |table, _| {
        table.output(65535).term(0, -1)
    });
    let words = accepted(&table.bytes(), [2, 3, 8, 8, 32, 1]);
    // -769 and 1 of rule 31; 65535 and -1 of the default.
    assert_eq!(
        words[17222 + 31 * 83 + 73..][..10],
        [0, 64767, 1, 1, 1, 1, 1, 1, 1, 1]
    );
    assert_eq!(
        words[WORDS - 10..WORDS],
        [0, 65535, 65535, 0, 0, 0, 0, 0, 0, 0]
    );
}

#[test]
fn each_refusal_of_the_table() {
    let large = [(8, large_table(1, 7)), (9, large_table(0, 8))];
    for (number, table) in refused_tables().into_iter().chain(large) {
        let number = u32::from(number);
        refused(&table, number);
        assert_eq!(compile(&table, WORDS).0, number);
        assert_eq!(compile(&table, WORDS - 1).0, 10);
    }
}

#[test]
fn short_buffers_are_refused_by_10_unchanged() {
    for table in [t1(), t2(), Vec::new(), vec![1], large_table(0, 7)] {
        for room in [0, 1, 5, 6, 70, 838, 17_222, 19_000, WORDS - 2, WORDS - 1] {
            assert_eq!(compile(&table, room).0, 10);
        }
    }
    assert_eq!(compile(&t1(), WORDS).0, OK);
}

#[test]
fn random_and_damaged_tables() {
    let mut random = Random::new(SEED + 1);
    let mut seen: BTreeMap<u32, usize> = BTreeMap::new();
    let (mut full_classes, mut full_states) = (0, 0);
    for table in tables(SEED).take(TABLES) {
        let room = match random.below(12) {
            0 => random.below(WORDS),
            _ => WORDS + 1 + random.below(40),
        };
        let (code, words) = compile(&table, room);
        *seen.entry(code).or_default() += 1;
        if code == OK {
            full_classes += usize::from(words[1] == 64);
            full_states += usize::from(words[0] >= 250);
        }
    }
    println!("answers {seen:?}, 64 classes {full_classes}, 250 states or more {full_states}");
    // Each answer that compiling has was met often, and no other was.
    let met: Vec<u32> = seen.keys().copied().collect();
    assert_eq!(met, [OK, 1, 2, 3, 4, 5, 6, 7, 8, 9, 10]);
    let least = |code: u32| if code == OK { 10_000 } else { 200 };
    assert!(
        seen.iter().all(|(&code, &times)| times >= least(code)),
        "{seen:?}"
    );
    assert!(full_classes >= 200, "{full_classes}");
    assert!(full_states >= 200, "{full_states}");
}

#[test]
fn every_change_of_one_byte_of_the_example_tables() {
    let (mut accepted, mut refused) = (0, 0);
    for mut table in examples() {
        for place in 0..table.len() {
            let found = table[place];
            for byte in (0..=u8::MAX).filter(|&byte| byte != found) {
                table[place] = byte;
                match compile(&table, WORDS + 1).0 {
                    OK => accepted += 1,
                    _ => refused += 1,
                }
            }
            table[place] = found;
        }
    }
    println!("one byte changed: {accepted} accepted, {refused} refused");
    assert!(accepted >= 5_000, "{accepted}");
    assert!(refused >= 50_000, "{refused}");
}

#[test]
fn every_cut_of_the_example_tables() {
    for table in examples() {
        for length in 0..=table.len() {
            compile(&table[..length], WORDS + 1);
        }
    }
}

#[test]
fn damaged_words() {
    let mut random = Random::new(SEED + 2);
    let (mut sound, mut unsound, mut short, mut tested) = (0, 0, 0, 0);
    let bases = tables(SEED + 3).filter_map(|table| compiled(&table).ok());
    for words in bases.take(DAMAGED / 60) {
        assert!(is_sound(&words));
        let base = Base::new(words);
        for _ in 0..60 {
            let mut words = base.damaged(&mut random);
            match random.below(20) {
                0 => words.truncate(random.below(WORDS)),
                1 => words.truncate(WORDS - 1),
                2 => words.extend(pattern(7, random.below(40))),
                _ => (),
            }
            tested += 1;
            short += usize::from(words.len() < WORDS);
            match is_sound(&words) {
                true => sound += 1,
                false => unsound += 1,
            }
        }
    }
    println!("{tested} damaged: {sound} sound, {unsound} not, of which {short} too short");
    assert!(tested >= 60_000, "{tested}");
    assert!(sound >= 10_000, "{sound}");
    assert!(unsound - short >= 15_000, "{unsound}");
    assert!(short >= 2_000, "{short}");
}

#[test]
fn words_with_states_in_another_order() {
    let mut random = Random::new(SEED + 4);
    let (mut falling, mut sound, mut unsound) = (0, 0, 0);
    let bases = tables(SEED + 5).filter_map(|table| compiled(&table).ok());
    for words in bases.filter(|words| words[0] < 64).take(2000) {
        assert!(!depths_fall(&words));
        let order = random_order(&mut random, &words);
        let words = renumbered(&words, &order);
        assert!(is_sound(&words));
        falling += usize::from(depths_fall(&words));
        let base = Base::new(words);
        for _ in 0..20 {
            match is_sound(&base.damaged(&mut random)) {
                true => sound += 1,
                false => unsound += 1,
            }
        }
    }
    println!("{falling} with depths that fall; damaged: {sound} sound, {unsound} not");
    assert!(falling >= 500, "{falling}");
    assert!(sound >= 5_000, "{sound}");
    assert!(unsound >= 15_000, "{unsound}");
}

#[test]
fn a_depth_left_out() {
    // T3's third state, of depth 2, is put to depth 3: that is sound where no state leads
    // there.
    let mut words = compiled(&t3()).expect("T3 compiles");
    assert_eq!(words[..3], [3, 4, 3]);
    words[76..79].copy_from_slice(&[3, 0, 0]);
    assert!(!is_sound(&words));
    words[838 + 64..][..64].fill(0);
    assert!(is_sound(&words));
    // And one of depth 1 behind it.
    words[0] = 4;
    words[79] = 1;
    assert!(depths_fall(&words) && is_sound(&words));
}

#[test]
fn every_word_of_the_example_tables_changed() {
    let (mut sound, mut unsound) = (0, 0);
    for table in examples() {
        let mut words = compiled(&table).expect("the example tables compile");
        for place in 0..WORDS {
            let found = words[place];
            for value in [
                found ^ 1,
                found.wrapping_add(1),
                found.wrapping_sub(1),
                65535,
            ] {
                words[place] = value;
                match is_sound(&words) {
                    true => sound += 1,
                    false => unsound += 1,
                }
            }
            words[place] = found;
        }
    }
    println!("one word changed: {sound} sound, {unsound} not");
    assert!(sound >= 200_000, "{sound}");
    assert!(unsound >= 400, "{unsound}");
}

#[test]
fn every_value_of_the_header_of_t1() {
    let mut words = compiled(&t1()).expect("T1 compiles");
    for place in 0..6 {
        let found = words[place];
        for value in 0..=u16::MAX {
            words[place] = value;
            is_sound(&words);
        }
        words[place] = found;
    }
}

#[test]
fn a_seed_gives_the_same_tables_each_time_and_another_seed_others() {
    let some = |seed| tables(seed).take(1000).collect::<Vec<_>>();
    assert_eq!(some(SEED), some(SEED));
    assert_ne!(some(SEED), some(SEED + 1));
}
