//! Refusals 1 to 10: each by a case, each adjacent pair of compiling's order by
//! a case that breaks both, and what a refusal does to the words.

use reference::builder::TableBuilder;
use reference::compile::{compile, compiled};
use reference::refusal::Refusal;
use reference::samples::{refused_tables, rule_a, rules, t1, t2};
use reference::table::Table;
use reference::words::WORDS;

/// The number that compiling answers.
fn refused(table: &[u8]) -> u8 {
    compiled(table).expect_err("a refusal").number()
}

/// The number that compiling answers for a table being written.
fn refused_table(table: TableBuilder) -> u8 {
    refused(&table.bytes())
}

/// A table without records.
fn new() -> TableBuilder {
    TableBuilder::new()
}

/// A sound rule before a record, so that only the record itself can be at fault.
fn after_rule(record: [u8; 8]) -> Vec<u8> {
    let mut bytes = rules(1).bytes();
    bytes.extend(record);
    bytes
}

/// Rules, classes and states beyond the limits, one kind of fault each. 32 rules
/// of length 8 with first characters of their own have 257 states; `many` gives
/// rule 0 four single characters at each later position, which brings the
/// classes above 64; `output` is a constant for rule 0.
fn large_table(many: bool, output: i32) -> Vec<u8> {
    let mut table = new();
    for rule in 0..32u16 {
        table = table.rule(8).range(0, rule, rule);
        for position in 1..8 {
            if many && rule == 0 {
                for range in 0..4 {
                    let character = 100 + 10 * position as u16 + 2 * range;
                    table = table.range(position, character, character);
                }
            } else {
                table = table.range(position, 0, 65535);
            }
        }
        if rule == 0 {
            table = table.output(output);
        }
    }
    table.bytes()
}

#[test]
fn refusal_1_length_no_multiple_of_8() {
    for length in 0..=t1().len() {
        let answer = compiled(&t1()[..length]);
        assert_eq!(
            answer == Err(Refusal::TableLength),
            length % 8 != 0,
            "{length}"
        );
    }
}

#[test]
fn refusal_2_unknown_kind() {
    for kind in (0..=u8::MAX).filter(|kind| !(1..=6).contains(kind)) {
        assert_eq!(refused(&after_rule([kind, 0, 0, 0, 0, 0, 0, 0])), 2);
    }
    assert!(compiled(&after_rule([6, 0, 0, 0, 0, 0, 0, 0])).is_ok());
}

#[test]
fn refusal_2_fields_outside_their_own_range() {
    for length in (0..=u8::MAX).filter(|length| !(1..=8).contains(length)) {
        assert_eq!(refused(&after_rule([1, length, 0, 0, 0, 0, 0, 0])), 2);
    }
    for anchored in 2..=u8::MAX {
        assert_eq!(refused(&after_rule([1, 1, anchored, 0, 0, 0, 0, 0])), 2);
    }
    for position in 8..=u8::MAX {
        let range = [2, position, 0, 0, 97, 0, 97, 0];
        let term = [4, position, 0, 0, 1, 0, 0, 0];
        let digit = [6, position, 4, 0, 0, 0, 0, 0];
        assert_eq!(refused(&after_rule(range)), 2);
        assert_eq!(refused(&after_rule(term)), 2);
        assert_eq!(refused(&after_rule(digit)), 2);
    }
    for shift in 0..=u8::MAX {
        let answer = compiled(&after_rule([6, 0, shift, 0, 0, 0, 0, 0]));
        match shift {
            0 | 4 | 8 | 12 => assert!(answer.is_ok()),
            _ => assert_eq!(answer, Err(Refusal::Field), "{shift}"),
        }
    }
    for mark in 2..=u8::MAX {
        assert_eq!(refused(&after_rule([5, mark, 0, 0, 0, 0, 0, 0])), 2);
    }
    assert_eq!(refused(&after_rule([4, 0, 0, 0, 0, 0, 0, 0])), 2);
}

#[test]
fn refusal_2_bytes_that_must_be_zero() {
    let zeros: [(u8, &[usize]); 6] = [
        (1, &[3, 4, 5, 6, 7]),
        (2, &[2, 3]),
        (3, &[1, 2, 3]),
        (4, &[2, 3, 6, 7]),
        (5, &[2, 3, 4, 5, 6, 7]),
        (6, &[3, 4, 5, 6, 7]),
    ];
    for (kind, places) in zeros {
        for &place in places {
            let mut record = match kind {
                1 => [1, 1, 0, 0, 0, 0, 0, 0],
                2 => [2, 0, 0, 0, 98, 0, 98, 0],
                3 => [3, 0, 0, 0, 1, 0, 0, 0],
                4 => [4, 0, 0, 0, 1, 0, 0, 0],
                5 => [5, 0, 0, 0, 0, 0, 0, 0],
                _ => [6, 0, 4, 0, 0, 0, 0, 0],
            };
            record[place] = 1;
            assert_eq!(refused(&after_rule(record)), 2, "kind {kind} byte {place}");
        }
    }
}

#[test]
fn refusal_2_lowest_above_highest() {
    assert_eq!(refused_table(new().rule(1).range(0, 98, 97)), 2);
    // Little-endian: 0x0100 is above 0x00ff.
    let low_above = [[1, 1, 0, 0, 0, 0, 0, 0], [2, 0, 0, 0, 0, 1, 255, 0]];
    assert_eq!(refused(low_above.as_flattened()), 2);
    let low_below = [[1, 1, 0, 0, 0, 0, 0, 0], [2, 0, 0, 0, 255, 0, 0, 1]];
    assert!(compiled(low_below.as_flattened()).is_ok());
}

#[test]
fn refusal_3_a_record_where_its_kind_cannot_come() {
    // At the table's start.
    assert_eq!(refused_table(new().range(0, 97, 97)), 3);
    assert_eq!(refused_table(new().output(1)), 3);
    assert_eq!(refused_table(new().term(0, 1)), 3);
    assert_eq!(refused_table(new().digit(0, 4)), 3);
    // A range after an output character or a term.
    assert_eq!(refused_table(rules(1).output(1).spelled(0, "b")), 3);
    assert_eq!(refused_table(rules(1).digit(0, 4).spelled(0, "b")), 3);
    let after_term = rules(1).output(0).term(0, 1).spelled(0, "b");
    assert_eq!(refused_table(after_term), 3);
    // A term without an output character, though a position is unfilled.
    assert_eq!(refused_table(new().rule(1).term(0, 1)), 3);
    assert_eq!(refused_table(rules(1).term(0, 1)), 3);
    assert_eq!(refused_table(rules(1).default_group().term(0, 1)), 3);
    // A range in the default, a rule or a default after it.
    let default = || rules(1).default_group();
    assert_eq!(refused_table(default().range(0, 98, 98)), 3);
    assert_eq!(refused_table(rule_a(default())), 3);
    assert_eq!(refused_table(default().output(1).default_group()), 3);
}

#[test]
fn refusal_3_a_digit_takes_no_terms() {
    let default = || rules(1).default_group();
    assert_eq!(refused_table(rules(1).digit(0, 0).term(0, 1)), 3);
    assert_eq!(refused_table(default().digit(0, 0).term(0, 1)), 3);
    // The terms of a sum before it are no excuse, nor is a sum without terms.
    let sum = || new().rule(2).spelled(0, "ab").output(0).term(0, 1);
    assert_eq!(refused_table(sum().digit(0, 0).term(1, 1)), 3);
    assert_eq!(refused_table(rules(1).output(1).digit(0, 0).term(0, 1)), 3);
    // A sum after it takes them again.
    assert!(compiled(&sum().digit(1, 0).output(0).term(0, 1).bytes()).is_ok());
}

#[test]
fn refusal_3_a_position_not_below_k() {
    for length in 1..8 {
        assert_eq!(refused_table(new().rule(length).range(length, 97, 97)), 3);
        let filled = new().rule(length).spelled(0, &"a".repeat(length));
        assert_eq!(refused_table(filled.clone().output(0).term(length, 1)), 3);
        assert_eq!(refused_table(filled.clone().digit(length, 0)), 3);
        assert!(compiled(&filled.clone().digit(length - 1, 0).bytes()).is_ok());
        assert!(compiled(&filled.output(0).term(length - 1, 1).bytes()).is_ok());
    }
    let default = || rules(1).default_group();
    assert_eq!(refused_table(default().output(0).term(1, 1)), 3);
    assert_eq!(refused_table(default().digit(1, 0)), 3);
}

#[test]
fn refusal_3_ranges_out_of_order() {
    let ranges = || new().rule(2).range(0, 97, 99);
    assert_eq!(refused_table(ranges().range(0, 99, 101)), 3);
    assert_eq!(refused_table(ranges().range(0, 90, 95)), 3);
    assert_eq!(
        refused_table(ranges().range(1, 97, 97).range(0, 101, 101)),
        3
    );
    let side_by_side = ranges().range(0, 100, 101).range(1, 97, 97);
    assert!(compiled(&side_by_side.bytes()).is_ok());
}

#[test]
fn refusal_3_a_terms_position_repeated() {
    let output = || new().rule(3).spelled(0, "abc").output(0);
    assert_eq!(refused_table(output().term(1, 1).term(1, 1)), 3);
    // With other terms between, the coefficient being another.
    let falling = || output().term(1, 1).term(0, 2);
    assert_eq!(refused_table(falling().term(1, 3)), 3);
    assert_eq!(refused_table(falling().term(2, 1).term(1, 1)), 3);
    // Falling positions are no fault, and a new output character begins anew.
    assert!(compiled(&falling().bytes()).is_ok());
    let again = falling().output(0).term(1, 1).term(0, 2);
    assert!(compiled(&again.bytes()).is_ok());
}

#[test]
fn refusal_4_a_position_skipped_or_unfilled_when_the_ranges_end() {
    assert_eq!(refused_table(new().rule(2).spelled(1, "a")), 4);
    assert_eq!(
        refused_table(new().rule(3).spelled(0, "a").spelled(2, "a")),
        4
    );
    let unfilled = || new().rule(2).spelled(0, "a");
    assert_eq!(refused_table(rule_a(unfilled())), 4);
    assert_eq!(refused_table(unfilled().output(1)), 4);
    assert_eq!(refused_table(unfilled().digit(0, 4)), 4);
    assert_eq!(refused_table(unfilled().digit(1, 4)), 4);
    assert_eq!(refused_table(new().rule(1).digit(0, 0)), 4);
    assert_eq!(refused_table(unfilled().default_group()), 4);
    assert_eq!(refused_table(unfilled()), 4);
    assert_eq!(refused_table(new().rule(1)), 4);
}

#[test]
fn refusal_5_no_rule() {
    assert_eq!(refused(&[]), 5);
    assert_eq!(refused_table(new().copying_default()), 5);
}

#[test]
fn refusal_6_one_more_than_the_limit() {
    assert!(compiled(&rules(32).bytes()).is_ok());
    assert_eq!(refused_table(rules(33)), 6);
    let ranges = |count: u16| {
        (0..count).fold(new().rule(1), |table, range| {
            table.range(0, 2 * range, 2 * range)
        })
    };
    assert!(compiled(&ranges(4).bytes()).is_ok());
    assert_eq!(refused_table(ranges(5)), 6);
    for group in [rules(1), rules(1).default_group()] {
        let outputs = |count| (0..count).fold(group.clone(), TableBuilder::output);
        assert!(compiled(&outputs(8).bytes()).is_ok());
        assert_eq!(refused_table(outputs(9)), 6);
        // Sums and digits together, in whatever order.
        let digits = |count| (0..count).fold(group.clone(), |table, _| table.digit(0, 8));
        assert!(compiled(&digits(8).bytes()).is_ok());
        assert_eq!(refused_table(digits(9)), 6);
        assert_eq!(refused_table(digits(8).output(0)), 6);
        assert_eq!(refused_table(outputs(8).digit(0, 8)), 6);
        assert!(compiled(
            &outputs(4)
                .digit(0, 8)
                .output(0)
                .term(0, 1)
                .digit(0, 0)
                .bytes()
        )
        .is_ok());
        assert_eq!(
            refused_table((0..5).fold(outputs(4), |t, _| t.digit(0, 8))),
            6
        );
    }
}

#[test]
fn refusal_7_an_output_value_may_leave_the_characters() {
    for (constant, accepted) in [(-1, false), (0, true), (65535, true), (65536, false)] {
        let table = rules(1).output(constant);
        assert_eq!(compiled(&table.bytes()).is_ok(), accepted, "{constant}");
    }
    assert_eq!(refused_table(rules(1).output(65535 - 97 + 1).term(0, 1)), 7);
    assert_eq!(refused_table(rules(1).output(96).term(0, -1)), 7);
    assert_eq!(refused_table(rules(1).output(i32::MIN)), 7);
    assert_eq!(refused_table(rules(1).output(i32::MAX)), 7);
    // The values of an earlier rule that always wins are no excuse.
    assert_eq!(refused_table(rules(2).output(-1)), 7);
}

#[test]
fn refusals_8_and_9() {
    let classes = (0..16).fold(new(), |table, rule: u16| {
        (0..2).fold(table.rule(1), |table, range| {
            let character = 4 * rule + 2 * range + 1;
            table.range(0, character, character)
        })
    });
    assert_eq!(refused_table(classes), 8);
    assert_eq!(refused(&large_table(false, 0)), 9);
}

#[test]
fn order_10_then_1() {
    let mut words = vec![3; WORDS - 1];
    assert_eq!(compile(&[1], &mut words), Err(Refusal::ShortWords));
    assert_eq!(compile(&t1(), &mut words), Err(Refusal::ShortWords));
    assert!(words.iter().all(|&word| word == 3));
    assert_eq!(compile(&t1(), &mut []), Err(Refusal::ShortWords));
}

#[test]
fn order_1_then_2() {
    assert_eq!(refused(&[9; 9]), 1);
}

#[test]
fn order_2_then_3_in_one_record() {
    assert_eq!(refused_table(new().range(0, 98, 97)), 2);
    assert_eq!(refused(&[3, 1, 0, 0, 0, 0, 0, 0]), 2);
    assert_eq!(refused(&[6, 0, 1, 0, 0, 0, 0, 0]), 2);
    // A shift that is none, and a position not below K.
    assert_eq!(refused_table(rules(1).digit(7, 1)), 2);
}

#[test]
fn order_3_then_4_in_one_record() {
    // Position 5 is not below K, and position 0 is skipped or unfilled. No record
    // of kind 1, 3 or 5 can break both: where it finds an unfilled rule, its kind
    // can come.
    assert_eq!(refused_table(new().rule(2).range(5, 97, 97)), 3);
    assert_eq!(refused_table(new().rule(2).digit(5, 0)), 3);
}

#[test]
fn order_4_then_6_in_one_record() {
    // A 33rd rule, where the 32nd has an unfilled position.
    assert_eq!(refused_table(rules(31).rule(1).rule(1)), 4);
    // A fifth range can't skip a position as well, nor can a ninth output
    // character find one unfilled: the first was refused. But a fifth range can
    // be out of order: 3 comes first.
    let four = (0..4).fold(new().rule(1), |t, n| t.range(0, 2 * n, 2 * n));
    assert_eq!(refused_table(four.range(0, 1, 1)), 3);
    // So can a ninth output character be of a position not below K, and its
    // shift none.
    let eight = (0..8).fold(rules(1), TableBuilder::output);
    assert_eq!(refused_table(eight.clone().digit(1, 0)), 3);
    assert_eq!(refused_table(eight.digit(1, 2)), 2);
}

#[test]
fn records_are_looked_at_from_the_first() {
    // 3 in the first record, 2 in the second.
    let mut bytes = new().output(1).bytes();
    bytes.extend([9; 8]);
    assert_eq!(refused(&bytes), 3);
    // 6 in a record, 2 in a later one; 6 in a record, 4 at the end.
    let mut bytes = rules(33).bytes();
    bytes.extend([9; 8]);
    assert_eq!(refused(&bytes), 6);
    assert_eq!(refused_table(rules(32).rule(1)), 6);
    // A value that is out of range waits for the table's end.
    assert_eq!(refused_table(rules(1).output(-1).spelled(0, "a")), 3);
    let then_unfilled = rules(1).output(-1).rule(1);
    assert_eq!(refused_table(then_unfilled), 4);
    let then_many = (0..32).fold(rules(1).output(-1), |table, _| rule_a(table));
    assert_eq!(refused_table(then_many), 6);
}

#[test]
fn order_4_then_5_at_the_end() {
    // They can't be broken together: 4 at the end needs a rule, 5 needs none.
    assert_eq!(refused_table(new().rule(1)), 4);
    assert_eq!(refused_table(new().default_group()), 5);
}

#[test]
fn order_5_then_7() {
    assert_eq!(refused_table(new().default_group().output(-1)), 5);
}

#[test]
fn order_7_then_8_then_9() {
    assert_eq!(refused(&large_table(true, -1)), 7);
    assert_eq!(refused(&large_table(true, 0)), 8);
    assert_eq!(refused(&large_table(false, -1)), 7);
    assert_eq!(refused(&large_table(false, 0)), 9);
}

#[test]
fn refused_by_1_to_9_compiling_leaves_its_words_zero_and_those_beyond_as_found() {
    let large = [(8, large_table(true, 0)), (9, large_table(false, 0))];
    for (number, table) in refused_tables().into_iter().chain(large) {
        let mut words = vec![5; WORDS + 3];
        let refusal = compile(&table, &mut words).expect_err("a refusal");
        assert_eq!(refusal.number(), number);
        assert!(words[..WORDS].iter().all(|&word| word == 0));
        assert_eq!(words[WORDS..], [5, 5, 5]);
    }
}

#[test]
fn accepted_compiling_writes_all_its_words_and_leaves_those_beyond() {
    let mut words = vec![0xffff; WORDS + 3];
    assert_eq!(compile(&t2(), &mut words), Ok(()));
    assert_eq!(words[..WORDS], compiled(&t2()).unwrap());
    assert_eq!(words[WORDS..], [0xffff; 3]);
}

#[test]
fn the_reader_answers_the_same_as_compiling_up_to_7() {
    assert_eq!(Table::read(&[0; 7]), Err(Refusal::TableLength));
    assert!(Table::read(&large_table(true, 0)).is_ok());
    assert_eq!(Table::read(&large_table(true, -1)), Err(Refusal::Value));
}
