//! The reader on random and damaged bytes.

use std::collections::{BTreeMap, BTreeSet};

use reference::builder::{encode, encode_records, records};
use reference::compile::compiled;
use reference::random::Random;
use reference::refusal::Refusal;
use reference::samples::{random_digit, random_table};
use reference::table::{Digit, Group, Output, Range, Record, Table, Term};

/// How often each answer came: 0 for accepted, else the refusal's number.
type Tally = BTreeMap<u8, usize>;

/// Reads a table and checks what holds of every answer.
fn read_checked(bytes: &[u8], tally: &mut Tally) {
    let answer = Table::read(bytes);
    match &answer {
        Ok(table) => {
            assert!(keeps_the_rules(table));
            assert_eq!(encode(table), bytes);
        }
        Err(refusal) => {
            assert!((1..=7).contains(&refusal.number()));
            assert_eq!(
                bytes.len().is_multiple_of(8),
                *refusal != Refusal::TableLength
            );
            assert_eq!(compiled(bytes), Err(*refusal));
        }
    }
    let number = answer.map_or_else(Refusal::number, |_| 0);
    *tally.entry(number).or_default() += 1;
}

/// The rules set for a table, but for the values.
fn keeps_the_rules(table: &Table) -> bool {
    (1..=32).contains(&table.rules.len())
        && table.rules.iter().all(rule_keeps_the_rules)
        && (table.default.is_some() || !table.marked)
        && table.default.iter().all(|default| {
            default.positions == [[Range::ALL]]
                && !default.anchored
                && outputs_keep_the_rules(default)
        })
}

/// 1 to 8 positions, each with 1 to 4 ranges that rise.
fn rule_keeps_the_rules(rule: &Group) -> bool {
    (1..=8).contains(&rule.positions.len())
        && rule.positions.iter().all(|ranges| {
            (1..=4).contains(&ranges.len())
                && ranges.iter().all(|range| range.low <= range.high)
                && ranges.windows(2).all(|pair| pair[0].high < pair[1].low)
        })
        && outputs_keep_the_rules(rule)
}

/// At most 8 output characters: sums, whose terms are each of a position of its own
/// below K, and digits of a position below K by one of four shifts.
fn outputs_keep_the_rules(group: &Group) -> bool {
    let length = group.positions.len();
    let is_sound = |term: &Term| term.coefficient != 0 && term.position < length;
    let once = |terms: &[Term]| {
        let positions: BTreeSet<usize> = terms.iter().map(|term| term.position).collect();
        positions.len() == terms.len()
    };
    group.outputs.len() <= 8
        && group.outputs.iter().all(|output| match output {
            Output::Sum(sum) => sum.terms.iter().all(is_sound) && once(&sum.terms),
            Output::Digit(Digit { position, shift }) => {
                *position < length && *shift <= 12 && shift % 4 == 0
            }
        })
}

#[test]
fn a_table_that_keeps_the_rules_is_read_back_the_same() {
    let mut random = Random::new(71);
    let mut with_digits = 0;
    for _ in 0..4000 {
        let table = random_table(&mut random);
        with_digits += usize::from(table.has_digits());
        assert!(keeps_the_rules(&table));
        assert_eq!(Table::read(&encode(&table)), Ok(table));
    }
    assert!(with_digits > 1000, "{with_digits}");
}

#[test]
fn records_of_kind_6_are_digits_or_refused_by_2() {
    // [6, position 0 to 7, shift 0, 4, 8 or 12, and zeros]: nothing else.
    for position in 0..=u8::MAX {
        for shift in 0..=u8::MAX {
            let record = [6, position, shift, 0, 0, 0, 0, 0];
            let digit = Record::Digit(Digit {
                position: usize::from(position),
                shift: u16::from(shift),
            });
            let known = position <= 7 && [0, 4, 8, 12].contains(&shift);
            let expected = if known {
                Ok(digit)
            } else {
                Err(Refusal::Field)
            };
            assert_eq!(Record::decode(&record), expected);
            if known {
                assert_eq!(digit.encode(), record);
            }
        }
    }
    assert_zero_from(3, [6, 7, 12, 0, 0, 0, 0, 0]);
}

/// Asserts that a record whose bytes from a place on are 0 is refused by 2 with any other
/// number in one of them.
fn assert_zero_from(first: usize, record: [u8; 8]) {
    assert!(Record::decode(&record).is_ok());
    for place in first..8 {
        for byte in 1..=u8::MAX {
            let mut changed = record;
            changed[place] = byte;
            assert_eq!(Record::decode(&changed), Err(Refusal::Field));
        }
    }
}

#[test]
fn records_of_kind_5_are_marked_by_byte_1_or_refused_by_2() {
    // [5, 0 or 1, and zeros]: nothing else.
    for byte in 0..=u8::MAX {
        let record = [5, byte, 0, 0, 0, 0, 0, 0];
        let expected = match byte {
            0 => Ok(Record::Default { marked: false }),
            1 => Ok(Record::Default { marked: true }),
            _ => Err(Refusal::Field),
        };
        assert_eq!(Record::decode(&record), expected);
        if let Ok(default) = expected {
            assert_eq!(default.encode(), record);
        }
    }
    assert_zero_from(2, [5, 1, 0, 0, 0, 0, 0, 0]);
}

#[test]
fn random_bytes_are_answered() {
    let mut random = Random::new(72);
    let mut tally = Tally::new();
    for _ in 0..20_000 {
        let length = random.below(40);
        let bytes: Vec<u8> = (0..length).map(|_| random.number() as u8).collect();
        read_checked(&bytes, &mut tally);
    }
    assert!(tally[&1] > 1000 && tally[&2] > 1000, "{tally:?}");
}

/// A record whose fields are mostly small and mostly in their ranges.
fn random_record(random: &mut Random) -> Record {
    let position = random.below(3);
    match random.below(10) {
        0 | 1 => Record::Rule {
            length: random.below(3) + 1,
            anchored: random.one_in(2),
        },
        2..=5 => {
            let low = random.below(200) as u16;
            Record::Range {
                position,
                range: Range {
                    low,
                    high: low + random.below(40) as u16,
                },
            }
        }
        6 => Record::Output {
            constant: random.between(-2, 300) as i32,
        },
        7 => Record::Term(Term {
            position,
            coefficient: random.between(1, 300) as i16,
        }),
        8 => Record::Digit(random_digit(random, 3)),
        _ => Record::Default {
            marked: random.one_in(2),
        },
    }
}

#[test]
fn random_records_are_answered() {
    let mut random = Random::new(73);
    let mut tally = Tally::new();
    for _ in 0..100_000 {
        let count = random.below(7);
        let records: Vec<Record> = (0..count).map(|_| random_record(&mut random)).collect();
        read_checked(&encode_records(&records), &mut tally);
    }
    for number in [0, 3, 4, 5] {
        assert!(tally[&number] > 100, "{tally:?}");
    }
}

/// One damage: a byte or a bit changed, a record gone, doubled, moved, changed
/// for another, or bytes cut off.
fn damage(random: &mut Random, records: &[Record]) -> Vec<u8> {
    let mut bytes = encode_records(records);
    let record = random.below(records.len());
    let other = random.below(records.len());
    match random.below(8) {
        0 => bytes[8 * record + random.below(8)] = random.number() as u8,
        1 | 2 => bytes[8 * record + random.below(8)] ^= 1 << random.below(8),
        3 => drop(bytes.drain(8 * record..8 * record + 8)),
        4 => {
            let doubled = records[record].encode();
            let at = 8 * other;
            bytes.splice(at..at, doubled);
        }
        5 => {
            let mut records = records.to_vec();
            records.swap(record, other);
            bytes = encode_records(&records);
        }
        6 => bytes[8 * record..][..8].copy_from_slice(&random_record(random).encode()),
        _ => {
            let length = random.below(bytes.len());
            bytes.truncate(length);
        }
    }
    bytes
}

#[test]
fn damaged_tables_are_answered() {
    let mut random = Random::new(74);
    let mut tally = Tally::new();
    for _ in 0..4000 {
        let table = random_table(&mut random);
        let records = records(&table);
        for _ in 0..10 {
            read_checked(&damage(&mut random, &records), &mut tally);
        }
    }
    for number in 0..=7 {
        assert!(tally[&number] > 20, "{tally:?}");
    }
}
