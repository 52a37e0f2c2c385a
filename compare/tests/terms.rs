//! Request [7], terms in any order: tables beside their twins with the terms by
//! position, through compiling and direct conversion, each compared with the
//! independent version, and damage to the records of terms.

use std::collections::BTreeMap;

use compare::both::{compile, convert, from_text};
use compare::cases::{self, chooses, large_table, pattern, sound_tables, Case};
use compare::face::{OK, STOPPED, TABLE_SIZE};
use compare::terms::{by_position, damaged, shuffled, tables, Damage};
use compare::typed::longest_text;
use reference::builder::TableBuilder;
use reference::random::Random;
use reference::table::{Group, Sum, Table};
use reference::words::WORDS;

/// The seed of the random tables.
const SEED: u64 = 777;
/// How many sound tables are taken whose terms don't stand by position.
const SOUND: usize = 50_000;
/// How many tables with damage of all sorts are taken.
const DAMAGED: usize = 12_000;
/// How many sound tables have their terms damaged in each way.
const EACH: usize = 3_000;

/// What a table is answered, and then its twin.
#[derive(Debug)]
struct Twins {
    compiled: [u32; 2],
    converted: [u32; 2],
}

/// Whether answers are alike: the same, or refusals of records, of which another may be
/// the first at fault.
fn are_alike([one, other]: [u32; 2]) -> bool {
    one == other || [one, other].iter().all(|code| matches!(code, 2 | 3))
}

/// Compiles a case's table and its twin, with the terms by position, into buffers of one
/// length, and converts under both, each compared with the independent version. "Two
/// tables that differ only here compile to equal words and are accepted alike." So do
/// refused ones, whose words are 0 or as found.
///
/// # Panics
///
/// If the twins are not alike.
fn twins(case: &Case, room: usize) -> Twins {
    let twin = Case {
        table: by_position(&case.table),
        ..case.clone()
    };
    let (one, words) = compile(&case.table, room);
    let (other, twin_words) = compile(&twin.table, room);
    assert!(words == twin_words, "{case:?}");
    let (left, twin_left) = (convert(case), convert(&twin));
    let twins = Twins {
        compiled: [one, other],
        converted: [left.code, twin_left.code],
    };
    assert!(are_alike(twins.compiled), "{twins:?}, {case:?}");
    assert!(are_alike(twins.converted), "{twins:?}, {case:?}");
    let place_and_text = left.place == twin_left.place && left.output == twin_left.output;
    assert!(place_and_text && left.count == twin_left.count, "{case:?}");
    twins
}

/// What tables have: sums whose terms don't stand by position, by the number of their
/// terms; tables in which two sums of a group name one position; and tables and inputs
/// on which a group with such a sum is chosen.
#[derive(Debug, Default)]
struct Had {
    falling: [usize; 9],
    shared: usize,
    written: usize,
}

/// Whether the positions of a sum's terms fall somewhere.
fn falls(sum: &Sum) -> bool {
    !sum.terms.is_sorted_by_key(|term| term.position)
}

/// Whether two sums of a group name one position.
fn shares(group: &Group) -> bool {
    (0..group.length()).any(|position| {
        let names = |sum: &&Sum| sum.terms.iter().any(|term| term.position == position);
        group.sums().filter(names).count() > 1
    })
}

impl Had {
    /// Notes a table, and an input whose text both give.
    fn note(&mut self, table: &Table, input: &[u16]) {
        for sum in table
            .groups()
            .flat_map(Group::sums)
            .filter(|sum| falls(sum))
        {
            self.falling[sum.terms.len()] += 1;
        }
        self.shared += usize::from(table.groups().any(shares));
        let written = chooses(table, input, |group| group.sums().any(falls));
        self.written += usize::from(written);
    }
}

/// One rule in fourteen is of length 8. The guards are a third or less of what the odds
/// give.
#[test]
fn sound_tables_and_their_twins() {
    let (mut random, mut had) = (Random::new(SEED), Had::default());
    for bytes in tables(SEED + 1).take(SOUND) {
        let table = Table::read(&bytes).expect("terms in any order");
        let case = Case::under(&mut random, bytes, &table);
        let twins = twins(&case, WORDS + random.below(9));
        assert_eq!(twins.compiled, [OK; 2]);
        let converted = matches!(twins.converted, [OK | STOPPED, _]);
        had.note(&table, if converted { &case.input } else { &[] });
    }
    println!("{had:?}");
    let least = [19_000, 16_000, 9_000, 4_500, 2_000, 850, 190];
    let mut falling = had.falling[2..].iter().zip(least);
    assert!(falling.all(|(&met, least)| met >= least), "{had:?}");
    assert!(had.shared >= SOUND / 5, "{had:?}");
    assert!(had.written >= SOUND / 12, "{had:?}");
}

/// The tables of compiling, most of them damaged, with their terms in a random order:
/// each of its answers must be met.
#[test]
fn damaged_tables_and_their_twins() {
    let mut random = Random::new(SEED + 2);
    let mut seen: BTreeMap<u32, usize> = BTreeMap::new();
    let mut moved = 0;
    for table in cases::tables(SEED + 3).take(DAMAGED) {
        let bytes = shuffled(&mut random, &table);
        moved += usize::from(bytes != by_position(&bytes));
        let case = match Table::read(&bytes) {
            Ok(table) => Case::under(&mut random, bytes, &table),
            Err(_) => Case {
                table: bytes,
                input: pattern(97, random.below(9)),
                output: pattern(7, random.below(80)),
            },
        };
        let twins = twins(&case, WORDS - 1 + random.below(9));
        *seen.entry(twins.compiled[0]).or_default() += 1;
    }
    println!("{seen:?}, {moved} moved");
    let met: Vec<u32> = seen.keys().copied().collect();
    assert_eq!(met, [OK, 1, 2, 3, 4, 5, 6, 7, 8, 9, 10]);
    assert!(seen.values().all(|&times| times >= 60), "{seen:?}");
    assert!(moved >= DAMAGED / 6, "{moved}");
}

/// One table in six has a rule of length 8 that writes a sum. Of two faults of one output
/// character the first in the order of the records counts, so that twins differ.
#[test]
fn each_damage_to_terms() {
    let mut random = Random::new(SEED + 4);
    let mut met: BTreeMap<Damage, BTreeMap<[u32; 2], usize>> = BTreeMap::new();
    for table in sound_tables(SEED + 5).take(EACH) {
        for damage in Damage::all() {
            let Some(bytes) = damaged(&mut random, &table, damage) else {
                continue;
            };
            let case = Case::under(&mut random, bytes, &table);
            let Twins {
                compiled,
                converted,
            } = twins(&case, WORDS + 1);
            let refused = damage.refused_by().map_or(compiled, |number| [number; 2]);
            assert_eq!([compiled, converted], [refused; 2], "{damage:?}, {case:?}");
            let times = met.entry(damage).or_default().entry(compiled);
            *times.or_default() += 1;
        }
    }
    println!("{met:?}");
    assert_eq!(met.len(), Damage::all().count());
    for (damage, numbers) in &met {
        let times: usize = numbers.values().sum();
        let least = match damage {
            Damage::Repeated(5..) => EACH / 18,
            _ => EACH / 3,
        };
        assert!(times >= least, "{damage:?}: {times}");
    }
    let two = &met[&Damage::Two];
    let differing = [[2, 2], [2, 3], [3, 2], [3, 3]];
    assert!(
        differing.iter().all(|codes| two[codes] >= EACH / 30),
        "{two:?}"
    );
}

/// The longest table, whose 256 sums of rules have eight terms each.
#[test]
fn the_longest_table_in_any_order() {
    let (code, table) = from_text(&longest_text(), TABLE_SIZE);
    assert_eq!((code, table.len()), (OK, TABLE_SIZE));
    let read = Table::read(&table).expect("accepted");
    let mut random = Random::new(SEED + 6);
    for _ in 0..20 {
        let bytes = shuffled(&mut random, &table);
        assert!(bytes != table && by_position(&bytes) == table);
        let case = Case::under(&mut random, bytes, &read);
        assert_eq!(twins(&case, WORDS).compiled, [OK; 2]);
    }
}

/// 64 classes and 256 states, and one more of each, with falling terms in the last rule:
/// x1 + 3 times what x0 is above the rule's first character, which is nothing.
#[test]
fn terms_that_fall_at_the_limits_and_one_beyond() {
    for (first, last_length, code) in [(0, 7, OK), (1, 7, 8), (0, 8, 9)] {
        let fixed = i32::from(first) + 2 * 31;
        let sum = TableBuilder::new().output(-3 * fixed).term(1, 1).term(0, 3);
        let case = Case {
            table: [large_table(first, last_length), sum.bytes()].concat(),
            input: pattern(first + 2 * 31, 8),
            output: pattern(5, 8),
        };
        let twins = twins(&case, WORDS);
        assert_eq!(twins.compiled, [code; 2]);
        assert!(matches!(twins.converted, [OK | STOPPED, _]), "{twins:?}");
    }
}
