//! Digits as output characters: every value, tables with digits through every
//! function, and damage to their records and to the words of their entries.

use std::collections::BTreeMap;

use compare::both::{compile, convert, is_sound};
use compare::calls::{compare, fed, roomy_feed, Left, ROOMY_FINISH};
use compare::cases::{chooses, pattern, Case};
use compare::digits::{damaged_record, tables, Damage, Entries};
use compare::face::{Session, OK, STOPPED};
use compare::lists::{Called, Compiled};
use reference::builder::{encode, hexadecimal, TableBuilder};
use reference::random::Random;
use reference::table::{Digit, Group, Output, Table, SHIFTS};
use reference::words::WORDS;

/// The seed of the random tables.
const SEED: u64 = 83;
/// How many tables with digits go through compiling, direct conversion and a list
/// of calls.
const TABLES: usize = 50_000;
/// How many tables with digits have each byte of a record of kind 6 changed.
const RECORDS: usize = 6_500;
/// How many tables with digits have their entries damaged in each way.
const ENTRIES: usize = 3_000;

/// The four digits of the character at a position.
fn four_digits(table: TableBuilder, position: usize) -> TableBuilder {
    let shifts = SHIFTS.into_iter().rev();
    shifts.fold(table, |table, shift| table.digit(position, shift))
}

/// Converts an input whole and in pieces; both give the text.
fn expect(table: &[u8], input: &[u16], text: &[u16]) {
    let case = Case {
        table: table.to_vec(),
        input: input.to_vec(),
        output: pattern(7, 4 * input.len()),
    };
    let left = convert(&case);
    assert_eq!((left.code, left.count), (OK, text.len() as u64));
    assert!(left.output[..text.len()] == *text);
    let (_, words) = compile(table, WORDS);
    let (session, written) = fed(&words, input.chunks(1000));
    assert_eq!(session.status, 1);
    assert!(written == *text);
}

#[test]
fn every_character_at_every_position_by_every_shift() {
    let text: Vec<u16> = (0..=u16::MAX).flat_map(hexadecimal).collect();
    for position in 0..8 {
        let any = |table: TableBuilder, position| table.range(position, 0, u16::MAX);
        let rule = (0..8).fold(TableBuilder::new().rule(8), any);
        let table = four_digits(rule, position).bytes();
        let word = |character: u16| {
            let mut word = [character ^ 0x5a5a; 8];
            word[position] = character;
            word
        };
        let input: Vec<u16> = (0..=u16::MAX).flat_map(word).collect();
        expect(&table, &input, &text);
    }
}

#[test]
fn every_character_by_the_default() {
    // The rule takes 65535 alone and writes `FFFF` as the default would.
    let rule = TableBuilder::new().rule(1).range(0, u16::MAX, u16::MAX);
    let table = four_digits(rule.text("FFFF").default_group(), 0).bytes();
    let input: Vec<u16> = (0..=u16::MAX).collect();
    let text: Vec<u16> = input.iter().copied().flat_map(hexadecimal).collect();
    expect(&table, &input, &text);
}

/// What tables with digits have: how many of them a digit at each position, by
/// each shift, in a rule, in the default, and in a group with a sum.
#[derive(Debug, Default)]
struct Had {
    tables: usize,
    positions: [usize; 8],
    shifts: BTreeMap<u16, usize>,
    rules: usize,
    defaults: usize,
    beside_sums: usize,
}

/// The digits of a group.
fn digits(group: &Group) -> impl Iterator<Item = Digit> + '_ {
    group.outputs.iter().filter_map(|output| match output {
        Output::Sum(_) => None,
        Output::Digit(digit) => Some(*digit),
    })
}

/// Whether a group has a digit.
fn has(group: &Group) -> bool {
    digits(group).next().is_some()
}

impl Had {
    /// Notes a table by its bytes, which are accepted.
    fn note(&mut self, bytes: &[u8]) {
        let table = Table::read(bytes).expect("a sound table");
        let mixed = |group: &Group| has(group) && group.sums().next().is_some();
        let digits: Vec<Digit> = table.groups().flat_map(digits).collect();
        self.tables += usize::from(!digits.is_empty());
        for (position, times) in self.positions.iter_mut().enumerate() {
            *times += usize::from(digits.iter().any(|digit| digit.position == position));
        }
        for shift in SHIFTS {
            let found = digits.iter().any(|digit| digit.shift == shift);
            *self.shifts.entry(shift).or_default() += usize::from(found);
        }
        self.rules += usize::from(table.rules.iter().any(has));
        self.defaults += usize::from(table.default.iter().any(has));
        self.beside_sums += usize::from(table.groups().any(mixed));
    }
}

/// One rule in fourteen is of length 8, the only one with positions 6 and 7. The
/// other guards are a third or less of what the odds give.
#[test]
fn tables_by_compiling_direct_conversion_and_lists_of_calls() {
    let mut random = Random::new(SEED + 1);
    let (mut had, mut written, mut listed) = (Had::default(), 0, 0);
    for machine in tables(SEED).filter_map(Compiled::of).take(TABLES) {
        let table = &machine.automaton.table;
        let bytes = encode(table);
        let (code, words) = compile(&bytes, WORDS + random.below(9));
        assert_eq!((code, &words[..WORDS]), (OK, &machine.words[..]));

        let case = Case::under(&mut random, bytes, table);
        let left = convert(&case);
        let converted = matches!(left.code, OK | STOPPED);
        written += usize::from(converted && chooses(table, &case.input, has));

        let calls = random.between(2, 12);
        let mut text = 0;
        let called = Called::random(&mut random, &machine, calls, |_, _, left| {
            text += left.text().len();
        });
        called.assert_reckoned(&machine);
        listed += usize::from(text > 0);
        had.note(&case.table);
    }
    println!("{had:?}, digits written under {written}, lists that write {listed}");
    assert!(had.tables >= TABLES, "{had:?}");
    let [early @ .., _, _] = had.positions;
    assert!(early.iter().all(|&times| times >= TABLES / 50), "{had:?}");
    assert!(had.positions.iter().all(|&times| times >= TABLES / 100));
    assert!(had.shifts.values().all(|&times| times >= TABLES / 5));
    assert!(had.rules >= TABLES / 3, "{had:?}");
    assert!(had.defaults >= TABLES / 10, "{had:?}");
    assert!(had.beside_sums >= TABLES / 5, "{had:?}");
    assert!(written >= TABLES / 5, "{written}");
    assert!(listed >= TABLES / 3, "{listed}");
}

/// Bytes 3 to 7 must be zero. Of the other values of bytes 1 and 2 a tenth and more
/// is another position or shift; one value of byte 0 in ten is another kind, which
/// bytes 1 and 2 suit rarely: kind 3 is sound where both are 0.
#[test]
fn each_byte_of_a_record_of_kind_6_changed() {
    let mut random = Random::new(SEED + 3);
    let mut seen: [BTreeMap<u32, usize>; 8] = Default::default();
    for table in tables(SEED + 2).take(RECORDS) {
        let bytes = encode(&table);
        for (byte, seen) in seen.iter_mut().enumerate() {
            let damaged = damaged_record(&mut random, &bytes, byte);
            let (code, _) = compile(&damaged, WORDS + 1);
            convert(&Case::under(&mut random, damaged, &table));
            *seen.entry(code).or_default() += 1;
        }
    }
    println!("{seen:?}");
    let times = |byte: usize, code: u32| seen[byte].get(&code).copied().unwrap_or(0);
    let total: usize = seen.iter().flat_map(BTreeMap::values).sum();
    assert!(total >= 50_000, "{total}");
    let each = seen.iter().map(|seen| seen.values().sum::<usize>());
    assert!(each.min() >= Some(RECORDS));
    assert!((0..3).all(|byte| times(byte, 2) >= RECORDS / 10));
    assert!((3..8).all(|byte| times(byte, 2) == RECORDS));
    assert!(times(0, OK) >= RECORDS / 1000);
    assert!(times(0, 3) >= RECORDS / 200);
    assert!(times(1, OK) >= RECORDS / 30);
    assert!(times(1, 3) >= RECORDS / 10);
    assert!(times(2, OK) >= RECORDS / 30);
}

/// Feeds an input to a fresh session and finishes, by both; what they left.
fn given(words: &[u16], input: &[u16]) -> [Left; 2] {
    let fed = compare(words, Session::FRESH, &roomy_feed(input));
    let finished = compare(words, fed.session, &ROOMY_FINISH);
    [fed, finished]
}

/// Of the tables with digits more than a third can be damaged in each way: half
/// has a digit in a group of several positions, nearly all one with fewer than
/// eight.
#[test]
fn each_damage_to_the_words_of_an_entry() {
    let mut random = Random::new(SEED + 5);
    let mut met: BTreeMap<Damage, [usize; 2]> = BTreeMap::new();
    for machine in tables(SEED + 4).filter_map(Compiled::of).take(ENTRIES) {
        let input = machine.input(&mut random);
        let found = given(&machine.words, &input);
        let entries = Entries::new(machine.words);
        for damage in Damage::all() {
            let Some(words) = entries.damaged(&mut random, damage) else {
                continue;
            };
            let sound = is_sound(&words);
            let left = given(&words, &input);
            assert_eq!(left[0].code == 11, !sound, "{damage:?}");
            assert!(damage.leaves_sound().is_none_or(|known| known == sound));
            assert!(!damage.changes_nothing() || left == found, "{damage:?}");
            met.entry(damage).or_default()[usize::from(sound)] += 1;
        }
    }
    println!("{met:?}");
    let total: usize = met.values().flatten().sum();
    assert!(total >= 50_000, "{total}");
    assert_eq!(met.len(), Damage::all().count());
    for (damage, [unsound, sound]) in met {
        assert!(unsound + sound >= ENTRIES / 3, "{damage:?}");
    }
}

#[test]
fn a_seed_gives_the_same_tables_each_time_and_another_seed_others() {
    let some = |seed| tables(seed).take(1000).collect::<Vec<_>>();
    assert!(some(SEED) == some(SEED));
    assert!(some(SEED) != some(SEED + 1));
}
