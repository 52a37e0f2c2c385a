//! Random tables, sound and damaged, alone for compiling and with inputs and
//! buffers for direct conversion; tables at the limits of compiling.

use reference::builder::{encode, encode_records, TableBuilder};
use reference::meaning::along;
use reference::random::Random;
use reference::samples::{
    digits_and_sums, four_digits, lookahead, random_input, random_table, t1, t2, t3, two_digits,
    units,
};
use reference::table::{
    Digit, Group, Range, Record, Table, Term, MAX_LENGTH, MAX_OUTPUTS, MAX_RANGES, MAX_RULES,
    RECORD_BYTES,
};

/// What direct conversion takes.
#[derive(Clone, Debug, PartialEq, Eq)]
pub struct Case {
    /// The table's bytes.
    pub table: Vec<u8>,
    /// The input.
    pub input: Vec<u16>,
    /// The output buffer as found.
    pub output: Vec<u16>,
}

/// The cases that a seed gives, without end.
pub fn cases(seed: u64) -> impl Iterator<Item = Case> {
    let mut random = Random::new(seed);
    std::iter::repeat_with(move || Case::random(&mut random))
}

impl Case {
    /// A random case: of every three tables about one is sound, and the others
    /// are damaged in one to three ways.
    fn random(random: &mut Random) -> Case {
        let base = base_table(random);
        let length = match random.below(50) {
            0 => random.below(600),
            _ => random.below(30),
        };
        let input = random_input(random, &base, length);
        let table = damaged(random, &base);
        let most_outputs = Table::read(&table).unwrap_or(base).most_outputs();
        let room = room(random, most_outputs * input.len());
        let first = random.character();
        Case {
            table,
            input,
            output: pattern(first, room),
        }
    }

    /// A direct conversion under a table's bytes, of an input made of the words of a
    /// table.
    pub fn under(random: &mut Random, bytes: Vec<u8>, table: &Table) -> Case {
        let length = random.below(30);
        let input = random_input(random, table, length);
        let room = room(random, table.most_outputs() * input.len());
        Case {
            table: bytes,
            input,
            output: pattern(random.character(), room),
        }
    }
}

/// The tables that a seed gives for compiling, without end: damaged as those of
/// [`cases`], and one of every four near the limits of classes and states.
pub fn tables(seed: u64) -> impl Iterator<Item = Vec<u8>> {
    let mut random = Random::new(seed);
    std::iter::repeat_with(move || {
        let base = match random.below(4) {
            0 => near_limits(&mut random),
            _ => base_table(&mut random),
        };
        damaged(&mut random, &base)
    })
}

/// The tables that a seed gives for sessions, without end: undamaged, and one of
/// every 32 near the limits of classes and states.
pub fn sound_tables(seed: u64) -> impl Iterator<Item = Table> {
    let mut random = Random::new(seed);
    std::iter::repeat_with(move || match random.below(32) {
        0 => near_limits(&mut random),
        _ => base_table(&mut random),
    })
}

/// 32 rules, of which each has a first character of its own, every second from
/// `first`, and then any characters; all are of length 8 but for the last.
/// From 0 the classes are 64, from 1 they are 65; with a last rule of length 7
/// the states are 256, with one of 8 they are 257.
pub fn large_table(first: u16, last_length: usize) -> Vec<u8> {
    let lengths = [&[MAX_LENGTH; MAX_RULES - 1][..], &[last_length]].concat();
    let rules = lengths.into_iter().zip((first..).step_by(2));
    rules_apart(rules, |table| table).bytes()
}

/// A rule of each length with the first character beside it, and then any
/// characters; to each the same records are added.
pub fn rules_apart(
    rules: impl Iterator<Item = (usize, u16)>,
    added: impl Fn(TableBuilder) -> TableBuilder,
) -> TableBuilder {
    rules.fold(TableBuilder::new(), |table, (length, first)| {
        let table = table.rule(length).range(0, first, first);
        let any = |table: TableBuilder, position| table.range(position, 0, u16::MAX);
        added((1..length).fold(table, any))
    })
}

/// The table of another's first ranges, as many as asked: its last rule ends
/// with the last of them. No group writes anything.
pub fn first_ranges(table: &Table, count: usize) -> Table {
    let mut left = count;
    let mut first = |ranges: &Vec<Range>| {
        let taken = ranges.len().min(left);
        left -= taken;
        ranges[..taken].to_vec()
    };
    let cut = |rule: &Group| {
        let positions = rule.positions.iter().map(&mut first);
        Group {
            anchored: rule.anchored,
            positions: positions.take_while(|ranges| !ranges.is_empty()).collect(),
            outputs: Vec::new(),
        }
    };
    let rules = table.rules.iter().map(cut);
    Table {
        rules: rules.take_while(|rule| rule.length() > 0).collect(),
        default: None,
        marked: false,
    }
}

/// A random table with about 64 classes and 256 states, in the manner of
/// [`large_table`]: some rules share a first character or are shorter, and some
/// positions begin a class.
fn near_limits(random: &mut Random) -> Table {
    let count = MAX_RULES - *random.pick(&[0, 0, 0, 1, 2]);
    let first = usize::from(random.one_in(4));
    let rules = (0..count)
        .map(|number| {
            let number = match random.below(200) {
                0 => random.below(count),
                _ => number,
            };
            let length = MAX_LENGTH - usize::from(random.one_in(60));
            let mut positions = vec![vec![Range::one((first + 2 * number) as u16)]];
            positions.resize_with(length, || vec![any_or_low(random)]);
            Group {
                anchored: random.one_in(5),
                positions,
                outputs: Vec::new(),
            }
        })
        .collect();
    let default = random.one_in(2).then(Group::default_group);
    Table {
        rules,
        marked: default.is_some() && random.one_in(2),
        default,
    }
}

/// Every character, or rarely those up to one.
fn any_or_low(random: &mut Random) -> Range {
    match random.below(600) {
        0 => Range {
            high: random.character(),
            ..Range::ALL
        },
        _ => Range::ALL,
    }
}

/// The bytes of a table, in two of three times damaged in one to three ways.
fn damaged(random: &mut Random, base: &Table) -> Vec<u8> {
    let mut table = encode(base);
    if !random.one_in(3) {
        for _ in 0..random.between(1, 3) {
            damage(random, &mut table);
        }
    }
    table
}

/// The example tables: those of document 01, one with every sort of state, those with
/// digits, and one with a marked default.
pub fn examples() -> [Vec<u8>; 8] {
    [
        t1(),
        t2(),
        t3(),
        lookahead(),
        two_digits(),
        four_digits(),
        digits_and_sums(),
        units(),
    ]
}

/// A sound table: a random one, or sometimes an example.
fn base_table(random: &mut Random) -> Table {
    if !random.one_in(8) {
        return random_table(random);
    }
    let examples = examples();
    let example = random.pick(&examples);
    Table::read(example).expect("the examples are accepted")
}

/// The length of an output buffer of which so much is needed: too short, exact
/// or longer.
pub fn room(random: &mut Random, needed: usize) -> usize {
    match random.below(8) {
        0 => needed.saturating_sub(1),
        1 => random.below(needed + 1),
        2..=4 => needed,
        _ => needed + random.below(9),
    }
}

/// Whether Definition 7 chooses a group of a sort on an input.
pub fn chooses(table: &Table, input: &[u16], sort: impl Fn(&Group) -> bool) -> bool {
    let mut groups = along(table, input).filter_map(|(_, choice)| table.group(choice?));
    groups.any(sort)
}

/// Numbers to fill a buffer with, each unlike those beside it.
pub fn pattern(first: u16, length: usize) -> Vec<u16> {
    let number = |place: usize| first.wrapping_add((place as u16).wrapping_mul(25173));
    (0..length).map(number).collect()
}

/// Damages a table in one way.
fn damage(random: &mut Random, table: &mut Vec<u8>) {
    match random.below(16) {
        0 => flip(random, table),
        1 => put_byte(random, table),
        2 => table.truncate(random.below(table.len() + 1)),
        3 => table.extend((0..random.below(RECORD_BYTES)).map(|_| 0)),
        4..=8 => change_order(random, table),
        9..=11 => change_field(random, table),
        12..=13 => crowd(random, table),
        _ => touch_border(random, table),
    }
}

/// Flips one bit.
fn flip(random: &mut Random, table: &mut [u8]) {
    if !table.is_empty() {
        table[random.below(table.len())] ^= 1 << random.below(8);
    }
}

/// Puts any byte in the place of one.
fn put_byte(random: &mut Random, table: &mut [u8]) {
    if !table.is_empty() {
        table[random.below(table.len())] = random.number() as u8;
    }
}

/// Cuts, drops, doubles, swaps or moves whole records, or keeps the last group
/// alone.
fn change_order(random: &mut Random, table: &mut Vec<u8>) {
    let mut records: Vec<[u8; RECORD_BYTES]> = table.as_chunks().0.to_vec();
    if records.is_empty() {
        return;
    }
    let (one, other) = (random.below(records.len()), random.below(records.len()));
    match random.below(7) {
        0 => records.truncate(one),
        1 => drop(records.remove(one)),
        2 => records.insert(one, records[one]),
        3 => records.insert(one, records[other]),
        4 => records.swap(one, other),
        5 => records.swap(one, one.saturating_sub(1)),
        _ => drop(records.drain(..last_group(&records))),
    }
    *table = records.concat();
}

/// Where the last group begins.
fn last_group(records: &[[u8; RECORD_BYTES]]) -> usize {
    let opens = |record: &[u8; RECORD_BYTES]| matches!(record[0], 1 | 5);
    records.iter().rposition(opens).unwrap_or(0)
}

/// The records of a table that are of no unknown kind, up to the first that is.
fn decoded(table: &[u8]) -> Vec<Record> {
    let records = table.as_chunks().0.iter();
    records
        .map_while(|bytes| Record::decode(bytes).ok())
        .collect()
}

/// Changes a field of a record, often by a little.
fn change_field(random: &mut Random, table: &mut Vec<u8>) {
    let mut records = decoded(table);
    if !records.is_empty() {
        let place = random.below(records.len());
        records[place] = changed(random, records[place]);
        *table = encode_records(&records);
    }
}

/// The record with another field; for the default also a rule of length 1.
fn changed(random: &mut Random, record: Record) -> Record {
    let first = random.one_in(3);
    match record {
        Record::Rule { length, anchored } if first => Record::Rule {
            length,
            anchored: !anchored,
        },
        Record::Rule { length, anchored } => Record::Rule {
            length: near(random, length),
            anchored,
        },
        Record::Range { position, range } if first => Record::Range {
            position: near(random, position),
            range,
        },
        Record::Range { position, range } => Record::Range {
            position,
            range: changed_range(random, range),
        },
        Record::Output { constant } => Record::Output {
            constant: *random.pick(&[
                constant.wrapping_sub(1),
                constant.wrapping_add(1),
                constant.wrapping_add(65536),
                constant.wrapping_neg(),
            ]),
        },
        Record::Term(term) => Record::Term(changed_term(random, term)),
        Record::Default { .. } if first => Record::Rule {
            length: 1,
            anchored: false,
        },
        Record::Default { marked } => Record::Default { marked: !marked },
        Record::Digit(digit) => Record::Digit(changed_digit(random, digit)),
    }
}

/// The term with another position or coefficient.
fn changed_term(random: &mut Random, term: Term) -> Term {
    if random.one_in(3) {
        Term {
            position: near(random, term.position),
            ..term
        }
    } else {
        Term {
            coefficient: near_character(random, term.coefficient as u16) as i16,
            ..term
        }
    }
}

/// The digit with another position or shift.
fn changed_digit(random: &mut Random, digit: Digit) -> Digit {
    if random.one_in(3) {
        Digit {
            position: near(random, digit.position),
            ..digit
        }
    } else {
        Digit {
            shift: near(random, usize::from(digit.shift)) as u16,
            ..digit
        }
    }
}

/// The range with another lowest or highest character.
fn changed_range(random: &mut Random, range: Range) -> Range {
    if random.one_in(2) {
        Range {
            low: near_character(random, range.low),
            ..range
        }
    } else {
        Range {
            high: near_character(random, range.high),
            ..range
        }
    }
}

/// A number a little below or above, or any byte.
fn near(random: &mut Random, number: usize) -> usize {
    match random.below(8) {
        0 => random.below(256),
        1..=3 => number.wrapping_sub(1),
        _ => number + 1,
    }
}

/// The character before or after, or any.
fn near_character(random: &mut Random, character: u16) -> u16 {
    match random.below(4) {
        0 => random.character(),
        1 => character.wrapping_sub(1),
        _ => character.wrapping_add(1),
    }
}

/// Brings a number up to its limit or one above it: rules, ranges of a position
/// or output characters.
fn crowd(random: &mut Random, table: &mut Vec<u8>) {
    let mut records = decoded(table);
    if records.is_empty() {
        return;
    }
    let more = random.below(2);
    let place = random.below(records.len());
    let added = match records[place] {
        Record::Range { position, range } => rising(position, range, MAX_RANGES + more),
        Record::Output { .. } | Record::Digit(_) => {
            outputs(random, records[place], MAX_OUTPUTS + more)
        }
        Record::Rule { .. } => small_rules(MAX_RULES + more),
        Record::Term(_) | Record::Default { .. } => return,
    };
    records.splice(place..=place, added);
    *table = encode_records(&records);
}

/// So many ranges of one position, each of a character, from a range's lowest.
fn rising(position: usize, range: Range, count: usize) -> Vec<Record> {
    let characters = (range.low..=u16::MAX).step_by(2).take(count);
    characters
        .map(|character| Record::Range {
            position,
            range: Range::one(character),
        })
        .collect()
}

/// So many output characters: a record, and others of both sorts.
fn outputs(random: &mut Random, record: Record, count: usize) -> Vec<Record> {
    let digit = Record::Digit(Digit {
        position: 0,
        shift: 4,
    });
    let sorts = [record, digit, Record::Output { constant: 48 }];
    let others = (1..count).map(|_| *random.pick(&sorts));
    [record].into_iter().chain(others).collect()
}

/// So many rules of one character each, without output.
fn small_rules(count: usize) -> Vec<Record> {
    let rule = Record::Rule {
        length: 1,
        anchored: false,
    };
    let range = |character| Record::Range {
        position: 0,
        range: Range::one(character),
    };
    (0..count as u16)
        .flat_map(|character| [rule, range(character)])
        .collect()
}

/// Moves the constant of a sum so that its least or its greatest value comes to
/// lie at 0 or 65535 or one beyond, other groups disregarded.
fn touch_border(random: &mut Random, table: &mut Vec<u8>) {
    let Ok(mut read) = Table::read(table) else {
        return;
    };
    let groups = read.rules.iter_mut().chain(&mut read.default);
    let mut sums: Vec<_> = groups.flat_map(extremes_of_sums).collect();
    if sums.is_empty() {
        return;
    }
    let place = random.below(sums.len());
    let (constant, (least, greatest)) = &mut sums[place];
    let moved = *random.pick(&[
        -*least,
        -*least - 1,
        i64::from(u16::MAX) - *greatest,
        i64::from(u16::MAX) - *greatest + 1,
    ]);
    if let Ok(moved) = i32::try_from(i64::from(**constant) + moved) {
        **constant = moved;
        *table = encode(&read);
    }
}

/// The constants of a group's sums, each with the sum's least and greatest value.
fn extremes_of_sums(group: &mut Group) -> Vec<(&mut i32, (i64, i64))> {
    let extremes: Vec<(i64, i64)> = group.sums().map(|sum| group.extremes(sum)).collect();
    let constants = group.sums_mut().map(|sum| &mut sum.constant);
    constants.zip(extremes).collect()
}
