//! The example tables of document 01, encoders by digits, refused tables, and
//! random tables and inputs.

use crate::builder::TableBuilder;
use crate::pairs::{FIRST_UNITS, SECOND_UNITS};
use crate::random::Random;
use crate::table::{
    Digit, Group, Output, Range, Sum, Table, Term, MAX_OUTPUTS, MAX_RANGES, MAX_RULES, SHIFTS,
};

/// T1: `&#00;` writes itself; `&#`, two digits, `;` writes 10 × x2 + x3 - 528;
/// anchored `&#` writes itself; default writes x0.
pub fn t1() -> Vec<u8> {
    t1_with(-528)
}

/// T1 with another constant for -528.
pub fn t1_with(constant: i32) -> Vec<u8> {
    t1_rules(constant).copying_default().bytes()
}

/// T1 with a marked default.
pub fn t1_marked() -> Vec<u8> {
    t1_rules(-528).marked_default().copy().bytes()
}

/// The rules of T1, with a constant.
fn t1_rules(constant: i32) -> TableBuilder {
    let (zero, nine) = (u16::from(b'0'), u16::from(b'9'));
    TableBuilder::new()
        .rule(5)
        .spelled(0, "&#00;")
        .text("&#00;")
        .rule(5)
        .spelled(0, "&#")
        .range(2, zero, nine)
        .range(3, zero, nine)
        .spelled(4, ";")
        .output(constant)
        .term(2, 10)
        .term(3, 1)
        .anchored(2)
        .spelled(0, "&#")
        .text("&#")
}

/// T2: anchored `a` writes X, `a` writes Y, no default.
pub fn t2() -> Vec<u8> {
    TableBuilder::new()
        .anchored(1)
        .spelled(0, "a")
        .text("X")
        .rule(1)
        .spelled(0, "a")
        .text("Y")
        .bytes()
}

/// T3: `ab` writes 1, `aba` writes 2, default x0.
pub fn t3() -> Vec<u8> {
    t3_with_default(0, 1)
}

/// T3 with a constant plus a coefficient times x0 for its default.
pub fn t3_with_default(constant: i32, coefficient: i16) -> Vec<u8> {
    TableBuilder::new()
        .rule(2)
        .spelled(0, "ab")
        .text("1")
        .rule(3)
        .spelled(0, "aba")
        .text("2")
        .default_group()
        .output(constant)
        .term(0, coefficient)
        .bytes()
}

/// A small table with every sort of state but T2's: anchored `a` writes X, `aa`
/// writes Y, anchored `ab` writes Z, default x0.
pub fn lookahead() -> Vec<u8> {
    TableBuilder::new()
        .anchored(1)
        .spelled(0, "a")
        .text("X")
        .rule(2)
        .spelled(0, "aa")
        .text("Y")
        .anchored(2)
        .spelled(0, "ab")
        .text("Z")
        .copying_default()
        .bytes()
}

/// "Every byte as two digits": one rule, without default.
pub fn two_digits() -> Vec<u8> {
    let byte = TableBuilder::new().rule(1).range(0, 0, 255);
    byte.digit(0, 4).digit(0, 0).bytes()
}

/// Every character as four digits: one rule, without default.
pub fn four_digits() -> Vec<u8> {
    let any = TableBuilder::new().rule(1).range(0, 0, 65535);
    let shifts = SHIFTS.into_iter().rev();
    shifts
        .fold(any, |table, shift| table.digit(0, shift))
        .bytes()
}

/// Digits beside sums and of several positions: `a`, any character and `b` write
/// a per cent sign and the two lower digits of the middle one, `a` at the end
/// writes its lower digit; by default a character's upper digit is written, and
/// 65535 less the character.
pub fn digits_and_sums() -> Vec<u8> {
    TableBuilder::new()
        .rule(3)
        .spelled(0, "a")
        .range(1, 0, 65535)
        .spelled(2, "b")
        .text("%")
        .digit(1, 4)
        .digit(1, 0)
        .anchored(1)
        .spelled(0, "a")
        .digit(0, 0)
        .default_group()
        .digit(0, 12)
        .output(65535)
        .term(0, -1)
        .bytes()
}

/// Units of pairs: `ab` writes 1, the first unit 55297 before `b` writes 2; the marked
/// default writes 65535 less the character. Of the first units, 55297 has a target of
/// state 0.
pub fn units() -> Vec<u8> {
    TableBuilder::new()
        .rule(2)
        .spelled(0, "ab")
        .text("1")
        .rule(2)
        .range(0, 55297, 55297)
        .spelled(1, "b")
        .text("2")
        .marked_default()
        .output(65535)
        .term(0, -1)
        .bytes()
}

/// The table with one more rule: `a` writes nothing.
pub fn rule_a(table: TableBuilder) -> TableBuilder {
    table.rule(1).spelled(0, "a")
}

/// So many rules of [`rule_a`].
pub fn rules(count: usize) -> TableBuilder {
    (0..count).fold(TableBuilder::new(), |table, _| rule_a(table))
}

/// Tables that compiling and direct conversion refuse, by 1 to 7, each with the
/// number that document 01's "Refusals by who causes them" gives it.
pub fn refused_tables() -> Vec<(u8, Vec<u8>)> {
    let new = TableBuilder::new;
    let mut tables = vec![
        (1, vec![1]),
        (2, new().rule(1).range(0, 98, 97).bytes()),
        (3, new().output(1).bytes()),
        (4, new().rule(1).bytes()),
        (5, Vec::new()),
        (5, new().copying_default().bytes()),
        (6, rules(33).bytes()),
        (6, (0..9).fold(rules(1), TableBuilder::output).bytes()),
        (7, rules(1).output(-1).bytes()),
        (7, rules(1).output(65536).bytes()),
    ];
    tables.extend(refused_digits());
    tables
}

/// Tables with digits that are refused, some by two numbers, of which the first
/// counts.
fn refused_digits() -> [(u8, Vec<u8>); 14] {
    let new = TableBuilder::new;
    let sums = (0..8).fold(rules(1), TableBuilder::output);
    let digits = (0..8).fold(rules(1), |table, _| table.digit(0, 12));
    [
        (2, rules(1).digit(8, 0).bytes()),
        (2, rules(1).digit(0, 5).bytes()),
        (2, new().digit(0, 1).bytes()),
        (2, rules(1).digit(1, 2).bytes()),
        (3, new().digit(0, 0).bytes()),
        (3, rules(1).digit(1, 0).bytes()),
        (3, rules(1).digit(0, 0).term(0, 1).bytes()),
        (3, new().rule(2).digit(5, 0).bytes()),
        (3, sums.clone().digit(1, 0).bytes()),
        (4, new().rule(1).digit(0, 0).bytes()),
        (6, sums.digit(0, 4).bytes()),
        (6, digits.clone().digit(0, 4).bytes()),
        (6, digits.output(0).bytes()),
        (7, rules(1).digit(0, 4).output(-1).bytes()),
    ]
}

/// A random table that keeps the rules for direct conversion. Its rules share a
/// few letters and often each other's beginnings, so that they meet. Two of three
/// tables have a default, every second of them a marked one.
pub fn random_table(random: &mut Random) -> Table {
    let letters = Letters::random(random);
    let rules = random_rules(random, &letters);
    let default = (!random.one_in(3)).then(|| random_outputs(random, Group::default_group()));
    Table {
        rules,
        marked: default.is_some() && random.one_in(2),
        default,
    }
}

/// A random table with a marked default, which in one of three times writes nothing.
/// Its rules are over units of pairs and the characters beside them.
pub fn random_marked_table(random: &mut Random) -> Table {
    let letters = Letters::units(random);
    let rules = random_rules(random, &letters);
    let default = match random.below(3) {
        0 => Group::default_group(),
        _ => random_outputs(random, Group::default_group()),
    };
    Table {
        rules,
        default: Some(default),
        marked: true,
    }
}

/// The table, of whose groups two in three write part of a random input of another table
/// in place of what they did: a chain of the two feeds that one words of its rules.
pub fn written_for(random: &mut Random, mut table: Table, reader: &Table) -> Table {
    for group in table.rules.iter_mut().chain(&mut table.default) {
        if random.one_in(3) {
            continue;
        }
        let count = *random.pick(&[0, 1, 1, 2, 2, 3, 5, MAX_OUTPUTS]);
        let text = random_input(random, reader, count).into_iter();
        let constants = text.map(|character| Sum {
            constant: i32::from(character),
            terms: Vec::new(),
        });
        group.outputs = constants.map(Output::Sum).collect();
    }
    table
}

/// Random rules over some letters, mostly a few.
fn random_rules(random: &mut Random, letters: &Letters) -> Vec<Group> {
    let rule_count = match random.below(20) {
        0 => random.between(9, MAX_RULES as i64),
        _ => random.between(1, 6),
    };
    let mut rules: Vec<Group> = Vec::new();
    for _ in 0..rule_count {
        let rule = random_rule(random, letters, &rules);
        rules.push(rule);
    }
    rules
}

/// What a random table is over.
struct Letters {
    /// Some characters, rising.
    letters: Vec<u16>,
    /// Ranges of many characters.
    wide: &'static [Range],
}

impl Letters {
    /// Two to five letters that follow each other, sometimes at a border of the
    /// characters or where the second units of pairs follow the first.
    fn random(random: &mut Random) -> Letters {
        let count = random.between(2, 5) as u16;
        let last_first = u16::MAX - (count - 1);
        let anywhere = random.character().min(last_first);
        let first = *random.pick(&[97, 97, 97, 0, last_first, anywhere, 56319]);
        Letters {
            letters: (first..=first + (count - 1)).collect(),
            wide: &[Range::ALL],
        }
    }

    /// About half of the units at the borders of both sorts, and of the characters
    /// beside them.
    fn units(random: &mut Random) -> Letters {
        const BORDERS: [u16; 9] = [97, 55295, 55296, 55297, 56319, 56320, 56321, 57343, 57344];
        let mut letters = BORDERS.to_vec();
        letters.retain(|_| random.one_in(2));
        if letters.is_empty() {
            letters.push(*random.pick(&BORDERS));
        }
        Letters {
            letters,
            wide: &[Range::ALL, FIRST_UNITS, SECOND_UNITS, UNITS],
        }
    }

    /// One letter.
    fn one(&self, random: &mut Random) -> u16 {
        *random.pick(&self.letters)
    }
}

/// The units of pairs of both sorts.
const UNITS: Range = Range {
    low: FIRST_UNITS.low,
    high: SECOND_UNITS.high,
};

/// A random rule, anchored or not, that often begins as an earlier one.
fn random_rule(random: &mut Random, letters: &Letters, earlier: &[Group]) -> Group {
    let length = *random.pick(&[1, 1, 2, 2, 2, 2, 3, 3, 3, 4, 4, 5, 6, 8]);
    let mut positions = Vec::new();
    if !earlier.is_empty() && random.one_in(2) {
        let like = random.pick(earlier);
        positions.extend(like.positions.iter().take(length).cloned());
    }
    while positions.len() < length {
        positions.push(random_position(random, letters));
    }
    if random.one_in(4) {
        positions[random.below(length)] = random_position(random, letters);
    }
    let rule = Group {
        anchored: random.one_in(3),
        positions,
        outputs: Vec::new(),
    };
    random_outputs(random, rule)
}

/// Random ranges of a position: one letter, some letters, or many characters.
fn random_position(random: &mut Random, letters: &Letters) -> Vec<Range> {
    let ranges = match random.below(12) {
        0 => vec![*random.pick(letters.wide)],
        1..=5 => Vec::new(),
        _ => some_letters(random, letters),
    };
    if ranges.is_empty() {
        let letter = letters.one(random);
        return vec![Range::one(letter)];
    }
    ranges
}

/// Ranges over about half of the letters, sometimes one right after another.
fn some_letters(random: &mut Random, letters: &Letters) -> Vec<Range> {
    let mut ranges: Vec<Range> = Vec::new();
    for &letter in &letters.letters {
        if random.one_in(2) {
            continue;
        }
        let may_join = !random.one_in(4);
        let last = ranges.last_mut();
        if let Some(last) = last.filter(|last| may_join && last.high + 1 == letter) {
            last.high = letter;
        } else if ranges.len() < MAX_RANGES {
            ranges.push(Range::one(letter));
        }
    }
    ranges
}

/// The group with random output characters.
fn random_outputs(random: &mut Random, mut group: Group) -> Group {
    let count = *random.pick(&[0, 1, 1, 1, 1, 2, 2, 3, MAX_OUTPUTS]);
    group.outputs = (0..count).map(|_| random_output(random, &group)).collect();
    group
}

/// A random output character: a digit once in four times, else a sum.
fn random_output(random: &mut Random, group: &Group) -> Output {
    match random.below(4) {
        0 => Output::Digit(random_digit(random, group.length())),
        _ => Output::Sum(random_sum(random, group)),
    }
}

/// A random digit of a word of a length.
pub fn random_digit(random: &mut Random, length: usize) -> Digit {
    Digit {
        position: random.below(length),
        shift: *random.pick(&SHIFTS),
    }
}

/// A random sum whose values lie in 0 to 65535, often touching one of these.
fn random_sum(random: &mut Random, group: &Group) -> Sum {
    let mut sum = Sum {
        constant: 0,
        terms: random_terms(random, group.length()),
    };
    let (lowest, highest) = constants(group, &sum).unwrap_or_else(|| {
        sum.terms.clear();
        (0, i32::from(u16::MAX))
    });
    let any = random.between(i64::from(lowest), i64::from(highest)) as i32;
    sum.constant = *random.pick(&[lowest, highest, any, any]);
    sum
}

/// The lowest and the highest constant that keep a sum's values, its own
/// constant being 0, in 0 to 65535, if there are such.
fn constants(group: &Group, sum: &Sum) -> Option<(i32, i32)> {
    let (least, greatest) = group.extremes(sum);
    let lowest = i32::try_from(-least).ok()?;
    let highest = i32::try_from(i64::from(u16::MAX) - greatest).ok()?;
    (lowest <= highest).then_some((lowest, highest))
}

/// Random terms, each of a position of its own, half the times in any order.
fn random_terms(random: &mut Random, length: usize) -> Vec<Term> {
    let mut terms = Vec::new();
    for position in 0..length {
        let small = random.between(-3, 3) as i16;
        let any = random.character() as i16;
        let coefficient = *random.pick(&[0, small, small, any]);
        if coefficient != 0 {
            terms.push(Term {
                position,
                coefficient,
            });
        }
    }
    if random.one_in(2) {
        random.shuffle(&mut terms);
    }
    terms
}

/// A random input of a length, made of words that the table's rules fit, of
/// beginnings of such words, and of other characters; under a marked default also
/// of units.
pub fn random_input(random: &mut Random, table: &Table, length: usize) -> Vec<u16> {
    let mut input = Vec::new();
    while input.len() < length {
        if random.one_in(40) {
            input.push(random.character());
            continue;
        }
        if table.marked && random.one_in(3) {
            input.extend(random_units(random));
            continue;
        }
        let rule = random.pick(&table.rules);
        let word = random_word(random, rule);
        let kept = match random.below(3) {
            0 => random.below(word.len()) + 1,
            _ => word.len(),
        };
        input.extend(&word[..kept]);
    }
    input.truncate(length);
    input
}

/// A pair, three times of five, or one unit; each at a border of its sort or any.
fn random_units(random: &mut Random) -> Vec<u16> {
    let [first, second] = [FIRST_UNITS, SECOND_UNITS].map(|Range { low, high }| {
        let any = random.between(i64::from(low), i64::from(high)) as u16;
        *random.pick(&[low, high, any])
    });
    match random.below(5) {
        0 => vec![first],
        1 => vec![second],
        _ => vec![first, second],
    }
}

/// A random word that lies in the group's ranges.
pub fn random_word(random: &mut Random, group: &Group) -> Vec<u16> {
    let positions = group.positions.iter();
    positions
        .map(|ranges| {
            let range = random.pick(ranges);
            random.between(i64::from(range.low), i64::from(range.high)) as u16
        })
        .collect()
}
