//! Values of digits by hand, and refusal 7 by extreme values against every word
//! that fits.

use reference::builder::{encode, hexadecimal};
use reference::meaning::digit;
use reference::random::Random;
use reference::refusal::Refusal;
use reference::samples::random_digit;
use reference::table::{Digit, Group, Output, Range, Sum, Table, Term, SHIFTS};

/// The value of a sum without its constant.
fn terms(sum: &Sum, word: &[u16]) -> i64 {
    let mut value = 0;
    for term in &sum.terms {
        value += i64::from(term.coefficient) * i64::from(word[term.position]);
    }
    value
}

/// The value of an output character, its digits as Rust writes them.
fn value(output: &Output, word: &[u16]) -> i64 {
    match output {
        Output::Sum(sum) => i64::from(sum.constant) + terms(sum, word),
        Output::Digit(Digit { position, shift }) => {
            let [highest, third, second, lowest] = hexadecimal(word[*position]).map(i64::from);
            match shift {
                0 => lowest,
                4 => second,
                8 => third,
                _ => highest,
            }
        }
    }
}

#[test]
fn digits_by_hand() {
    // 0 to 9 are 48 to 57, A to F are 65 to 70.
    let rows: [(u16, [u16; 4]); 10] = [
        (0x0000, [48, 48, 48, 48]),
        (0x0009, [48, 48, 48, 57]),
        (0x000a, [48, 48, 48, 65]),
        (0x000f, [48, 48, 48, 70]),
        (0x0010, [48, 48, 49, 48]),
        (0x009a, [48, 48, 57, 65]),
        (0x1a2f, [49, 65, 50, 70]),
        (0x9ab8, [57, 65, 66, 56]),
        (0xcdef, [67, 68, 69, 70]),
        (0xffff, [70, 70, 70, 70]),
    ];
    for (character, digits) in rows {
        assert_eq!([12, 8, 4, 0].map(|shift| digit(character, shift)), digits);
        // The second of three characters.
        for (shift, expected) in [12, 8, 4, 0].into_iter().zip(digits) {
            let output = Output::Digit(Digit { position: 1, shift });
            let word = [character ^ 0xffff, character, character ^ 0x5555];
            assert_eq!(output.value(&word), i64::from(expected));
        }
    }
}

#[test]
fn every_character_has_the_digits_that_rust_writes() {
    for character in 0..=u16::MAX {
        let digits = [12, 8, 4, 0].map(|shift| digit(character, shift));
        assert_eq!(digits, hexadecimal(character));
    }
}

/// Every word that fits the group.
fn fitting_words(group: &Group) -> Vec<Vec<u16>> {
    let mut words = vec![Vec::new()];
    for ranges in &group.positions {
        let characters: Vec<u16> = ranges.iter().flat_map(|r| r.low..=r.high).collect();
        words = words
            .iter()
            .flat_map(|word| characters.iter().map(|&c| [&word[..], &[c]].concat()))
            .collect();
    }
    words
}

/// Whether some output value leaves 0 to 65535 for some word.
fn some_value_leaves(group: &Group) -> bool {
    let words = fitting_words(group);
    group.outputs.iter().any(|output| {
        let leaves = |word: &Vec<u16>| !(0..=65535).contains(&value(output, word));
        words.iter().any(leaves)
    })
}

/// Up to four ranges of up to four characters, rising.
fn random_ranges(random: &mut Random) -> Vec<Range> {
    let mut low = *random.pick(&[0, 97, 1000, 65500]);
    (0..=random.below(4))
        .map(|_| {
            low += random.below(3) as u16;
            let range = Range {
                low,
                high: low + random.below(3) as u16,
            };
            low = range.high + 1;
            range
        })
        .collect()
}

/// Terms in any order, with coefficients of all sizes, the greatest among them.
fn random_terms(random: &mut Random, length: usize) -> Vec<Term> {
    let mut terms = Vec::new();
    for position in 0..length {
        let any = random.character() as i16;
        let small = random.between(-2, 2) as i16;
        let coefficient = match random.below(20) {
            0 => i16::MIN,
            1 => i16::MAX,
            2 | 3 => any,
            _ => small,
        };
        if coefficient != 0 {
            terms.push(Term {
                position,
                coefficient,
            });
        }
    }
    random.shuffle(&mut terms);
    terms
}

/// The group with a sum whose least or greatest value lies at a border of the
/// characters, or just beyond it, and sometimes a digit before it.
fn with_output(random: &mut Random, mut group: Group) -> Group {
    if random.one_in(3) {
        let digit = random_digit(random, group.length());
        group.outputs.push(Output::Digit(digit));
    }
    let mut sum = Sum {
        constant: 0,
        terms: random_terms(random, group.length()),
    };
    let words = fitting_words(&group);
    let sums = words.iter().map(|word| terms(&sum, word));
    let least = sums.clone().min().expect("a word");
    let greatest = sums.max().expect("a word");
    let constant = *random.pick(&[
        -least,
        -least - 1,
        -least + 1,
        65535 - greatest,
        65535 - greatest + 1,
        65535 - greatest - 1,
    ]);
    sum.constant = i32::try_from(constant).unwrap_or(i32::MIN);
    group.outputs.push(Output::Sum(sum));
    group
}

/// A small random rule with one or two sums.
fn random_group(random: &mut Random) -> Group {
    let length = random.below(3) + 1;
    let group = Group {
        anchored: random.one_in(2),
        positions: (0..length).map(|_| random_ranges(random)).collect(),
        outputs: Vec::new(),
    };
    let group = with_output(random, group);
    if random.one_in(3) {
        return with_output(random, group);
    }
    group
}

/// A rule that takes `a` and writes nothing.
fn plain_rule() -> Group {
    Group {
        anchored: false,
        positions: vec![vec![Range::one(97)]],
        outputs: Vec::new(),
    }
}

/// Asserts that the table is refused by 7 exactly when a value leaves; answers
/// whether it is.
fn assert_decided(table: &Table) -> bool {
    let leaves = table.groups().any(some_value_leaves);
    let expected = if leaves {
        Err(Refusal::Value)
    } else {
        Ok(table.clone())
    };
    assert_eq!(Table::read(&encode(table)), expected);
    leaves
}

#[test]
fn rules_are_refused_by_7_exactly_when_a_fitting_word_leaves() {
    let mut random = Random::new(61);
    let mut refused = 0;
    for _ in 0..4000 {
        let rules = (0..=random.below(2)).map(|_| random_group(&mut random));
        let table = Table {
            rules: rules.collect(),
            default: None,
            marked: false,
        };
        refused += usize::from(assert_decided(&table));
    }
    assert!((800..3200).contains(&refused), "{refused}");
}

#[test]
fn defaults_are_refused_by_7_exactly_when_a_character_leaves() {
    let mut random = Random::new(62);
    let mut refused = 0;
    for _ in 0..60 {
        let table = Table {
            rules: vec![plain_rule()],
            default: Some(with_output(&mut random, Group::default_group())),
            marked: random.one_in(2),
        };
        refused += usize::from(assert_decided(&table));
    }
    assert!((10..59).contains(&refused), "{refused}");
}

#[test]
fn digits_alone_are_never_refused_by_7() {
    let outputs = |length: usize| {
        let digits = SHIFTS.into_iter().flat_map(move |shift| {
            [0, length - 1].map(|position| Output::Digit(Digit { position, shift }))
        });
        digits.collect()
    };
    for length in 1..=8 {
        let rule = Group {
            anchored: false,
            positions: vec![vec![Range::ALL]; length],
            outputs: outputs(length),
        };
        let default = Group {
            outputs: outputs(1),
            ..Group::default_group()
        };
        let table = Table {
            rules: vec![rule],
            default: Some(default),
            marked: false,
        };
        assert_eq!(Table::read(&encode(&table)), Ok(table));
    }
}

#[test]
fn the_greatest_sums_do_not_overflow() {
    let term = |coefficient| {
        move |position| Term {
            position,
            coefficient,
        }
    };
    for coefficient in [i16::MIN, i16::MAX] {
        for constant in [i32::MIN, i32::MAX] {
            let rule = Group {
                anchored: false,
                positions: vec![vec![Range::ALL]; 8],
                outputs: vec![Output::Sum(Sum {
                    constant,
                    terms: (0..8).map(term(coefficient)).collect(),
                })],
            };
            let table = Table {
                rules: vec![rule],
                default: None,
                marked: false,
            };
            assert_eq!(Table::read(&encode(&table)), Err(Refusal::Value));
        }
    }
}
