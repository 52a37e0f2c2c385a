//! Live and dead rules: document 01's tables, numbers that no rule has, and what a
//! refusal leaves.

use crate::tables::{plain, t1, t2, t3, units};
use cobbletwill::raw::{self, Input};
use cobbletwill::{convert, witness, Machine, INPUT_SIZE, MAX_EXPANSION, WORDS_SIZE};

/// A rule is live; its input, for which direct conversion first writes a text.
fn live(table: &[u8], rule: u32, text: &str) -> Vec<u16> {
    let input = witness(table, rule).expect("compiles").expect("live");
    assert!((1..=INPUT_SIZE).contains(&input.len()), "{input:?}");
    let mut output = vec![0; MAX_EXPANSION * input.len()];
    convert(table, &input, &mut output).expect("accepted");
    assert!(output.starts_with(&units(text)), "{input:?} {output:?}");
    input
}

/// A rule is dead.
fn dead(table: &[u8], rule: u32) {
    assert_eq!(witness(table, rule), Ok(None));
}

/// Of `&#00;` the second rule of T1 is not chosen; the third needs the input's end.
#[test]
fn rules_of_t1() {
    assert!(live(&t1(), 0, "&#00;").starts_with(&units("&#00;")));
    let input = live(&t1(), 1, "");
    assert!(input.starts_with(&units("&#")) && !input.starts_with(&units("&#00")));
    assert!(input[2..4].iter().all(|unit| (48..58).contains(unit)));
    assert_eq!(input[4], 59);
    assert_eq!(live(&t1(), 2, "&#"), units("&#"));
}

/// The second rule of T2 is chosen where the input goes on.
#[test]
fn rules_of_t2() {
    assert_eq!(live(&t2(), 0, "X"), units("a"));
    let input = live(&t2(), 1, "Y");
    assert!(input.len() > 1 && input[0] == 97, "{input:?}");
}

/// "T3's second rule is dead."
#[test]
fn rules_of_t3() {
    assert!(live(&t3(), 0, "1").starts_with(&units("ab")));
    dead(&t3(), 1);
}

#[test]
fn numbers_that_no_rule_has() {
    for (table, rules) in [(t1(), 3), (t2(), 2), (t3(), 2)] {
        for number in [rules, 31, 32, 33, 255, 256, 65_536, 1 << 31, u32::MAX] {
            dead(&table, number);
        }
    }
}

/// Eight characters at the input's end, and the same with one behind them.
#[test]
fn nine_characters() {
    let (at_end, before) = (plain("highflow", true, "1"), plain("highflow", false, "2"));
    let table = [at_end, before].concat().concat();
    assert_eq!(live(&table, 0, "1"), units("highflow"));
    let input = live(&table, 1, "2");
    assert!(input.len() == INPUT_SIZE && input.starts_with(&units("highflow")));
}

/// The words are those of compiling, and words beyond are as found; by 10 nothing is
/// changed.
#[test]
fn words_and_short_words() {
    let found = Input {
        length: 17,
        characters: [19; INPUT_SIZE],
    };
    let machine = Machine::compile(&t3()).expect("compiles");
    let expected = [machine.words(), &[7; 3]].concat();
    for (rule, answer) in [(0, raw::OK), (1, raw::DEAD), (2, raw::DEAD)] {
        let (mut words, mut input) = (vec![7; WORDS_SIZE + 3], found);
        let answered = raw::witness(&t3(), &mut words, rule, &mut input);
        assert_eq!(answered, answer);
        assert!(words == expected);
        let length = usize::from(input.length);
        assert!(input.characters[length..].iter().all(|&unit| unit == 0));
        assert_eq!(length == 0, answer == raw::DEAD);
    }
    let (mut words, mut input) = (vec![7; WORDS_SIZE - 1], found);
    assert_eq!(raw::witness(&t3(), &mut words, 0, &mut input), 10);
    assert_eq!(input, found);
    assert!(words.iter().all(|&word| word == 7));
}
