//! Direct conversion, compiling, live and dead rules, the test of words and the
//! reading of typed texts by the library and by the independent version, compared.

use reference::compile::compile as compile_by_reference;
use reference::direct;
use reference::meaning::{chosen_rule, Ending};
use reference::refusal::Refusal;
use reference::table::{RuleNo, Table};
use reference::typed::from_text as from_text_by_reference;
use reference::witness::{input_of, witness as witness_by_reference};
use reference::words::{Words, WORDS};

use crate::cases::{pattern, Case};
use crate::face::{self, Input, DEAD, INPUT_SIZE, OK, STOPPED};

/// What a direct conversion answers and leaves.
#[derive(Debug, PartialEq, Eq)]
pub struct Converted {
    /// The answer.
    pub code: u32,
    /// The place.
    pub place: u64,
    /// The output count.
    pub count: u64,
    /// The whole output buffer.
    pub output: Vec<u16>,
}

/// What the place and the count are before a call, and the length of a text's
/// records, which is as the place.
const FOUND: (u64, u64) = (0x1234_5678_9abc_def0, u64::MAX);

/// What the library answers and leaves.
fn converted_by_library(case: &Case) -> Converted {
    let (mut place, mut count) = FOUND;
    let mut output = case.output.clone();
    let code = face::convert(
        &case.table,
        &case.input,
        &mut output,
        &mut place,
        &mut count,
    );
    Converted {
        code,
        place,
        count,
        output,
    }
}

/// What the independent version answers and leaves.
fn converted_by_reference(case: &Case) -> Converted {
    let mut output = case.output.clone();
    let answer = direct::convert(&case.table, &case.input, &mut output);
    let (code, (place, count)) = match answer {
        Ok(conversion) => (
            match conversion.ending {
                Ending::Closed => OK,
                Ending::Stopped => STOPPED,
            },
            (conversion.place as u64, conversion.count as u64),
        ),
        Err(refusal) => (number(refusal), FOUND),
    };
    Converted {
        code,
        place,
        count,
        output,
    }
}

/// The number that a refusal answers.
fn number(refusal: Refusal) -> u32 {
    u32::from(refusal.number())
}

/// Checks and converts by both; answers what both left.
///
/// # Panics
///
/// If they differ.
pub fn convert(case: &Case) -> Converted {
    let expected = converted_by_reference(case);
    assert_eq!(converted_by_library(case), expected, "{case:?}");
    let accepted = Table::read(&case.table).map_or_else(number, |_| OK);
    assert_eq!(face::check(&case.table), accepted, "{case:?}");
    expected
}

/// Compiles a table by both into a buffer of a length, filled before, and tests
/// the words; answers what both did, with the words.
///
/// # Panics
///
/// If they differ, or if a refusal leaves other words than document 01 says.
pub fn compile(table: &[u8], room: usize) -> (u32, Vec<u16>) {
    let found = pattern(table.len() as u16, room);
    let (mut words, mut expected) = (found.clone(), found.clone());
    let answer = compile_by_reference(table, &mut expected);
    let code = answer.map_or_else(number, |()| OK);
    assert_eq!(face::compile(table, &mut words), code, "{table:?}");
    if words != expected {
        let differs = (0..room).find(|&place| words[place] != expected[place]);
        panic!("they differ at the word {differs:?}, {table:?}");
    }
    if code == 10 {
        assert!(words == found);
    } else {
        assert!(words[WORDS..] == found[WORDS..]);
    }
    if (1..10).contains(&code) {
        assert!(words[..WORDS].iter().all(|&word| word == 0));
    }
    assert_eq!(face::is_sound(&words), u32::from(code == OK), "{table:?}");
    (code, words)
}

/// What both say of a rule.
#[derive(Debug, PartialEq, Eq)]
pub struct Witnessed {
    /// The answer.
    pub code: u32,
    /// The library's input for a live rule; else no characters.
    pub input: Vec<u16>,
    /// The independent version's, which is of no more characters than the rule has
    /// wherever one of so many will do.
    pub shortest: Vec<u16>,
}

/// What an input is before a call.
const FOUND_INPUT: Input = Input {
    length: 0x5a5a,
    characters: [1, 2, 3, 4, 5, 6, 7, 8, 9],
};

/// Asks both about a rule, with a buffer of words of a length, filled before.
///
/// # Panics
///
/// If they differ, or if the library's input is none that the request asks for.
pub fn witness(table: &[u8], room: usize, rule: u32) -> Witnessed {
    let found = pattern(table.len() as u16, room);
    let mut words = found.clone();
    let answer = witness_by_reference(table, &mut words, rule);
    compare_witness(table, rule, &found, &words, answer)
}

/// Asks both about rules, each as [`witness`], but that the independent version compiles
/// the table once for all; answers what both say, and the words.
///
/// # Panics
///
/// As [`witness`].
pub fn witnesses(table: &[u8], room: usize, rules: &[u32]) -> (Vec<Witnessed>, Vec<u16>) {
    let found = pattern(table.len() as u16, room);
    let mut words = found.clone();
    let compiled = compile_by_reference(table, &mut words);
    let read = Table::read(table).unwrap_or_default();
    let said = rules.iter().map(|&rule| {
        let answer = compiled.map(|()| input_of(&read, rule));
        compare_witness(table, rule, &found, &words, answer)
    });
    (said.collect(), words)
}

/// Compares what the library says of a rule with the independent version's answer, and
/// the words that it leaves; puts its input through Definition 7.
fn compare_witness(
    table: &[u8],
    rule: u32,
    found: &[u16],
    expected: &[u16],
    answer: Result<Option<Vec<u16>>, Refusal>,
) -> Witnessed {
    let (mut words, mut input) = (found.to_vec(), FOUND_INPUT);
    let code = face::witness(table, &mut words, rule, &mut input);
    let shown = || format!("rule {rule}, {input:?}, {table:?}");
    let (answered, shortest) = match answer {
        Ok(Some(shortest)) => (OK, shortest),
        Ok(None) => (DEAD, Vec::new()),
        Err(refusal) => (number(refusal), Vec::new()),
    };
    assert_eq!(code, answered, "{}", shown());
    assert!(words == expected, "the words differ, {}", shown());
    if !matches!(code, OK | DEAD) {
        assert_eq!(input, FOUND_INPUT, "{}", shown());
        return Witnessed {
            code,
            input: Vec::new(),
            shortest,
        };
    }
    let length = usize::from(input.length);
    assert!(
        length <= INPUT_SIZE && (length > 0) == (code == OK),
        "{}",
        shown()
    );
    let (used, unused) = input.characters.split_at(length);
    assert!(unused.iter().all(|&unit| unit == 0), "{}", shown());
    if code == OK {
        let read = Table::read(table).expect("a table that compiles");
        let first = chosen_rule(&read, used);
        assert_eq!(first, Some(RuleNo(rule as u16)), "{}", shown());
    }
    Witnessed {
        code,
        input: used.to_vec(),
        shortest,
    }
}

/// Tests words by both; answers whether they are sound.
///
/// # Panics
///
/// If they differ.
pub fn is_sound(words: &[u16]) -> bool {
    let sound = Words::sound(words).is_ok();
    assert_eq!(face::is_sound(words), u32::from(sound));
    sound
}

/// Reads a typed text by both into a buffer of a length, filled before with numbers
/// other than 0; answers what both did, with the records, none of a refused text.
///
/// # Panics
///
/// If they differ, or if more than the records is written.
pub fn from_text(text: &[u16], room: usize) -> (u32, Vec<u8>) {
    let found = pattern(text.len() as u16, room).into_iter();
    let found: Vec<u8> = found.map(|word| word as u8 | 1).collect();
    let (mut table, mut written) = (found.clone(), FOUND.0);
    let code = face::from_text(text, &mut table, &mut written);
    let mut expected = found.clone();
    let answer = from_text_by_reference(text, &mut expected);
    let answered = match answer {
        Ok(length) => (OK, length as u64),
        Err(refusal) => (number(refusal), FOUND.0),
    };
    let shown = || String::from_utf16_lossy(text);
    assert_eq!((code, written), answered, "{:?}", shown());
    assert!(table == expected, "the buffers differ, {:?}", shown());
    let length = answer.unwrap_or(0);
    assert!(table[length..] == found[length..], "{:?}", shown());
    table.truncate(length);
    (code, table)
}
