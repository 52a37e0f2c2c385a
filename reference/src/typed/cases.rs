//! Stored texts for request \[4\], each with what it comes to, reckoned by hand:
//! its records in hexadecimal, or the number of the refusal.

mod expressions;
mod patterns;
mod texts;

use expressions::{EXPRESSIONS, PATTERN_AB};
use patterns::PATTERNS;
use texts::{TEXTS, UNITS};

/// A text and what it comes to in a buffer that is long enough.
#[derive(Clone, Debug)]
pub struct Case {
    /// The text.
    pub text: Vec<u16>,
    /// The bytes of its records, or the number of the refusal.
    pub answer: Result<Vec<u8>, u8>,
}

/// Every stored text.
pub fn cases() -> Vec<Case> {
    let in_quotes = PATTERNS.iter().map(|&(pattern, answer)| {
        let text = format!("\"{pattern}\"==>[];");
        Case::of_text(&text, &[], answer)
    });
    let in_list = EXPRESSIONS.iter().map(|&(expressions, answer)| {
        let text = format!("\"ab\"==>[{expressions}];");
        Case::of_text(&text, PATTERN_AB, answer)
    });
    let whole = TEXTS.iter();
    let whole = whole.map(|&(text, answer)| Case::of_text(text, &[], answer));
    let units = UNITS.iter();
    let units = units.map(|&(units, answer)| Case::new(units.to_vec(), &[], answer));
    let cases = whole.chain(in_quotes).chain(in_list).chain(units);
    cases.chain(repetitive()).chain([many_classes()]).collect()
}

/// The records of a text in hexadecimal, or the number of the refusal.
type Answer<'a> = Result<&'a [&'a str], u8>;

impl Case {
    /// A text of 16-bit characters, whose records begin with the first ones.
    fn new(text: Vec<u16>, first: &[&str], answer: Answer) -> Case {
        let answer = answer.map(|rest| {
            let records = first.iter().chain(rest);
            records.flat_map(|record| record_bytes(record)).collect()
        });
        Case { text, answer }
    }

    /// The same of a text as Rust has it.
    fn of_text(text: &str, first: &[&str], answer: Answer) -> Case {
        Case::new(text.encode_utf16().collect(), first, answer)
    }
}

/// The bytes of a record that is written as two times eight digits.
fn record_bytes(record: &str) -> [u8; 8] {
    let digits = record.replace(' ', "");
    assert_eq!(digits.len(), 16, "{record}");
    let number = u64::from_str_radix(&digits, 16);
    number.expect("hexadecimal digits").to_be_bytes()
}

/// Texts that repeat something.
fn repetitive() -> Vec<Case> {
    let rule = &["01010000 00000000", "02000000 61006100"];
    let constant_1 = &[rule[0], rule[1], "03000000 01000000"];
    let of_a = |expression: &str| format!("\"a\"==>[{expression}];");
    let nested = |depth| of_a(&format!("{}1{}", "(".repeat(depth), ")".repeat(depth)));
    let many = |count| of_a("").repeat(count);
    let answers: [(String, Answer); 18] = [
        // At most 16 parentheses are open at once; beside each other there may be more.
        (nested(1), Ok(constant_1)),
        (nested(16), Ok(constant_1)),
        (nested(17), Err(16)),
        (nested(18), Err(16)),
        (of_a(&"(".repeat(17)), Err(16)),
        (of_a(&"(".repeat(5000)), Err(16)),
        (of_a(&format!("0{}+1", "*(0)".repeat(17))), Ok(constant_1)),
        (
            of_a(&format!("{}((1)){}", "(1-".repeat(14), "*1)".repeat(14))),
            Ok(constant_1),
        ),
        (
            of_a(&format!("{}((1)){}", "(1-".repeat(15), "*1)".repeat(15))),
            Err(16),
        ),
        // A number, a sum, a product and blanks may be long.
        (of_a(&format!("{}1", "0".repeat(1000))), Ok(constant_1)),
        (of_a(&format!("1{}", "+1-1".repeat(1000))), Ok(constant_1)),
        (of_a(&format!("1{}", "*1".repeat(1000))), Ok(constant_1)),
        (
            of_a(&format!("{}1{}", " \n".repeat(1000), "\r ".repeat(1000))),
            Ok(constant_1),
        ),
        // 32 rules, a 33rd, and what comes before or after that.
        (many(32), Ok(&rule.repeat(32))),
        (many(33), Err(6)),
        (format!("{}\"[b-a]\"==>[];", many(33)), Err(6)),
        (format!("{}\"[b-a]\"==>[];{}", many(31), many(2)), Err(2)),
        (format!("{}else==>[];{}", many(32), many(1)), Err(3)),
    ];
    let cases = answers.iter();
    cases
        .map(|(text, answer)| Case::of_text(text, &[], *answer))
        .collect()
}

/// 32 rules, of which each has every second character from 256 as its pattern: 65
/// classes, which only compiling refuses.
fn many_classes() -> Case {
    let (mut text, mut records) = (String::new(), Vec::new());
    for byte in (0..64).step_by(2) {
        let character = char::from_u32(0x100 + byte).expect("no half of a pair");
        text += &format!("\"{character}\"==>[];");
        records.push("01010000 00000000".to_string());
        records.push(format!("02000000 {byte:02x}01{byte:02x}01"));
    }
    let records: Vec<&str> = records.iter().map(String::as_str).collect();
    Case::of_text(&text, &[], Ok(&records))
}
