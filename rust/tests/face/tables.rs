//! The example tables of document 01, encoders that write digits, and inputs cut into
//! pieces.

use cobbletwill::record::{digit, output, range, rule, term, Record, DEFAULT};

/// The characters of a text.
pub fn units(text: &str) -> Vec<u16> {
    text.encode_utf16().collect()
}

/// An input in every two pieces, and one by one.
pub fn splits(input: &[u16]) -> Vec<Vec<&[u16]>> {
    let pairs = (0..=input.len()).map(|place| vec![&input[..place], &input[place..]]);
    pairs.chain([input.chunks(1).collect()]).collect()
}

/// One character at each position from 0.
fn spelled(text: &str) -> Vec<Record> {
    let units = text.encode_utf16().zip(0..);
    units
        .map(|(unit, position)| range(position, unit, unit))
        .collect()
}

/// A text that is written as it stands.
fn text(text: &str) -> Vec<Record> {
    text.encode_utf16()
        .map(|unit| output(i32::from(unit)))
        .collect()
}

/// A rule that takes one text and writes another.
pub fn plain(pattern: &str, anchored: bool, written: &str) -> Vec<Record> {
    let head = rule(pattern.len() as u8, anchored);
    [vec![head], spelled(pattern), text(written)].concat()
}

/// The default that writes a constant plus a coefficient times x0.
pub fn default(constant: i32, coefficient: i16) -> Vec<Record> {
    vec![DEFAULT, output(constant), term(0, coefficient)]
}

/// T1, with a constant for its -528.
pub fn t1_with(constant: i32) -> Vec<u8> {
    let mut digits = plain("&#00;", false, "");
    digits[3] = range(2, 48, 57);
    digits[4] = range(3, 48, 57);
    digits.extend([output(constant), term(2, 10), term(3, 1)]);
    let rules = [
        plain("&#00;", false, "&#00;"),
        digits,
        plain("&#", true, "&#"),
    ];
    [rules.concat(), default(0, 1)].concat().concat()
}

/// T1.
pub fn t1() -> Vec<u8> {
    t1_with(-528)
}

/// T2.
pub fn t2() -> Vec<u8> {
    [plain("a", true, "X"), plain("a", false, "Y")]
        .concat()
        .concat()
}

/// T3, with a constant and a coefficient for its default.
pub fn t3_with(constant: i32, coefficient: i16) -> Vec<u8> {
    let rules = [plain("ab", false, "1"), plain("aba", false, "2")];
    [rules.concat(), default(constant, coefficient)]
        .concat()
        .concat()
}

/// T3.
pub fn t3() -> Vec<u8> {
    t3_with(0, 1)
}

/// Each byte as two hexadecimal digits: Example 2 of the source.
pub fn two_digits() -> Vec<u8> {
    let head = [rule(1, false), range(0, 0, 255)];
    [&head[..], &[digit(0, 4), digit(0, 0)]].concat().concat()
}

/// Each character as four hexadecimal digits; `_` writes nothing.
pub fn four_digits() -> Vec<u8> {
    let digits = [12, 8, 4, 0].map(|shift| digit(0, shift));
    [plain("_", false, ""), vec![DEFAULT], digits.to_vec()]
        .concat()
        .concat()
}

/// `%` and two characters: the first one's upper digit, the second one's
/// successor, the second one's lower digit. The default writes what it took.
pub fn mixed() -> Vec<u8> {
    let pattern = [range(0, 37, 37), range(1, 0, 255), range(2, 0, 255)];
    let written = [digit(1, 4), output(1), term(2, 1), digit(2, 0)];
    [&[rule(3, false)], &pattern[..], &written, &default(0, 1)]
        .concat()
        .concat()
}
