//! Tables as rules that can be typed: by hand, and read back by the library.

use cobbletwill::record::{digit, output, range, rule, term, Record, DEFAULT, MARKED_DEFAULT};
use cobbletwill::{check, Machine, Refusal, Table};
use tools::source::table;
use tools::typed::{source, text};

/// The records that the library makes of a text.
fn read_back(text: &[u16]) -> Result<Vec<u8>, Refusal> {
    Table::from_text(text).map(Table::into_bytes)
}

/// The records are written as this text, which is read back to them.
fn written(records: &[Record], expected: &str) {
    let found = text(&records.concat()).expect("accepted");
    assert_eq!(String::from_utf16(&found).expect("no halves"), expected);
    assert_eq!(read_back(&found), Ok(records.concat()), "{expected}");
}

/// Single characters at the positions from 0, and the records behind.
fn spelled(characters: &[u16], behind: &[Record]) -> Vec<Record> {
    let head = rule(characters.len() as u8, false);
    let one = |(position, &character)| range(position, character, character);
    let ranges = (0..).zip(characters).map(one);
    let records = [head].into_iter().chain(ranges);
    records.chain(behind.iter().copied()).collect()
}

#[test]
fn patterns() {
    let letters: Vec<u16> = "\"\\[]$-a ".encode_utf16().collect();
    written(
        &spelled(&letters, &[]),
        "\"\\\"\\\\\\[\\]\\$-a \" ==> [];\n",
    );
    let marks = [
        range(0, 34, 36),
        range(0, 45, 45),
        range(0, 91, 93),
        range(1, 45, 48),
        range(1, 97, 97),
    ];
    written(
        &[&[rule(2, true)], &marks[..]].concat(),
        "\"[\\\"-\\$\\-\\[-\\]][\\--0a]$\" ==> [];\n",
    );
    // Two characters beside each other in a range, and as two.
    let ranges = [range(0, 97, 98), range(1, 97, 97), range(1, 98, 98)];
    written(
        &[&[rule(2, false)], &ranges[..]].concat(),
        "\"[a-b][ab]\" ==> [];\n",
    );
    // Pictures have a backslash, for a source has others by them.
    written(
        &spelled(&[0, 10, 0x1f, 0x7f, 0x2400, 0x2421, 0x2422, 0xffff], &[]),
        "\"\0\n\u{1f}\u{7f}\\\u{2400}\\\u{2421}\u{2422}\u{ffff}\" ==> [];\n",
    );
}

#[test]
fn halves_of_pairs() {
    let records = spelled(&[0xd800, 0xdc00, 0xdc00, 0xdfff], &[]).concat();
    let found = text(&records).expect("accepted");
    assert_eq!(found[..6], [34, 0xd800, 0xdc00, 0xdc00, 0xdfff, 34]);
    assert_eq!(read_back(&found), Ok(records));
}

/// The outputs of a rule that takes the highest character three times and 32768.
fn sums(outputs: &[Record], expected: &str) {
    let characters = [65535, 65535, 65535, 32768];
    let pattern = "\"\u{ffff}\u{ffff}\u{ffff}\u{8000}\"";
    let expected = format!("{pattern} ==> [{expected}];\n");
    written(&spelled(&characters, outputs), &expected);
}

#[test]
fn expressions() {
    sums(&[output(0)], "0");
    sums(&[output(1), output(65535)], "1, 65535");
    sums(&[output(0), term(0, 1)], "x0");
    sums(&[output(65535), term(0, -1)], "65535 - x0");
    sums(&[output(0), term(0, -1), term(1, 1)], "x1 - x0");
    sums(&[output(-1), term(2, 1)], "x2 - 1");
    sums(
        &[output(7), term(0, 2), term(1, -1), term(2, -1)],
        "2 * x0 + 7 - x1 - x2",
    );
    sums(&[output(-65536), term(3, 2)], "2 * x3 - 1 * 65535 - 1");
    sums(&[output(2 * 65535), term(3, -2)], "2 * 65535 + 0 - 2 * x3");
    // The least and the greatest constant, and coefficients likewise.
    sums(
        &[output(i32::MIN), term(0, 32767), term(1, 1), term(3, 1)],
        "32767 * x0 + x1 + x3 - 32768 * 65535 - 32768",
    );
    sums(
        &[output(i32::MAX), term(0, -32768)],
        "32768 * 65535 + 32767 - 32768 * x0",
    );
}

/// Terms in the order of their records, but for those that are taken away; what is read
/// back has them by position, and the same machine words.
#[test]
fn terms_in_any_order() {
    let sum = |terms: &[Record]| {
        let outputs = [&[output(300)], terms].concat();
        spelled(&[97, 98, 99], &outputs).concat()
    };
    let falling = sum(&[term(2, 1), term(0, -2), term(1, 10)]);
    let rising = sum(&[term(0, -2), term(1, 10), term(2, 1)]);
    for (records, expected) in [
        (&falling, "\"abc\" ==> [x2 + 10 * x1 + 300 - 2 * x0];"),
        (&rising, "\"abc\" ==> [10 * x1 + x2 + 300 - 2 * x0];"),
    ] {
        let lines = source(records).expect("accepted");
        assert_eq!(lines, [expected]);
        let typed = text(records).expect("accepted");
        assert_eq!(String::from_utf16_lossy(&typed), format!("{expected}\n"));
        assert_eq!(read_back(&typed), Ok(rising.clone()));
        assert_eq!(table(expected), Ok(rising.clone()));
    }
    let machine = Machine::compile(&falling).expect("compiles");
    assert_eq!(Machine::compile(&rising), Ok(machine));
}

#[test]
fn lines() {
    let a = spelled(&[97], &[output(65), output(66)]);
    let default = [DEFAULT, output(0), term(0, 1)];
    written(
        &[&a[..], &[rule(1, true), range(0, 98, 98)], &default].concat(),
        "\"a\" ==> [65, 66];\n\"b$\" ==> [];\nelse ==> [x0];\n",
    );
    written(
        &[&a[..], &[DEFAULT]].concat(),
        "\"a\" ==> [65, 66];\nelse ==> [];\n",
    );
}

/// A digit is written as a source has it, and pictures for what doesn't show.
#[test]
fn sources() {
    let ranges = [range(0, 0, 255), range(1, 0x240a, 0x240a)];
    let outputs = [digit(0, 4), output(0), term(0, 1), digit(1, 12)];
    let records = [&[rule(2, false)], &ranges[..], &outputs].concat().concat();
    let lines = source(&records).expect("accepted");
    assert_eq!(lines, ["\"[␀-ÿ]\\␊\" ==> [hex(x0, 4), x0, hex(x1, 12)];"]);
    assert_eq!(table(&lines.concat()), Ok(records.clone()));
    let typed = text(&records).expect("accepted");
    assert_eq!(read_back(&typed), Err(Refusal::Grammar));
}

/// The mark is written as a source has it, which can't be typed.
#[test]
fn the_mark() {
    let records = spelled(&[97], &[MARKED_DEFAULT, output(63)]).concat();
    let lines = source(&records).expect("accepted");
    assert_eq!(lines, ["\"a\" ==> [];", "else keep pairs ==> [63];"]);
    assert_eq!(table(&lines.concat()), Ok(records.clone()));
    let typed = text(&records).expect("accepted");
    assert_eq!(read_back(&typed), Err(Refusal::Grammar));
}

#[test]
fn refused_tables() {
    for records in [&[] as &[Record], &[rule(1, false)], &[DEFAULT], &[[9; 8]]] {
        let refused = check(&records.concat()).expect_err("refused");
        assert_eq!(text(&records.concat()), Err(refused));
        assert_eq!(source(&records.concat()), Err(refused));
    }
}
