//! The tables of `tables/`: source, records, input and expected text agree, for
//! direct conversion and for sessions in pieces; and long texts in UTF-16 come out as
//! the encoder and the decoder of the standard library have them.

use std::collections::BTreeSet;
use std::fs;
use std::path::{Path, PathBuf};

use cobbletwill::record::{DEFAULT, MARKED_DEFAULT};
use cobbletwill::{convert, run, Ending, Machine, Table, MAX_EXPANSION};
use tools::{source, typed};

/// The tables of river stations, whose numbers are kept.
const STATION: [&str; 5] = ["centimetres", "decimal-comma", "nmea", "sdi12", "shef"];
/// The tables that write other numbers than they read.
const OTHER: [&str; 2] = ["hex-bytes", "html-decimal"];
/// The table of remarks, whose sample is in UTF-16.
const REMARKS: &str = "utf16-remarks";

/// The folder of the tables.
fn folder() -> PathBuf {
    Path::new(env!("CARGO_MANIFEST_DIR")).join("../tables")
}

/// A file of a table.
fn file(name: &str, file: &str) -> Vec<u8> {
    let path = folder().join(name).join(file);
    fs::read(&path).unwrap_or_else(|fault| panic!("{}: {fault}", path.display()))
}

/// A text of a table, `input` or `expected`: one character a byte, or in UTF-16.
fn text(name: &str, of: &str) -> Vec<u16> {
    if name == REMARKS {
        let bytes = file(name, &format!("{of}.utf16"));
        let (units, rest) = bytes.as_chunks();
        assert!(rest.is_empty(), "{name}: half of a unit");
        return units.iter().copied().map(u16::from_le_bytes).collect();
    }
    let bytes = file(name, &format!("{of}.txt"));
    bytes.into_iter().map(u16::from).collect()
}

/// All tables.
fn names() -> impl Iterator<Item = &'static str> {
    STATION.into_iter().chain(OTHER).chain([REMARKS])
}

/// The machine of a table.
fn machine(name: &str) -> Machine {
    Machine::compile(&file(name, "rules.tab")).expect("it compiles")
}

/// The text that direct conversion gives for an input, to whose end it comes.
fn direct(table: &[u8], input: &[u16]) -> Vec<u16> {
    let mut output = vec![0; MAX_EXPANSION * input.len()];
    let answer = convert(table, input, &mut output).expect("accepted");
    assert_eq!((answer.ending, answer.place), (Ending::Closed, input.len()));
    output.truncate(answer.written);
    output
}

/// Pieces give a text; the steps, which are within their bound.
fn fed(machine: &Machine, pieces: &[&[u16]], expected: &[u16]) -> u64 {
    let (joined, session) = run(machine, pieces.iter().copied()).expect("accepted");
    assert_eq!(joined, expected);
    let length = pieces.concat().len() as u64;
    assert_eq!((session.status, session.received), (1, length));
    assert!(session.tally.steps <= machine.most_steps(length));
    session.tally.steps
}

#[test]
fn every_table_is_named_here() {
    let entries = fs::read_dir(folder()).expect("a folder");
    let folders = entries
        .map(|entry| entry.expect("an entry"))
        .filter(|entry| entry.path().is_dir())
        .map(|entry| entry.file_name().into_string().expect("a name"));
    let named: BTreeSet<String> = names().map(str::to_owned).collect();
    assert_eq!(folders.collect::<BTreeSet<_>>(), named);
}

#[test]
fn records_are_those_of_the_source() {
    for name in names() {
        let source = String::from_utf8(file(name, "rules.txt")).expect("UTF-8");
        let table = source::table(&source).unwrap_or_else(|fault| panic!("{name}: {fault}"));
        assert!(table == file(name, "rules.tab"), "{name}");
    }
}

#[test]
fn records_are_written_as_rules_that_are_read_back() {
    for name in names() {
        let table = file(name, "rules.tab");
        let lines = typed::source(&table).expect("accepted");
        assert!(
            source::table(&lines.concat()) == Ok(table.clone()),
            "{name}"
        );
        let written = typed::text(&table).expect("accepted");
        // Of digits and the mark there is nothing to type.
        let can_be_typed = !["hex-bytes", REMARKS].contains(&name);
        let read_back = Table::from_text(&written).map(Table::into_bytes);
        assert_eq!(read_back == Ok(table), can_be_typed, "{name}");
    }
}

#[test]
fn every_table_compiles_with_the_measures_that_its_page_names() {
    for name in names() {
        let machine = machine(name);
        let measures = format!(
            "Measures: {} classes, {} states, L {}, E {}.",
            machine.class_count(),
            machine.state_count(),
            machine.longest_pattern(),
            machine.expansion()
        );
        let page = String::from_utf8(file(name, "README.md")).expect("UTF-8");
        assert!(page.contains(&measures), "{name}: {measures}");
    }
}

#[test]
fn direct_conversion_gives_the_expected_text() {
    for name in names() {
        let text_of_input = direct(&file(name, "rules.tab"), &text(name, "input"));
        assert_eq!(text_of_input, text(name, "expected"), "{name}");
    }
}

#[test]
fn sessions_give_the_expected_text_however_the_input_is_cut() {
    for name in names() {
        let (input, expected) = (text(name, "input"), text(name, "expected"));
        let machine = machine(name);
        let steps = fed(&machine, &[&input], &expected);
        for place in 0..=input.len() {
            let (first, second) = input.split_at(place);
            assert_eq!(fed(&machine, &[first, second], &expected), steps, "{name}");
        }
        let single: Vec<&[u16]> = input.chunks(1).collect();
        assert_eq!(fed(&machine, &single, &expected), steps, "{name}");
    }
}

/// Every byte gives its two digits, and nothing above it has any.
#[test]
fn bytes_are_two_hexadecimal_digits() {
    let (table, machine) = (file("hex-bytes", "rules.tab"), machine("hex-bytes"));
    for byte in 0..=255 {
        let digits: Vec<u16> = format!("{byte:02X}").encode_utf16().collect();
        assert_eq!(direct(&table, &[byte]), digits);
        fed(&machine, &[&[byte]], &digits);
    }
    let mut output = [0; 2];
    for character in [256, 0x4b4b, u16::MAX] {
        let answer = convert(&table, &[character], &mut output).expect("accepted");
        assert_eq!((answer.ending, answer.written), (Ending::Stopped, 0));
    }
}

/// The numbers of a text as far as no table may alter them: its runs of digits
/// and its minus signs, in order.
fn numbers(text: &[u16]) -> Vec<String> {
    let text: String = String::from_utf16(text).expect("bytes").replace('-', " - ");
    let other = |c: char| !c.is_ascii_digit() && c != '-';
    let parts = text.split(other).filter(|part| !part.is_empty());
    parts.map(str::to_owned).collect()
}

/// Numbers from a seed (Knuth's MMIX multiplier and increment).
struct Random(u64);

impl Random {
    /// A number below a bound.
    fn below(&mut self, bound: usize) -> usize {
        let next = self.0.wrapping_mul(6_364_136_223_846_793_005);
        self.0 = next.wrapping_add(1_442_695_040_888_963_407);
        (self.0 >> 33) as usize % bound
    }

    /// A text cut into pieces, of up to so many characters.
    fn cut<'a>(&mut self, mut text: &'a [u16], longest: usize) -> Vec<&'a [u16]> {
        let mut pieces = Vec::new();
        while !text.is_empty() {
            let (piece, rest) = text.split_at(self.below(longest + 1).min(text.len()));
            pieces.push(piece);
            text = rest;
        }
        pieces
    }

    /// Short parts of a text, put together anew.
    fn recombined<'a>(&mut self, text: &'a [u16]) -> Vec<&'a [u16]> {
        let parts = 1 + self.below(12);
        let part = |_| {
            let start = self.below(text.len());
            let length = 1 + self.below(6);
            &text[start..text.len().min(start + length)]
        };
        (0..parts).map(part).collect()
    }
}

#[test]
fn numbers_are_told_apart_by_all_but_digits() {
    let units = |text: &str| text.encode_utf16().collect::<Vec<_>>();
    assert_eq!(numbers(&units("0+3.14-22")), ["0", "3", "14", "-", "22"]);
    assert_ne!(numbers(&units("12 34")), numbers(&units("1234")));

    // A table that drops the plus sign joins two numbers.
    let dropping = source::table("\"+[.0-9]\" ==> [x1]; else ==> [x0];").expect("a source");
    let input = units("0+3.14");
    assert_ne!(numbers(&input), numbers(&direct(&dropping, &input)));
}

#[test]
fn no_station_table_alters_joins_or_parts_a_number() {
    let mut random = Random(2026);
    for name in STATION {
        let (table, machine) = (file(name, "rules.tab"), machine(name));
        let samples = text(name, "input");
        for _ in 0..20_000 {
            let pieces = random.recombined(&samples);
            let input = pieces.concat();
            let converted = direct(&table, &input);
            assert_eq!(numbers(&input), numbers(&converted), "{name}: {input:?}");
            fed(&machine, &pieces, &converted);
        }
    }
}

/// A character of a remark as the page of the table has it; `None` is half of a pair.
fn cleaned(character: Option<char>) -> char {
    match character {
        Some('\u{a0}') => ' ',
        Some('\u{2212}') => '-',
        Some(form @ '\u{ff01}'..='\u{ff5e}') => {
            char::from_u32(form as u32 - 0xff01 + 0x21).expect("a form of ASCII")
        }
        Some(
            kept @ ('\t' | '\n' | ' '..='~' | '\u{a1}'..='\u{d7fb}' | '\u{f900}'..='\u{fffd}'),
        ) => kept,
        Some(pair @ '\u{10000}'..) => pair,
        _ => '\u{fffd}',
    }
}

/// What remarks come to, by the decoder of the standard library, which gives the halves of
/// pairs that stand alone.
fn remarks(units: &[u16]) -> String {
    let decoded = char::decode_utf16(units.iter().copied());
    let mut characters = decoded.map(Result::ok).peekable();
    let mut text = String::new();
    while let Some(character) = characters.next() {
        let ends_line = character == Some('\r') && characters.peek() == Some(&Some('\n'));
        if !ends_line {
            text.push(cleaned(character));
        }
    }
    text
}

/// A character of a remark from a seed: of all planes above the first, or of those that
/// the table has rules for, or any of the first.
fn remark(random: &mut Random) -> char {
    let code = match random.below(8) {
        0 => 0x20 + random.below(0x60),
        1 => 0xff00 + random.below(0x60),
        2 => [0x0a, 0x0d, 0xa0, 0x2212, 0xd7ff, 0xe000, 0xffff][random.below(7)],
        3 => random.below(0xd800),
        _ => 0x10000 + random.below(0x10_0000),
    };
    char::from_u32(code as u32).expect("a character")
}

/// 1 MiB of text as the encoder of the standard library has it, cut at random, between the
/// units of pairs too: the decoder takes what comes out, and it is the text expected.
/// Without the mark no pair is left.
#[test]
fn pairs_of_a_long_text_pass_whole() {
    let mut random = Random(2781);
    let text: String = (0..400_000).map(|_| remark(&mut random)).collect();
    let input: Vec<u16> = text.encode_utf16().collect();
    assert!(2 * input.len() >= 1 << 20);
    let expected = remarks(&input);
    let (mut table, machine) = (file(REMARKS, "rules.tab"), machine(REMARKS));
    let pieces = random.cut(&input, 60);
    let within = |piece: &&&[u16]| matches!(piece.last(), Some(0xd800..=0xdbff));
    assert!(pieces.iter().filter(within).count() > 1000);
    let (joined, session) = run(&machine, pieces.iter().copied()).expect("accepted");
    assert!(String::from_utf16(&joined).expect("well-formed") == expected);
    assert_eq!(direct(&table, &input), joined);
    let pairs = |text: &str| text.chars().filter(|&c| c > '\u{ffff}').count();
    assert_eq!(session.pair_uses(), pairs(&text) as u64);
    assert_eq!(pairs(&expected), pairs(&text));

    let mut records = table.as_chunks_mut().0.iter_mut();
    let default = records.find(|record| **record == MARKED_DEFAULT);
    *default.expect("a marked default") = DEFAULT;
    let without = String::from_utf16(&direct(&table, &input)).expect("replaced");
    assert_eq!(pairs(&without), 0);
}

/// Parts of the sample, halves of pairs among them, put together anew: what comes out is
/// well-formed, and each half is replaced.
#[test]
fn halves_of_pairs_are_replaced() {
    let mut random = Random(2781);
    let (table, machine) = (file(REMARKS, "rules.tab"), machine(REMARKS));
    let sample = text(REMARKS, "input");
    for _ in 0..20_000 {
        let pieces = random.recombined(&sample);
        let converted = direct(&table, &pieces.concat());
        let expected = remarks(&pieces.concat());
        let decoded = String::from_utf16(&converted).expect("well-formed");
        assert_eq!(decoded, expected, "{pieces:?}");
        fed(&machine, &pieces, &converted);
    }
}
