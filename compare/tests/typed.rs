//! Request [4]: typed texts against the independent version, the same answer and
//! the same buffer, the whole of it, for every text; and tables that the tools
//! write as text, read back by both.

use std::collections::BTreeMap;

use compare::both::from_text;
use compare::cases::tables;
use compare::face::{OK, TABLE_SIZE};
use compare::terms::by_position;
use compare::typed::{damaged, longest_text, texts, typable, MARKS};
use reference::builder::{characters, encode};
use reference::random::Random;
use reference::table::Table;
use reference::typed::cases::{cases, Case};
use tools::{source, typed};

/// The seed of the random texts.
const SEED: u64 = 65_535;
/// How many random texts are read as they are, and as many with damage.
const TEXTS: usize = 50_000;

/// Reads a text into a buffer that is long enough, since no character gives more
/// than a record, and into shorter ones; answers what the first came to.
fn read(text: &[u16]) -> (u32, Vec<u8>) {
    let (code, records) = from_text(text, 8 * text.len() + 8);
    if code == OK {
        let length = records.len();
        assert_eq!(from_text(text, length), (OK, records.clone()));
        assert_eq!(from_text(text, length - 1).0, 15);
        assert_eq!(from_text(text, 0).0, 15);
    } else {
        assert_eq!(from_text(text, 0).0, code);
    }
    (code, records)
}

#[test]
fn stored_texts() {
    for Case { text, answer } in cases() {
        let (code, records) = read(&text);
        let read = match code {
            OK => Ok(records),
            refusal => Err(refusal as u8),
        };
        assert_eq!(read, answer, "{:?}", String::from_utf16_lossy(&text));
    }
}

/// How often each answer was met.
type Seen = BTreeMap<u32, usize>;

/// Each answer that a text has was met at least so many times, one of them often,
/// and no other was; 15 is met by every text that is accepted.
fn assert_met(seen: &Seen, least: usize, often: u32) {
    println!("{seen:?}");
    let met: Vec<u32> = seen.keys().copied().collect();
    assert_eq!(met, [OK, 2, 3, 5, 6, 7, 16, 17]);
    assert!(seen.values().all(|&times| times >= least), "{seen:?}");
    assert!(seen[&often] >= TEXTS / 2, "{seen:?}");
}

#[test]
fn random_texts() {
    let mut seen = Seen::new();
    let mut of_tables = 0;
    for text in texts(SEED).take(TEXTS) {
        let (code, records) = read(&text.characters);
        *seen.entry(code).or_default() += 1;
        if let Some(table) = &text.table {
            assert_eq!((code, records), (OK, by_position(&encode(table))));
            of_tables += 1;
        }
    }
    assert_met(&seen, 1_500, OK);
    assert!(of_tables >= 20_000, "{of_tables}");
}

#[test]
fn damaged_texts() {
    let mut random = Random::new(SEED);
    let mut seen = Seen::new();
    for text in texts(SEED + 1).take(TEXTS) {
        let (code, _) = read(&damaged(&mut random, &text.characters));
        *seen.entry(code).or_default() += 1;
    }
    assert_met(&seen, 250, 16);
}

#[test]
fn a_seed_gives_the_same_texts_each_time_and_another_seed_others() {
    let some = |seed| texts(seed).take(1000).collect::<Vec<_>>();
    assert_eq!(some(SEED), some(SEED));
    assert_ne!(some(SEED), some(SEED + 1));
}

/// Every text of up to so many symbols.
fn every<'s>(symbols: &'s [&str], longest: u32) -> impl Iterator<Item = String> + 's {
    let count = symbols.len();
    (0..=longest).flat_map(move |length| {
        (0..count.pow(length)).map(move |number| {
            let places = (0..length).map(|place| number / count.pow(place) % count);
            places.map(|place| symbols[place]).collect()
        })
    })
}

/// How many of the texts are accepted.
fn accepted(texts: impl Iterator<Item = String>) -> usize {
    let codes = texts.map(|text| read(&characters(&text)).0);
    codes.filter(|&code| code == OK).count()
}

#[test]
fn every_short_pattern() {
    let marks = ["a", "b", "-", "[", "]", "$", "\\", "\""];
    let patterns = every(&marks, 5);
    let accepted = accepted(patterns.map(|pattern| format!("\"{pattern}\"==>[];")));
    assert!(accepted >= 1_000, "{accepted}");
}

#[test]
fn every_short_list_of_expressions() {
    let marks = ["0", "2", "x", "+", "-", "*", "(", ")", ",", " "];
    let lists = every(&marks, 5);
    let accepted = accepted(lists.map(|list| format!("\"abc\"==>[{list}];")));
    assert!(accepted >= 1_000, "{accepted}");
}

#[test]
fn every_short_line() {
    let symbols = ["\"a\"", "else", "==>", "[", "]", "1", ",", ";"];
    // Alone a rule without output; after one nothing, another, and the default.
    assert_eq!(accepted(every(&symbols, 5)), 1);
    let second = every(&symbols, 5).map(|line| format!("\"a\"==>[];{line}"));
    assert_eq!(accepted(second), 3);
}

#[test]
fn every_cut_and_every_change_of_one_character() {
    let text =
        characters("\"[0-9\\]]b$\" ==> [10*x0-(x1+3), 7];\n\"\\$ \"==>[];\r\nelse ==> [65535-x0];");
    assert_eq!(read(&text).0, OK);
    let others = || {
        characters(MARKS)
            .into_iter()
            .chain([0, 0x122, 0xd800, 65535])
    };
    for place in 0..text.len() {
        let (before, after) = text.split_at(place);
        read(before);
        read(&[before, &after[1..]].concat());
        for other in others() {
            read(&[before, &[other], after].concat());
            read(&[before, &[other], &after[1..]].concat());
        }
    }
}

#[test]
fn two_thousand_lines_with_the_refusal_at_the_end() {
    let lines = characters(&"\"[0-9]$\" ==> [10*(x0 - 48), x7 - x7];\n".repeat(2_000));
    let ended = |end: &str| [&lines[..], &characters(end)].concat();
    // A 33rd rule, which 16 and 17 of the last characters come before.
    assert_eq!(read(&lines).0, 6);
    assert_eq!(read(&lines[..lines.len() - 2]).0, 16);
    assert_eq!(read(&ended("\"a\"==>[];;")).0, 16);
    assert_eq!(read(&ended("\"a\"==>[x0*x0];")).0, 17);
    assert_eq!(read(&ended("\"a\"==>[1,32768*x0];")).0, 17);
    assert_eq!(read(&ended("else==>[65535*65535*0];")).0, 17);
}

#[test]
fn the_longest_table() {
    let text = longest_text();
    let (code, records) = read(&text);
    assert_eq!((code, records.len()), (OK, TABLE_SIZE));
    let one_more = characters("\"a\"==>[];");
    assert_eq!(read(&[&one_more[..], &text].concat()).0, 6);
    assert_eq!(read(&[&text[..], &one_more].concat()).0, 3);
}

/// How many random tables are written as text, and as many as sources.
const TABLES: usize = 10_000;

/// Random tables that are accepted, some of them after damage.
fn accepted_tables() -> impl Iterator<Item = Table> {
    tables(SEED).filter_map(|table| Table::read(&table).ok())
}

#[test]
fn tables_written_as_text_are_read_back() {
    let mut texts = Vec::new();
    for table in accepted_tables().map(typable).take(TABLES) {
        let table = encode(&table);
        let text = typed::text(&table).expect("accepted");
        assert_eq!(from_text(&text, table.len()), (OK, by_position(&table)));
        texts.push(String::from_utf16_lossy(&text));
    }
    for sign in [
        "[", "\\", "$\"", "else", ", ", " + ", " - ", " * x", "* 65535", "[]",
    ] {
        let met = texts.iter().filter(|text| text.contains(sign)).count();
        println!("{sign}: {met}");
        assert!(met >= TABLES / 10, "{sign}: {met}");
    }
}

/// The halves of pairs are in no source, unless they come to pairs.
#[test]
fn tables_written_as_sources_are_read_back() {
    let (mut read, mut with_digits) = (0, 0);
    for table in accepted_tables().take(TABLES) {
        let table = encode(&table);
        let text = typed::text(&table).expect("accepted");
        if String::from_utf16(&text).is_ok() {
            let source = typed::source(&table).expect("accepted").join("\n");
            assert_eq!(source::table(&source), Ok(by_position(&table)));
            read += 1;
            with_digits += usize::from(source.contains("hex(x"));
        }
    }
    println!("{read}, {with_digits}");
    assert!(read >= TABLES / 2 && with_digits >= TABLES / 8);
}
