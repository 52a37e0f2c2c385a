//! Real text beyond the basic plane: Rust's encoder makes UTF-16 of it, a machine with a
//! marked default converts it in pieces cut anywhere, and Rust's decoder and string
//! functions say what must come out.

use compare::calls::fed;
use compare::face::Session;
use reference::builder::{characters, TableBuilder};
use reference::compile::compiled;
use reference::random::Random;

/// The seed of the text and of the cuts.
const SEED: u64 = 1_114_112;
/// The least number of units of the text, which are 2 MiB.
const UNITS: usize = 1 << 20;

/// What the text is made of, three parts in four with characters of two units: among
/// them the first and the last ones, those that share a first unit with the wave that a
/// rule takes, and those between whose units the ranges of units end.
const PARTS: [&str; 16] = [
    "𐀀",
    "\u{10FFFF}",
    "🌊",
    "🌍",
    "🌊🌊",
    "𝟘𝟡",
    "𠮷野家",
    "🏴\u{E0067}",
    "👩\u{200D}🔬",
    "\u{103FF}\u{10FC00}",
    "😀, ",
    "🌡 12,5 °C",
    "Pegel 3,07 m 🌊",
    "Größe, 1,",
    "水位 4,50",
    "\u{D7FF}\u{E000}",
];

/// A text of so many units in UTF-16.
fn text(random: &mut Random) -> String {
    let (mut text, mut units) = (String::new(), 0);
    while units < UNITS {
        let part = *random.pick(&PARTS);
        units += part.encode_utf16().count();
        text.push_str(part);
    }
    text
}

/// A comma before a digit writes a point, a wave writes `~`, the degree sign writes
/// `deg`; the default is still to come.
fn rules() -> TableBuilder {
    TableBuilder::new()
        .rule(2)
        .spelled(0, ",")
        .range(1, 48, 57)
        .text(".")
        .output(0)
        .term(1, 1)
        .rule(2)
        .spelled(0, "🌊")
        .text("~")
        .rule(1)
        .spelled(0, "°")
        .text("deg")
}

/// What the rules make of a text, by string functions.
fn replaced(text: &str) -> String {
    let replaced = ('0'..='9').fold(text.to_owned(), |text, digit| {
        text.replace(&format!(",{digit}"), &format!(".{digit}"))
    });
    replaced.replace('🌊', "~").replace('°', "deg")
}

/// An input in pieces of 0 to 300 units, cut anywhere.
fn pieces<'i>(random: &mut Random, mut input: &'i [u16]) -> Vec<&'i [u16]> {
    let mut pieces = Vec::new();
    while !input.is_empty() {
        let longest = *random.pick(&[1, 3, 20, 300]);
        let length = random.below(longest + 1).min(input.len());
        let (piece, rest) = input.split_at(length);
        pieces.push(piece);
        input = rest;
    }
    pieces
}

/// The session and the text that a machine gives for a text in UTF-16, cut at random.
/// About every fourth piece ends within a pair; the guard is less than half of that.
fn converted(table: &TableBuilder, text: &str) -> (Session, Vec<u16>) {
    let mut random = Random::new(SEED + 1);
    let words = compiled(&table.bytes()).unwrap();
    let input = characters(text);
    let pieces = pieces(&mut random, &input);
    let ends = |piece: &&&[u16]| matches!(piece.last(), Some(0xD800..=0xDBFF));
    let within = pieces.iter().filter(ends).count();
    assert!(within >= pieces.len() / 10, "{within} of {}", pieces.len());
    fed(&words, pieces.into_iter())
}

/// The default copies, so that the text is what the string functions make of it. Its
/// characters of two units go through as pairs, but for the waves, and nothing else does.
#[test]
fn a_marked_default_that_copies() {
    let text = text(&mut Random::new(SEED));
    let (session, output) = converted(&rules().marked_default().copy(), &text);
    let decoded = String::from_utf16(&output).expect("no pair is broken");
    assert_eq!(decoded, replaced(&text));
    let of_two = text.chars().filter(|character| character.len_utf16() == 2);
    let pairs = of_two.filter(|&character| character != '🌊').count();
    assert_eq!(session.pair_uses(), pairs as u64);
    assert_eq!(
        (session.status, session.consumed()),
        (1, characters(&text).len() as u64)
    );
}

/// The default writes a unit and a blank, which no pair may be torn by.
fn spacing(default: TableBuilder) -> TableBuilder {
    default.copy().text(" ")
}

/// What that makes of a text to which no rule applies: a blank behind each character of
/// one unit.
fn spaced(text: &str) -> String {
    let mut spaced = String::new();
    for character in text.chars() {
        spaced.push(character);
        if character.len_utf16() == 1 {
            spaced.push(' ');
        }
    }
    spaced
}

/// Under the mark, a default that changes units leaves pairs whole. The text is cleared
/// of what the rules take.
#[test]
fn a_marked_default_that_changes_units() {
    let text = text(&mut Random::new(SEED)).replace([',', '🌊', '°'], "");
    let (session, output) = converted(&spacing(rules().marked_default()), &text);
    let decoded = String::from_utf16(&output).expect("no pair is broken");
    assert_eq!(decoded, spaced(&text));
    assert_eq!(session.uses(0) + session.uses(1) + session.uses(2), 0);
}

/// Without the mark the same default tears pairs: the decoder finds an error at each.
#[test]
fn an_unmarked_default_that_changes_units_breaks_pairs() {
    let text = text(&mut Random::new(SEED)).replace([',', '🌊', '°'], "");
    let (session, output) = converted(&spacing(rules().default_group()), &text);
    assert!(String::from_utf16(&output).is_err());
    let errors = char::decode_utf16(output).filter(Result::is_err).count();
    let pairs = text.chars().filter(|character| character.len_utf16() == 2);
    assert_eq!(errors, 2 * pairs.count());
    assert_eq!(session.pair_uses(), 0);
}
