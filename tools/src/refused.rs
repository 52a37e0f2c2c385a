//! Where typed rules are refused, found by asking the proved library about
//! beginnings of them, each with an ending.

use std::ops::Range;
use std::sync::LazyLock;

use cobbletwill::{Refusal, Table};

use crate::units::{is_among, symbol_from, units};

/// "Nested at most 16 deep."
const DEEPEST: usize = 16;

/// An ending of a line.
struct Ending {
    text: Vec<u16>,
    /// What it begins with.
    first: &'static str,
    /// Whether it begins among the outputs.
    in_outputs: bool,
}

/// Endings, of which one at least makes a line of whatever a line begins with. The
/// highest character is one that may end each range.
static ENDINGS: LazyLock<Vec<Ending>> = LazyLock::new(|| {
    let ending = |text: &str, first, in_outputs| Ending {
        text: units(text),
        first,
        in_outputs,
    };
    let outside = [
        ("", "a pattern in quotes or `else`"),
        ("lse==>[];", "`lse`"),
        ("se==>[];", "`se`"),
        ("e==>[];", "`e`"),
        ("==>[];", "`==>`"),
        ("=>[];", "`=>`"),
        (">[];", "`>`"),
        ("[];", "`[`"),
        (";", "`;`"),
        ("\"==>[];", "`\"`"),
        ("\u{ffff}\"==>[];", "a character"),
        ("]\"==>[];", "`]`"),
        ("\u{ffff}]\"==>[];", "a character"),
    ];
    let outside = outside.map(|(text, first)| ending(text, first, false));
    let in_outputs = (0..=DEEPEST).flat_map(|open| {
        let closing = format!("{}];", ")".repeat(open));
        let first = if open == 0 { "`]`" } else { "`)`" };
        let factor = "a number or `x` with a digit";
        [("x0", factor), ("", first), ("0", "a digit")]
            .map(|(before, first)| ending(&format!("{before}{closing}"), first, true))
    });
    outside.into_iter().chain(in_outputs).collect()
});

/// Whether a text is in the grammar: the library looks for 16 first.
fn is_in_grammar(text: &[u16]) -> bool {
    Table::from_text(text) != Err(Refusal::Grammar)
}

/// The endings that make a line of what a line may begin with; none of what it
/// may not.
fn endings(beginning: &[u16]) -> impl Iterator<Item = &'static Ending> + '_ {
    let fits = move |ending: &&Ending| is_in_grammar(&[beginning, &ending.text].concat());
    ENDINGS.iter().filter(fits)
}

/// The lines of a text from the first on, as far as they are in the grammar, each
/// from its first symbol: it ends at the first semicolon that makes it one.
fn lines(text: &[u16]) -> Vec<Range<usize>> {
    let (mut lines, mut start) = (Vec::new(), symbol_from(text, 0));
    for (place, &unit) in text.iter().enumerate() {
        if is_among(unit, ";") && is_in_grammar(&text[start..=place]) {
            lines.push(start..place + 1);
            start = symbol_from(text, place + 1);
        }
    }
    lines
}

/// The place of a line's first symbol, in a text that is in the grammar.
pub fn line_start(text: &[u16], number: usize) -> usize {
    lines(text)[number].start
}

/// How far texts of the grammar begin as this one, which is where one that is
/// outside it leaves it, and what may come there.
pub fn readable(text: &[u16]) -> (usize, &'static str) {
    let end = lines(text).last().map_or(0, |line| line.end);
    let start = symbol_from(text, end);
    let read =
        (start..=text.len()).map_while(|place| Some((place, endings(&text[start..place]).next()?)));
    let (place, ending) = read.last().expect("a line begins with nothing");
    (place, ending.first)
}

/// The place at which rules are refused by a number other than 16: that of the
/// character from which on every ending is refused so, if it stands in quotes, and
/// for 17; else that of the output expression that it belongs to. Rules are missing
/// (5) at the text's end.
pub fn place(text: &[u16], refusal: Refusal) -> usize {
    if refusal == Refusal::NoRule {
        return text.len();
    }
    // An ending may come to 17 where a text that is refused by another number doesn't.
    let refused = |text: &[u16]| {
        let answer = Table::from_text(text);
        answer == Err(refusal) || answer == Err(Refusal::Expression)
    };
    let line = { lines(text).into_iter() }.find(|line| refused(&text[..line.end]));
    let line = line.expect("the last line, if none before it");
    let passes = |&place: &usize| {
        let mut endings = endings(&text[line.start..place]);
        endings.any(|ending| !refused(&[&text[..place], &ending.text].concat()))
    };
    let place = { line.clone() }.rev().find(passes);
    let place = place.expect("the lines before it pass");
    let mut endings = endings(&text[line.start..place]);
    match refusal != Refusal::Expression && endings.any(|ending| ending.in_outputs) {
        true => expression_start(text, place),
        false => place,
    }
}

/// Where an expression begins, of which a character stands at a place, or the comma
/// before it.
fn expression_start(text: &[u16], place: usize) -> usize {
    let before = text[..=place]
        .iter()
        .rposition(|&unit| is_among(unit, "[,"));
    symbol_from(text, before.map_or(0, |before| before + 1))
}

#[cfg(test)]
mod tests {
    use super::{is_in_grammar, readable, DEEPEST};
    use crate::units::units;

    /// Every symbol wherever it may stand, and parentheses as deep as they may be.
    #[test]
    fn every_beginning_has_an_ending() {
        let (open, closed) = ("(2 * ".repeat(DEEPEST), " + x7 )".repeat(DEEPEST));
        let text = units(&format!(
            "\r\n\"[0-9\\]\\--a]b\\$ \" ==> [10*x0-(x1+3), 007];\n\
             \"\\\\[;-\\;]$\"==>[ ] ; else==>[x1,{open}0 * x0{closed}];\n "
        ));
        assert!(is_in_grammar(&text));
        for end in 0..=text.len() {
            assert_eq!(readable(&text[..end]).0, end);
        }
    }
}
