//! Typed texts for request \[4\]: those of random tables in many forms, some of them
//! with lines that no table has, and texts with one character damaged.

mod writer;

use reference::random::Random;
use reference::samples::random_table;
use reference::table::{
    Output, Range, Sum, Table, Term, MAX_LENGTH, MAX_OUTPUTS, MAX_RANGES, MAX_RULES,
};
use writer::written;

/// A text, and the table that it comes to if that is known.
#[derive(Clone, Debug, PartialEq)]
pub struct Text {
    /// The characters.
    pub characters: Vec<u16>,
    /// The table; none for a text whose lines were changed.
    pub table: Option<Table>,
}

/// The texts that a seed gives, without end: of every two about one is of a random
/// table, and the lines of the other are changed in one to three ways. Most have a
/// few lines.
pub fn texts(seed: u64) -> impl Iterator<Item = Text> {
    let mut random = Random::new(seed);
    std::iter::repeat_with(move || {
        let mut table = typable(random_table(&mut random));
        if !random.one_in(8) {
            table.rules.truncate(2);
        }
        let mut lines = lines(&table);
        let changes = *random.pick(&[0, 0, 0, 1, 2, 3]);
        for _ in 0..changes {
            change(&mut random, &mut lines);
        }
        Text {
            characters: written(&mut random, &lines),
            table: (changes == 0).then_some(table),
        }
    })
}

/// The table without what no typed text gives: its digits, so that its records are of
/// the kinds 1 to 5, and the default's mark.
pub fn typable(mut table: Table) -> Table {
    table.marked = false;
    let groups = table.rules.iter_mut().chain(&mut table.default);
    for group in groups {
        let outputs = &mut group.outputs;
        outputs.retain(|output| matches!(output, Output::Sum(_)));
    }
    table
}

/// The text of the longest table: 32 rules of 8 positions with 4 ranges each and 8
/// output characters with 8 terms each, and the default with 8 output characters
/// with one term: 3,377 records.
pub fn longest_text() -> Vec<u16> {
    let pattern = "[a-bd-eg-hj-k]".repeat(MAX_LENGTH);
    let terms: String = (0..MAX_LENGTH)
        .map(|position| format!(" + {} * x{position}", position + 2))
        .collect();
    let sums: Vec<String> = (0..MAX_OUTPUTS)
        .map(|sum| format!("{sum}{terms}"))
        .collect();
    let rule = format!("\"{pattern}\" ==> [{}];\n", sums.join(", "));
    let default = format!("else ==> [{}];\n", ["65535 - x0"; MAX_OUTPUTS].join(", "));
    let text = rule.repeat(MAX_RULES) + &default;
    text.encode_utf16().collect()
}

/// The characters that mean something in a text.
pub const MARKS: &str = "\"\\[]$-=>;,+*()x01789 \n\r\tels";

/// The text with one character put in, left out or changed.
pub fn damaged(random: &mut Random, text: &[u16]) -> Vec<u16> {
    let mut damaged = text.to_vec();
    let place = random.below(text.len() + 1);
    let found = text.get(place).copied();
    match (random.below(3), found) {
        (0, Some(_)) => drop(damaged.remove(place)),
        (1, Some(found)) => damaged[place] = other(random, found),
        (_, beside) => damaged.insert(place, other(random, beside.unwrap_or(32))),
    }
    damaged
}

/// Another character: one that means something, any, or one with another bit.
fn other(random: &mut Random, found: u16) -> u16 {
    let marks = MARKS.as_bytes();
    match random.below(6) {
        0 => random.character(),
        1 => found ^ 1 << random.below(16),
        _ => u16::from(*random.pick(marks)),
    }
}

/// A line: its pattern, none for `else`, and its output expressions.
#[derive(Clone)]
struct Line {
    pattern: Option<Pattern>,
    outputs: Vec<Typed>,
}

/// What stands in the quotes.
#[derive(Clone)]
struct Pattern {
    items: Vec<Vec<Range>>,
    anchored: bool,
}

/// An output expression.
#[derive(Clone)]
enum Typed {
    /// One that comes to a sum; terms of one position are added.
    Sum(Sum),
    /// Any.
    Any,
}

/// The lines of a table without digits and mark.
fn lines(table: &Table) -> Vec<Line> {
    let rules = table.rules.iter().map(|rule| {
        let pattern = Pattern {
            items: rule.positions.clone(),
            anchored: rule.anchored,
        };
        (Some(pattern), rule)
    });
    let default = table.default.iter().map(|group| (None, group));
    let lines = rules.chain(default).map(|(pattern, group)| {
        let outputs = group.sums().cloned().map(Typed::Sum).collect();
        Line { pattern, outputs }
    });
    lines.collect()
}

/// Changes the lines in one way; some are as before.
fn change(random: &mut Random, lines: &mut Vec<Line>) {
    if lines.is_empty() {
        return;
    }
    let place = random.below(lines.len());
    match random.below(24) {
        0..=1 => lines.retain(|line| line.pattern.is_none()),
        2..=3 => lines.insert(place, lines[lines.len() - 1].clone()),
        4 => lines.reverse(),
        5 => {
            let count = MAX_RULES + random.below(2);
            lines.truncate(1);
            lines.resize(count, lines[0].clone());
        }
        6..=13 => {
            if let Some(pattern) = &mut lines[place].pattern {
                change_pattern(random, pattern);
            }
        }
        _ => change_outputs(random, &mut lines[place].outputs),
    }
}

/// Changes a pattern: ranges of an item that are reversed, out of order, too many or
/// none, and the number of items.
fn change_pattern(random: &mut Random, pattern: &mut Pattern) {
    if random.one_in(8) {
        let count = *random.pick(&[0, MAX_LENGTH, MAX_LENGTH + 1]);
        pattern.items.resize(count, vec![Range::ALL]);
    }
    if pattern.items.is_empty() {
        return;
    }
    let place = random.below(pattern.items.len());
    let ranges = &mut pattern.items[place];
    match random.below(7) {
        0..=1 => ranges.insert(0, Range { low: 98, high: 97 }),
        2 => ranges.reverse(),
        3 => ranges.extend_from_within(..),
        4..=5 => {
            let first = random.below(60_000) as u16;
            let count = (MAX_RANGES + random.below(2)) as u16;
            *ranges = (0..count).map(|range| Range::one(first + range)).collect();
        }
        _ => ranges.clear(),
    }
}

/// Changes the output expressions: a sum by its constant or a term, any expression
/// in its place, or as many as there may be, and one more.
fn change_outputs(random: &mut Random, outputs: &mut Vec<Typed>) {
    if random.one_in(4) {
        let count = MAX_OUTPUTS + random.below(2);
        let first = outputs.first().cloned().unwrap_or(Typed::Any);
        outputs.resize(count, first);
    } else if outputs.is_empty() || random.one_in(3) {
        outputs.push(Typed::Any);
    }
    let place = random.below(outputs.len());
    let Typed::Sum(sum) = &mut outputs[place] else {
        return;
    };
    match random.below(3) {
        0 => outputs[place] = Typed::Any,
        1 => {
            let change = *random.pick(&[-1, 1, 65535, -65536]);
            sum.constant = sum.constant.saturating_add(change);
        }
        _ => sum.terms.push(Term {
            position: random.below(MAX_LENGTH),
            coefficient: *random.pick(&[1, -1, i16::MIN, i16::MAX]),
        }),
    }
}
