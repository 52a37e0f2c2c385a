//! Tables as rules that can be typed.

use cobbletwill::record::{Record, MARKED_DEFAULT};
use cobbletwill::{check, Refusal};

use crate::mark::MARK;
use crate::place::{is_output, opens_group};
use crate::units::{is_among, picture_of, pictured, units};

/// "A decimal number up to 65535."
const MOST: u32 = 65_535;

/// The characters that "need it in quotes", a backslash.
const MARKS: &str = "\"\\[]$";

/// A table's rules as text, a line each; refused as by the table check. The library
/// reads the text back to the same records, the terms of each sum by position, unless
/// one is a digit or the marked default: these can't be typed, and are written as in a
/// source.
pub fn text(table: &[u8]) -> Result<Vec<u16>, Refusal> {
    let lines = lines(table)?.into_iter();
    Ok(lines
        .flat_map(|line| [line, units("\n")].concat())
        .collect())
}

/// A table's rules as the lines of a source, with pictures of characters that don't
/// show; refused as by the table check. The halves of pairs, which no source has,
/// are replaced where they stand alone.
pub fn source(table: &[u8]) -> Result<Vec<String>, Refusal> {
    Ok({ lines(table)?.iter() }.map(|line| shown(line)).collect())
}

/// Characters in quotes as in a source, if they show or have pictures.
pub fn quoted(input: &[u16]) -> Option<String> {
    let shows = |&unit: &u16| {
        let visible = |character: char| character.escape_debug().count() == 1;
        unit < 0x80 || char::from_u32(unit.into()).is_some_and(visible)
    };
    input.iter().all(shows).then(|| {
        let characters = input.iter().flat_map(|&unit| character(unit, MARKS));
        format!("\"{}\"", shown(&characters.collect::<Vec<_>>()))
    })
}

/// Characters as a source has them, with pictures of those that don't show.
fn shown(units: &[u16]) -> String {
    let units = units.iter().map(|&unit| picture_of(unit).unwrap_or(unit));
    String::from_utf16_lossy(&units.collect::<Vec<_>>())
}

/// The lines of an accepted table, one for each group.
fn lines(table: &[u8]) -> Result<Vec<Vec<u16>>, Refusal> {
    check(table)?;
    let groups = { table.as_chunks().0 }.chunk_by(|_, next| !opens_group(next));
    Ok(groups.map(line).collect())
}

/// A group: its pattern or `else`, and its output characters.
fn line(group: &[Record]) -> Vec<u16> {
    let outputs = group.iter().position(is_output).unwrap_or(group.len());
    let (head, outputs) = group.split_at(outputs);
    let pattern = match head {
        [[1, _, anchored, ..], ranges @ ..] => pattern(ranges, *anchored == 1),
        [MARKED_DEFAULT, ..] => units(&format!("else {}", MARK.join(" "))),
        _ => units("else"),
    };
    let outputs = outputs.chunk_by(|_, next| !is_output(next));
    let expressions: Vec<String> = outputs.map(expression).collect();
    [
        pattern,
        units(&format!(" ==> [{}];", expressions.join(", "))),
    ]
    .concat()
}

/// The ranges of a rule in quotes.
fn pattern(ranges: &[Record], anchored: bool) -> Vec<u16> {
    let items = ranges.chunk_by(|range, next| range[1] == next[1]);
    let end = if anchored { "$\"" } else { "\"" };
    [units("\""), items.flat_map(item).collect(), units(end)].concat()
}

/// The ranges of a position: one character, or single characters and ranges in
/// square brackets.
fn item(ranges: &[Record]) -> Vec<u16> {
    let bounds = ranges.iter().map(|&[_, _, _, _, l0, l1, h0, h1]| {
        let (lowest, highest) = ([l0, l1], [h0, h1]);
        (u16::from_le_bytes(lowest), u16::from_le_bytes(highest))
    });
    let bounds: Vec<(u16, u16)> = bounds.collect();
    if let [(lowest, highest)] = bounds[..] {
        if lowest == highest {
            return character(lowest, MARKS);
        }
    }
    let in_brackets = |unit| character(unit, "\"\\[]$-");
    let ranges = bounds.into_iter().flat_map(|(lowest, highest)| {
        let rest = match lowest == highest {
            true => Vec::new(),
            false => [units("-"), in_brackets(highest)].concat(),
        };
        [in_brackets(lowest), rest].concat()
    });
    [units("["), ranges.collect(), units("]")].concat()
}

/// A character in quotes: with a backslash if it is one of the marks, and if it is a
/// picture, which in a source stands for another.
fn character(unit: u16, marks: &str) -> Vec<u16> {
    match is_among(unit, marks) || pictured(unit).is_some() {
        true => [units("\\"), vec![unit]].concat(),
        false => vec![unit],
    }
}

/// An output character, with its terms, as an expression.
fn expression(output: &[Record]) -> String {
    let (&[kind, position, shift, _, c0, c1, c2, c3], terms) =
        { output.split_first() }.expect("an output character");
    match kind {
        6 => format!("hex(x{position}, {shift})"),
        _ => sum(i32::from_le_bytes([c0, c1, c2, c3]), terms),
    }
}

/// A sum: what is added, and then what is taken away.
fn sum(constant: i32, terms: &[Record]) -> String {
    let (mut added, mut taken) = (Vec::new(), Vec::new());
    for &[_, position, _, _, c0, c1, ..] in terms {
        let coefficient = i16::from_le_bytes([c0, c1]);
        let side = if coefficient < 0 {
            &mut taken
        } else {
            &mut added
        };
        side.push(match coefficient.unsigned_abs() {
            1 => format!("x{position}"),
            times => format!("{times} * x{position}"),
        });
    }
    let side = if constant < 0 { &mut taken } else { &mut added };
    match constant.unsigned_abs() {
        0 => (),
        number @ 1..=MOST => side.push(number.to_string()),
        more => side.extend([
            format!("{} * {MOST}", more / MOST),
            (more % MOST).to_string(),
        ]),
    }
    if added.is_empty() {
        added.push("0".to_owned());
    }
    taken.insert(0, added.join(" + "));
    taken.join(" - ")
}
