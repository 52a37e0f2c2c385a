//! A table's records in words, and the verdict of the proved library.

use cobbletwill::record::Record;
use cobbletwill::{witness, Machine, Refusal};

use crate::place::{opens_group, opens_rule, place, Place};
use crate::typed::{quoted, source};

/// The table's records, one a line, group by group, and the verdict. A group of a
/// table that the check accepts is shown as in a source, too, and of each rule of one
/// that compiles is said whether it is dead.
pub fn listing(table: &[u8]) -> String {
    let refused = Machine::compile(table).err();
    let marked = refused.map(|refusal| (place(table, refusal), refusal));
    let (records, rest) = table.as_chunks();
    let mut text = String::new();
    let mut rules = 0;
    let mut lines = source(table).unwrap_or_default().into_iter();
    for (number, record) in records.iter().enumerate() {
        if opens_group(record) {
            let line = lines
                .next()
                .map_or(String::new(), |line| format!(": {line}"));
            text += &format!("{}{line}\n", heading(record, &mut rules));
            if opens_rule(record) {
                text += &choice(table, rules - 1);
            }
        }
        text += &line(number, record);
        if let Some((Place::Record(at), refusal)) = marked {
            if at == number {
                text += &format!("  <- refused {}", refusal.number());
            }
        }
        text += "\n";
    }
    if !rest.is_empty() {
        text += &format!("left over\n      {}\n", hexadecimal(rest));
    }
    text + &verdict(table)
}

/// The name of a group, of which a rule's number is that of the rules before it.
fn heading(record: &Record, rules: &mut u32) -> String {
    if record[0] == 5 {
        return "default".to_owned();
    }
    *rules += 1;
    format!("rule {}", *rules - 1)
}

/// Of a rule of a table that compiles, an input on which it is the first choice, or that
/// it is dead: a line, its characters in quotes as in a source or, where one doesn't
/// show, as numbers.
fn choice(table: &[u8], rule: u32) -> String {
    match witness(table, rule) {
        Ok(Some(input)) => {
            let numbers = input.iter().map(|&unit| shown(i32::from(unit)));
            let numbers: Vec<String> = numbers.collect();
            let input = quoted(&input).unwrap_or_else(|| numbers.join(", "));
            format!("      chosen first on {input}\n")
        }
        Ok(None) => "      dead: no input makes the definition choose it\n".to_owned(),
        Err(_) => String::new(),
    }
}

/// A record's number, its bytes and what it says.
fn line(number: usize, record: &Record) -> String {
    format!("{number:4}  {}  {}", hexadecimal(record), describe(record))
}

/// Bytes as two hexadecimal digits each.
fn hexadecimal(bytes: &[u8]) -> String {
    let digits: Vec<String> = bytes.iter().map(|byte| format!("{byte:02x}")).collect();
    digits.join(" ")
}

/// What a record says, whether it is accepted or not.
fn describe(record: &Record) -> String {
    let [kind, first, second, _, b4, b5, b6, b7] = *record;
    match kind {
        1 if second == 1 => format!("rule of length {first}, anchored"),
        1 => format!("rule of length {first}"),
        2 => {
            let (lowest, highest) = (u16::from_le_bytes([b4, b5]), u16::from_le_bytes([b6, b7]));
            format!("position {first} takes {}", characters(lowest, highest))
        }
        3 => {
            let constant = i32::from_le_bytes([b4, b5, b6, b7]);
            format!("writes {}", shown(constant))
        }
        4 => {
            let coefficient = i16::from_le_bytes([b4, b5]);
            format!("plus {coefficient} times x{first}")
        }
        5 if first == 1 => "default, which keeps pairs".to_owned(),
        5 => "default".to_owned(),
        6 => format!("writes {} of x{first}, shift {second}", digit(second)),
        _ => format!("unknown kind {kind}"),
    }
}

/// Which hexadecimal digit of a character a shift says.
fn digit(shift: u8) -> &'static str {
    match shift {
        0 => "the lowest hexadecimal digit",
        4 => "the second lowest hexadecimal digit",
        8 => "the second highest hexadecimal digit",
        12 => "the highest hexadecimal digit",
        _ => "a hexadecimal digit",
    }
}

/// The characters of a range.
fn characters(lowest: u16, highest: u16) -> String {
    let (lowest, highest) = (i32::from(lowest), i32::from(highest));
    match lowest == highest {
        true => shown(lowest),
        false => format!("{} to {}", shown(lowest), shown(highest)),
    }
}

/// A number, with the visible ASCII character that it stands for.
fn shown(number: i32) -> String {
    match u8::try_from(number) {
        Ok(byte @ b'!'..=b'~') => format!("{number} '{}'", char::from(byte)),
        _ => number.to_string(),
    }
}

/// What compiling says of a table: its measures, or the refusal with its place.
pub fn verdict(table: &[u8]) -> String {
    match Machine::compile(table) {
        Ok(machine) => measures(&machine),
        Err(refusal) => format!("{refusal}\n{}\n", where_refused(table, refusal)),
    }
}

/// The measures of a compiled table.
fn measures(machine: &Machine) -> String {
    let default = match (machine.has_default(), machine.keeps_pairs()) {
        (true, true) => "a default that keeps pairs",
        (true, false) => "a default",
        (false, _) => "no default",
    };
    let (rules, classes, states) = (
        machine.rule_count(),
        machine.class_count(),
        machine.state_count(),
    );
    let (longest, most_outputs) = (machine.longest_pattern(), machine.expansion());
    format!(
        "accepted: rules {rules}, {default}, classes {classes}, states {states}, \
         L {longest}, E {most_outputs}\n"
    )
}

/// The place of a refusal in words.
fn where_refused(table: &[u8], refusal: Refusal) -> String {
    let records = table.as_chunks().0;
    match place(table, refusal) {
        Place::Bytes(count) => format!("{count} of 8 bytes after the last whole record"),
        Place::Record(number) => format!("at record {number}, in {}", group_of(records, number)),
        Place::End if records.is_empty() => "at the table's end".to_owned(),
        Place::End => {
            let last = group_of(records, records.len() - 1);
            format!("at the table's end, after {last}")
        }
        Place::Rule(number) => {
            format!("first with rule {number}; direct conversion accepts the table")
        }
    }
}

/// The name of the group of a record.
fn group_of(records: &[Record], number: usize) -> String {
    let before = &records[..=number];
    match before.iter().rfind(|record| opens_group(record)) {
        None => "no group".to_owned(),
        Some([5, ..]) => "the default".to_owned(),
        Some(_) => {
            let rules = before.iter().filter(|record| opens_rule(record)).count();
            format!("rule {}", rules - 1)
        }
    }
}
