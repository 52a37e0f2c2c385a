//! Writing tables as record bytes.

use crate::table::{Digit, Group, Output, Range, Record, Table, Term};

/// The characters of a text, 16-bit units.
pub fn characters(text: &str) -> Vec<u16> {
    text.encode_utf16().collect()
}

/// A character's four hexadecimal digits, the upper first, as Rust writes them:
/// for tests, beside the paper's words in [`crate::meaning::digit`].
pub fn hexadecimal(character: u16) -> [u16; 4] {
    let written = format!("{character:04X}").into_bytes();
    [0, 1, 2, 3].map(|place| u16::from(written[place]))
}

/// The bytes of a list of records.
pub fn encode_records(records: &[Record]) -> Vec<u8> {
    records.iter().flat_map(|record| record.encode()).collect()
}

/// The bytes of a table.
pub fn encode(table: &Table) -> Vec<u8> {
    encode_records(&records(table))
}

/// The records of a table.
pub fn records(table: &Table) -> Vec<Record> {
    let rules = table.rules.iter().flat_map(rule_records);
    let default = table.default.iter();
    let default = default.flat_map(|group| default_records(group, table.marked));
    rules.chain(default).collect()
}

/// "A rule's group is kind 1, its ranges, its output characters, each followed
/// by its terms"; a digit has none.
fn rule_records(rule: &Group) -> Vec<Record> {
    let mut records = vec![Record::Rule {
        length: rule.length(),
        anchored: rule.anchored,
    }];
    for (position, ranges) in rule.positions.iter().enumerate() {
        records.extend(
            ranges
                .iter()
                .map(|&range| Record::Range { position, range }),
        );
    }
    records.extend(output_records(rule));
    records
}

/// A default group has no ranges.
fn default_records(default: &Group, marked: bool) -> Vec<Record> {
    let mut records = vec![Record::Default { marked }];
    records.extend(output_records(default));
    records
}

/// Output characters, each followed by its terms.
fn output_records(group: &Group) -> impl Iterator<Item = Record> + '_ {
    group.outputs.iter().flat_map(|output| {
        let (first, terms) = match output {
            Output::Sum(sum) => {
                let constant = sum.constant;
                (Record::Output { constant }, &sum.terms[..])
            }
            Output::Digit(digit) => (Record::Digit(*digit), &[][..]),
        };
        let terms = terms.iter().copied().map(Record::Term);
        [first].into_iter().chain(terms)
    })
}

/// A table being written, record after record, valid or not.
#[derive(Clone, Debug, Default)]
pub struct TableBuilder {
    records: Vec<Record>,
}

impl TableBuilder {
    /// A table without records.
    pub fn new() -> Self {
        Self::default()
    }

    /// Kind 1, not anchored.
    pub fn rule(self, length: usize) -> Self {
        self.record(Record::Rule {
            length,
            anchored: false,
        })
    }

    /// Kind 1, anchored.
    pub fn anchored(self, length: usize) -> Self {
        self.record(Record::Rule {
            length,
            anchored: true,
        })
    }

    /// Kind 2.
    pub fn range(self, position: usize, low: u16, high: u16) -> Self {
        self.record(Record::Range {
            position,
            range: Range { low, high },
        })
    }

    /// Kind 2 for each of a list of single characters, the positions rising
    /// from one.
    pub fn spelled(self, position: usize, text: &str) -> Self {
        let spelled = characters(text).into_iter().zip(position..);
        spelled.fold(self, |table, (character, position)| {
            table.range(position, character, character)
        })
    }

    /// Kind 3.
    pub fn output(self, constant: i32) -> Self {
        self.record(Record::Output { constant })
    }

    /// Kind 3 for each character of a text that is written as it stands.
    pub fn text(self, text: &str) -> Self {
        let constants = characters(text).into_iter().map(i32::from);
        constants.fold(self, Self::output)
    }

    /// Kind 4.
    pub fn term(self, position: usize, coefficient: i16) -> Self {
        self.record(Record::Term(Term {
            position,
            coefficient,
        }))
    }

    /// Kind 5, not marked.
    pub fn default_group(self) -> Self {
        self.record(Record::Default { marked: false })
    }

    /// Kind 5, marked.
    pub fn marked_default(self) -> Self {
        self.record(Record::Default { marked: true })
    }

    /// Kind 6.
    pub fn digit(self, position: usize, shift: u16) -> Self {
        self.record(Record::Digit(Digit { position, shift }))
    }

    /// The output character x0.
    pub fn copy(self) -> Self {
        self.output(0).term(0, 1)
    }

    /// The default that writes x0.
    pub fn copying_default(self) -> Self {
        self.default_group().copy()
    }

    /// Any record.
    pub fn record(mut self, record: Record) -> Self {
        self.records.push(record);
        self
    }

    /// The table's bytes.
    pub fn bytes(&self) -> Vec<u8> {
        encode_records(&self.records)
    }
}
