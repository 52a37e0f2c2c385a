//! Where a refused table is refused, found by asking the proved check about
//! parts of it.

use cobbletwill::record::{range, rule, Record};
use cobbletwill::{check, Machine, Refusal};

/// Where a table is refused.
#[derive(Clone, Copy, Debug, PartialEq, Eq)]
pub enum Place {
    /// The bytes after the last whole record, so many.
    Bytes(usize),
    /// A record, by its number from 0.
    Record(usize),
    /// After all records.
    End,
    /// A rule, by its number: the first with which compiling refuses.
    Rule(usize),
}

/// No record: its kind is unknown.
const UNKNOWN: Record = [0; 8];

/// The place of a refusal that compiling the table has answered.
pub fn place(table: &[u8], refusal: Refusal) -> Place {
    let (records, rest) = table.as_chunks();
    match refusal {
        Refusal::TableLength => Place::Bytes(rest.len()),
        Refusal::Value => leaving_output(records).map_or(Place::End, Place::Record),
        Refusal::Classes | Refusal::States => Place::Rule(crowding_rule(records, refusal)),
        _ => refused_record(records).map_or(Place::End, Place::Record),
    }
}

/// Whether each record passes after those before it. The end of these records
/// may answer 4, 5 or 7, so a record of unknown kind is put behind them: it is
/// refused by 2 before any end is looked at, if those before it pass. A 2 that
/// one of those has caused is answered without it too.
fn pass(records: &[Record]) -> bool {
    let probed = [records, &[UNKNOWN]].concat();
    check(&probed.concat()) == Err(Refusal::Field)
        && check(&records.concat()) != Err(Refusal::Field)
}

/// The first record that doesn't pass after those before it.
fn refused_record(records: &[Record]) -> Option<usize> {
    let ends: Vec<usize> = (1..=records.len()).collect();
    let first = ends.partition_point(|&end| pass(&records[..end]));
    (first < records.len()).then_some(first)
}

/// Whether a record opens a rule's group.
pub fn opens_rule(record: &Record) -> bool {
    record[0] == 1
}

/// Whether a record opens a group.
pub fn opens_group(record: &Record) -> bool {
    opens_rule(record) || record[0] == 5
}

/// Whether a record is an output character: a sum's, or a digit.
pub fn is_output(record: &Record) -> bool {
    matches!(record[0], 3 | 6)
}

/// The first output character that is refused by 7 in a table of its group's
/// pattern and itself alone: "other rules disregarded". The default gets a rule
/// beside it, for a table without rules is refused.
fn leaving_output(records: &[Record]) -> Option<usize> {
    let outputs = (0..records.len()).filter(|&at| is_output(&records[at]));
    let mut refused = outputs.filter(|&at| {
        let group = records[..at].iter().rposition(opens_group).unwrap_or(0);
        let pattern = records[group..at].iter().take_while(|r| !is_output(r));
        let terms = records[at + 1..].iter().take_while(|record| record[0] == 4);
        let alone = pattern.chain(&records[at..=at]).chain(terms).copied();
        let beside = [rule(1, false), range(0, 0, 0)];
        let table: Vec<Record> = beside.into_iter().chain(alone).collect();
        check(&table.concat()) == Err(Refusal::Value)
    });
    refused.next()
}

/// The first rule up to which the rules alone are refused so; compiling has
/// refused all of them.
pub fn crowding_rule(records: &[Record], refusal: Refusal) -> usize {
    let opening = (1..=records.len()).filter(|&at| records.get(at).is_none_or(opens_group));
    let refused = |&end: &usize| Machine::compile(&records[..end].concat()) == Err(refusal);
    opening.take_while(|end| !refused(end)).count()
}

#[cfg(test)]
mod tests {
    use super::{check, place, refused_record, Place, Refusal};
    use cobbletwill::record::BYTES;

    const TABLE: &[u8] = include_bytes!("../../tables/html-decimal/rules.tab");
    const DIGITS: &[u8] = include_bytes!("../../tables/hex-bytes/rules.tab");

    /// The record at which a table is refused by 2, 3 or 6, which no end of a
    /// table answers: the last of the shortest beginning that is refused so.
    fn record_of(table: &[u8], refusal: Refusal) -> Place {
        let refused = |&end: &usize| check(&table[..end]) == Err(refusal);
        let ends = (BYTES..=table.len()).step_by(BYTES);
        let shortest = { ends }.find(refused).expect("the whole is refused so");
        Place::Record(shortest / BYTES - 1)
    }

    /// How many of the tables that differ in one byte are refused by each number;
    /// each place is found.
    fn refused_by_one_byte(whole: &[u8]) -> [usize; 8] {
        let mut table = whole.to_vec();
        let mut refused = [0; 8];
        for at in 0..table.len() {
            for byte in 0..=255 {
                table[at] = byte;
                if let Err(refusal) = check(&table) {
                    refused[refusal as usize] += 1;
                    let found = place(&table, refusal);
                    match refusal {
                        Refusal::Field | Refusal::Place | Refusal::TooMany => {
                            assert_eq!(found, record_of(&table, refusal));
                        }
                        _ => assert!(matches!(found, Place::Record(_)), "{refusal}"),
                    }
                }
            }
            table[at] = whole[at];
        }
        refused
    }

    #[test]
    fn every_change_of_one_byte() {
        let refused = refused_by_one_byte(TABLE);
        assert!(refused[2] > 20_000 && refused[3] > 50, "{refused:?}");
        assert!(refused[4] > 20 && refused[7] > 1_000, "{refused:?}");
    }

    #[test]
    fn every_change_of_one_byte_of_digits() {
        let refused = refused_by_one_byte(DIGITS);
        assert!(refused[2] > 5_000 && refused[3] > 20, "{refused:?}");
        assert_eq!((refused[5], refused[6], refused[7]), (0, 0, 0));
    }

    #[test]
    fn all_records_of_an_accepted_table_pass() {
        for table in [TABLE, DIGITS] {
            assert_eq!(refused_record(table.as_chunks().0), None);
        }
    }
}
