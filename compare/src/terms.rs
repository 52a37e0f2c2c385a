//! Tables whose terms stand in any order, their twins with the terms by position, and
//! damage to the records of terms.

use reference::builder::{encode, encode_records, records};
use reference::random::Random;
use reference::samples::random_digit;
use reference::table::{Record, Table, Term, MAX_LENGTH, RECORD_BYTES};

use crate::cases::sound_tables;

/// The tables that a seed gives, without end: undamaged, the terms of each sum in a
/// random order, and those of one at least not by position.
pub fn tables(seed: u64) -> impl Iterator<Item = Vec<u8>> {
    let mut random = Random::new(seed);
    let sound = sound_tables(seed.wrapping_add(1));
    let shuffled = sound.map(move |table| shuffled(&mut random, &encode(&table)));
    shuffled.filter(|table| *table != by_position(table))
}

/// The table, sound or damaged, with the terms behind each output character by
/// position; of terms of one position the order stays.
pub fn by_position(table: &[u8]) -> Vec<u8> {
    changed(table, |terms| terms.sort_by_key(|term| term[1]))
}

/// The table, sound or damaged, with the terms behind each output character in a random
/// order.
pub fn shuffled(random: &mut Random, table: &[u8]) -> Vec<u8> {
    changed(table, |terms| random.shuffle(terms))
}

/// The table with each row of terms changed; each other record is a row of its own, of
/// which no order is another.
fn changed(table: &[u8], change: impl FnMut(&mut [[u8; RECORD_BYTES]])) -> Vec<u8> {
    let (records, rest) = table.as_chunks();
    let mut records = records.to_vec();
    let rows = records.chunk_by_mut(|record, next| record[0] == 4 && next[0] == 4);
    rows.for_each(change);
    [records.as_flattened(), rest].concat()
}

/// A way to damage the terms of a table.
#[derive(Clone, Copy, Debug, PartialEq, Eq, PartialOrd, Ord)]
pub enum Damage {
    /// A position is repeated; from the first time to the second it is so many terms.
    Repeated(usize),
    /// A position is at most 7 and not below K.
    NotBelowK,
    /// A position is above 7.
    Above7,
    /// A coefficient is 0.
    Zero,
    /// Terms stand behind a digit.
    BehindDigit,
    /// Terms stand behind the ranges or the default, before any output character.
    Early,
    /// A term is the table's first record.
    First,
    /// A coefficient is 0, and a position is repeated, of the same output character.
    Two,
}

impl Damage {
    /// Every way.
    pub fn all() -> impl Iterator<Item = Damage> {
        let others = [
            Damage::NotBelowK,
            Damage::Above7,
            Damage::Zero,
            Damage::BehindDigit,
            Damage::Early,
            Damage::First,
            Damage::Two,
        ];
        (1..=MAX_LENGTH).map(Damage::Repeated).chain(others)
    }

    /// The number that the table is refused by, where that doesn't hang on the order of
    /// the terms.
    pub fn refused_by(self) -> Option<u32> {
        match self {
            Damage::Above7 | Damage::Zero => Some(2),
            Damage::Two => None,
            _ => Some(3),
        }
    }

    /// The least number of terms that it takes.
    fn least_terms(self) -> usize {
        match self {
            Damage::Repeated(distance) => distance,
            Damage::Two => 2,
            _ => 1,
        }
    }

    /// Whether a sum can be so damaged.
    fn fits(self, sum: &Place) -> bool {
        let room = match self {
            Damage::NotBelowK => sum.length < MAX_LENGTH,
            Damage::Early => sum.is_first,
            _ => true,
        };
        room && self.least_terms() <= sum.length
    }

    /// What stands in the place of the sum's record.
    fn head(self, random: &mut Random, sum: Record, length: usize) -> Option<Record> {
        match self {
            Damage::BehindDigit => Some(Record::Digit(random_digit(random, length))),
            Damage::Early => None,
            _ => Some(sum),
        }
    }

    /// Damages the terms of a sum.
    fn damage(self, random: &mut Random, terms: &mut Vec<Term>, length: usize) {
        let place = random.below(terms.len());
        match self {
            Damage::Repeated(distance) => repeat(random, terms, distance),
            Damage::NotBelowK => {
                terms[place].position = random.between(length as i64, 7) as usize;
            }
            Damage::Above7 => terms[place].position = random.between(8, 255) as usize,
            Damage::Zero => terms[place].coefficient = 0,
            Damage::Two => {
                terms[place].coefficient = 0;
                let other = terms[(place + 1) % terms.len()].position;
                terms.insert(random.below(terms.len() + 1), term(random, other));
            }
            Damage::BehindDigit | Damage::Early | Damage::First => (),
        }
    }
}

/// Where a sum stands: its record, its terms behind it, K, and whether it is its group's
/// first output character.
struct Place {
    at: usize,
    terms: usize,
    length: usize,
    is_first: bool,
}

/// Where the sums of a table's records stand.
fn sums(records: &[Record]) -> Vec<Place> {
    let mut places = Vec::new();
    let mut length = 0;
    for (at, record) in records.iter().enumerate() {
        match record {
            Record::Rule {
                length: of_rule, ..
            } => length = *of_rule,
            Record::Default { .. } => length = 1,
            Record::Output { .. } => {
                let behind = records[at + 1..].iter();
                let terms = behind.take_while(|record| matches!(record, Record::Term(_)));
                places.push(Place {
                    at,
                    terms: terms.count(),
                    length,
                    is_first: matches!(
                        records[at - 1],
                        Record::Range { .. } | Record::Default { .. }
                    ),
                });
            }
            _ => (),
        }
    }
    places
}

/// A sound table with one of its sums damaged in a way, the terms of which are new and in
/// a random order; none if no sum can be.
pub fn damaged(random: &mut Random, table: &Table, damage: Damage) -> Option<Vec<u8>> {
    let mut records = records(table);
    let mut sums = sums(&records);
    sums.retain(|sum| damage.fits(sum));
    if sums.is_empty() {
        return None;
    }
    let Place {
        at,
        terms: count,
        length,
        ..
    } = *random.pick(&sums);
    let head = damage.head(random, records[at], length);
    let mut terms = terms(random, length, damage.least_terms());
    damage.damage(random, &mut terms, length);
    let terms = terms.into_iter().map(Record::Term);
    records.splice(at..=at + count, head.into_iter().chain(terms));
    if damage == Damage::First {
        records.insert(0, Record::Term(term(random, 0)));
    }
    Some(encode_records(&records))
}

/// Terms of different positions below K in a random order, so many at least.
fn terms(random: &mut Random, length: usize, least: usize) -> Vec<Term> {
    let mut positions: Vec<usize> = (0..length).collect();
    random.shuffle(&mut positions);
    positions.truncate(random.between(least as i64, length as i64) as usize);
    let terms = positions.into_iter();
    terms.map(|position| term(random, position)).collect()
}

/// A term of a position, its coefficient small or any.
fn term(random: &mut Random, position: usize) -> Term {
    let any = random.character().max(1) as i16;
    Term {
        position,
        coefficient: *random.pick(&[1, -1, 10, any]),
    }
}

/// Repeats a position, at a distance from where it stands.
fn repeat(random: &mut Random, terms: &mut Vec<Term>, distance: usize) {
    let place = random.below(terms.len() - distance + 1);
    let again = term(random, terms[place].position);
    terms.insert(place + distance, again);
}
