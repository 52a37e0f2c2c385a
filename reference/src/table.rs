//! Table records, and the reader that refuses by 1 to 7.

use crate::refusal::Refusal;

/// "Records of 8 bytes."
pub const RECORD_BYTES: usize = 8;
/// The greatest length K of a rule.
pub const MAX_LENGTH: usize = 8;
/// The most ranges of a position.
pub const MAX_RANGES: usize = 4;
/// The most output characters of a group.
pub const MAX_OUTPUTS: usize = 8;
/// The most rules of a table.
pub const MAX_RULES: usize = 32;
/// "A shift of 0, 4, 8 or 12."
pub const SHIFTS: [u16; 4] = [0, 4, 8, 12];

/// A rule number: rules are numbered from 0.
#[derive(Clone, Copy, Debug, PartialEq, Eq, PartialOrd, Ord, Hash)]
pub struct RuleNo(pub u16);

impl RuleNo {
    /// The number as a place in a list.
    pub fn index(self) -> usize {
        usize::from(self.0)
    }
}

/// A range: the lowest and the highest character that it takes.
#[derive(Clone, Copy, Debug, PartialEq, Eq)]
pub struct Range {
    /// The lowest character.
    pub low: u16,
    /// The highest character.
    pub high: u16,
}

impl Range {
    /// The range that takes every character.
    pub const ALL: Range = Range {
        low: 0,
        high: u16::MAX,
    };

    /// The range that takes one character.
    pub fn one(character: u16) -> Range {
        Range {
            low: character,
            high: character,
        }
    }

    /// Whether the character lies in the range.
    pub fn contains(self, character: u16) -> bool {
        (self.low..=self.high).contains(&character)
    }
}

/// A term: a coefficient for the character at a position.
#[derive(Clone, Copy, Debug, PartialEq, Eq)]
pub struct Term {
    /// The position, counted from 0.
    pub position: usize,
    /// The signed coefficient, not 0.
    pub coefficient: i16,
}

/// A sum: a signed constant and its terms.
#[derive(Clone, Debug, PartialEq, Eq)]
pub struct Sum {
    /// The signed constant.
    pub constant: i32,
    /// The terms as their records stand, each of a position of its own.
    pub terms: Vec<Term>,
}

/// A hexadecimal digit of the character at a position.
#[derive(Clone, Copy, Debug, PartialEq, Eq)]
pub struct Digit {
    /// The position, counted from 0.
    pub position: usize,
    /// One of [`SHIFTS`].
    pub shift: u16,
}

/// An output character.
#[derive(Clone, Debug, PartialEq, Eq)]
pub enum Output {
    /// Kind 3 and its terms.
    Sum(Sum),
    /// Kind 6, which takes no terms.
    Digit(Digit),
}

/// A group: a rule with its ranges and output characters, or the default.
#[derive(Clone, Debug, PartialEq, Eq)]
pub struct Group {
    /// Whether the pattern must end at the input's end.
    pub anchored: bool,
    /// The ranges of each position, K positions in all.
    pub positions: Vec<Vec<Range>>,
    /// The output characters.
    pub outputs: Vec<Output>,
}

impl Group {
    /// A rule of length K, its positions still to be filled.
    fn rule(length: usize, anchored: bool) -> Group {
        Group {
            anchored,
            positions: vec![Vec::new(); length],
            outputs: Vec::new(),
        }
    }

    /// The default "acts as a group with K = 1 whose position 0 takes every
    /// character".
    pub fn default_group() -> Group {
        Group {
            anchored: false,
            positions: vec![vec![Range::ALL]],
            outputs: Vec::new(),
        }
    }

    /// K, the number of positions.
    pub fn length(&self) -> usize {
        self.positions.len()
    }

    /// Whether one of the position's ranges has the character; no position
    /// from K on takes any.
    pub fn takes(&self, position: usize, character: u16) -> bool {
        self.positions
            .get(position)
            .is_some_and(|ranges| ranges.iter().any(|range| range.contains(character)))
    }

    /// Whether every position has a range.
    fn is_filled(&self) -> bool {
        self.positions.iter().all(|ranges| !ranges.is_empty())
    }

    /// An output character, of kind 3 or 6, ends the ranges (4); a ninth of
    /// either kind is refused by 6.
    fn add_output(&mut self, output: Output) -> Result<(), Refusal> {
        if !self.is_filled() {
            return Err(Refusal::Unfilled);
        }
        if self.outputs.len() == MAX_OUTPUTS {
            return Err(Refusal::TooMany);
        }
        self.outputs.push(output);
        Ok(())
    }

    /// The output characters that are sums.
    pub fn sums(&self) -> impl Iterator<Item = &Sum> {
        self.outputs.iter().filter_map(|output| match output {
            Output::Sum(sum) => Some(sum),
            Output::Digit(_) => None,
        })
    }

    /// The same, to change them.
    pub fn sums_mut(&mut self) -> impl Iterator<Item = &mut Sum> {
        self.outputs.iter_mut().filter_map(|output| match output {
            Output::Sum(sum) => Some(sum),
            Output::Digit(_) => None,
        })
    }

    /// The least and the greatest value of a sum over the words that fit the
    /// group, other rules disregarded. Each position's character is free of the
    /// others', so each term has its extremes at its position's lowest and
    /// highest character.
    pub fn extremes(&self, sum: &Sum) -> (i64, i64) {
        let constant = i64::from(sum.constant);
        sum.terms
            .iter()
            .map(|term| self.term_extremes(term))
            .fold((constant, constant), |(least, greatest), (low, high)| {
                (least + low, greatest + high)
            })
    }

    /// The least and the greatest value of one term.
    fn term_extremes(&self, term: &Term) -> (i64, i64) {
        let characters = self.positions[term.position]
            .iter()
            .flat_map(|range| [range.low, range.high]);
        let values = characters.map(|c| i64::from(term.coefficient) * i64::from(c));
        values.fold((i64::MAX, i64::MIN), |(least, greatest), value| {
            (least.min(value), greatest.max(value))
        })
    }

    /// Whether an output value may leave 0 to 65535. A digit's is 48 to 70.
    fn may_leave_characters(&self) -> bool {
        self.sums().any(|sum| {
            let (least, greatest) = self.extremes(sum);
            least < 0 || greatest > i64::from(u16::MAX)
        })
    }
}

/// What happens where no rule fits.
#[derive(Clone, Copy, Debug, PartialEq, Eq)]
pub enum Mode {
    /// There is no default.
    Absent,
    /// The default takes one unit.
    Single,
    /// The default is marked: it takes both units of a pair, else one.
    Paired,
}

impl Mode {
    /// "E is then at least 1": the least E of a mode.
    pub fn least_outputs(self) -> usize {
        match self {
            Mode::Absent | Mode::Single => 0,
            Mode::Paired => 1,
        }
    }
}

/// A table: its rules, numbered from 0, and the default if it has one.
#[derive(Clone, Debug, Default, PartialEq, Eq)]
pub struct Table {
    /// The rules' groups.
    pub rules: Vec<Group>,
    /// The default group.
    pub default: Option<Group>,
    /// Whether the default's record carries request \[8\]'s mark; false without one.
    pub marked: bool,
}

impl Table {
    /// Reads a table, or answers the first of the refusals 1 to 7 in document
    /// 01's order: 1, then the records from the first, each by 2, 3, 4, 6, and
    /// 4, 5, 7 at the table's end.
    pub fn read(bytes: &[u8]) -> Result<Table, Refusal> {
        let (records, rest) = bytes.as_chunks::<RECORD_BYTES>();
        if !rest.is_empty() {
            return Err(Refusal::TableLength);
        }
        let mut table = Table::default();
        for record in records {
            table.add(Record::decode(record)?)?;
        }
        table.check_whole()?;
        Ok(table)
    }

    /// The rules' groups and the default's.
    pub fn groups(&self) -> impl Iterator<Item = &Group> {
        self.rules.iter().chain(&self.default)
    }

    /// The ranges of the rules, as their records stand.
    pub fn ranges(&self) -> impl Iterator<Item = &Range> {
        let positions = self.rules.iter().flat_map(|rule| &rule.positions);
        positions.flatten()
    }

    /// L, the greatest K of the rules.
    pub fn longest(&self) -> usize {
        self.rules.iter().map(Group::length).max().unwrap_or(0)
    }

    /// What happens where no rule fits.
    pub fn mode(&self) -> Mode {
        match (&self.default, self.marked) {
            (None, _) => Mode::Absent,
            (Some(_), false) => Mode::Single,
            (Some(_), true) => Mode::Paired,
        }
    }

    /// E, the greatest number of output characters in a group, default
    /// included; under the mark at least 1.
    pub fn most_outputs(&self) -> usize {
        let counts = self.groups().map(|group| group.outputs.len());
        counts.fold(self.mode().least_outputs(), usize::max)
    }

    /// Whether a group has a digit as output character.
    pub fn has_digits(&self) -> bool {
        let mut outputs = self.groups().flat_map(|group| &group.outputs);
        outputs.any(|output| matches!(output, Output::Digit(_)))
    }

    /// Adds a record to the records read so far, by 3, 4, 6.
    fn add(&mut self, record: Record) -> Result<(), Refusal> {
        match record {
            Record::Rule { length, anchored } => self.add_rule(length, anchored),
            Record::Range { position, range } => self.add_range(position, range),
            Record::Output { constant } => self.add_sum(constant),
            Record::Term(term) => self.add_term(term),
            Record::Default { marked } => self.add_default(marked),
            Record::Digit(digit) => self.add_digit(digit),
        }
    }

    /// Kind 1: opens a rule.
    fn add_rule(&mut self, length: usize, anchored: bool) -> Result<(), Refusal> {
        self.check_new_group()?;
        if self.rules.len() == MAX_RULES {
            return Err(Refusal::TooMany);
        }
        self.rules.push(Group::rule(length, anchored));
        Ok(())
    }

    /// Kind 2: ranges come in a rule before its output characters; they rise by
    /// position, and within one each starts above the last's end.
    fn add_range(&mut self, position: usize, range: Range) -> Result<(), Refusal> {
        let in_default = self.default.is_some();
        let rule = self.rules.last_mut();
        let rule = rule.filter(|rule| !in_default && rule.outputs.is_empty());
        let positions = &mut rule.ok_or(Refusal::Place)?.positions;
        if position >= positions.len() || !in_order(positions, position, range) {
            return Err(Refusal::Place);
        }
        if positions[..position].iter().any(Vec::is_empty) {
            return Err(Refusal::Unfilled);
        }
        if positions[position].len() == MAX_RANGES {
            return Err(Refusal::TooMany);
        }
        positions[position].push(range);
        Ok(())
    }

    /// Kind 3: a sum, its terms still to come.
    fn add_sum(&mut self, constant: i32) -> Result<(), Refusal> {
        let group = self.current().ok_or(Refusal::Place)?;
        group.add_output(Output::Sum(Sum {
            constant,
            terms: Vec::new(),
        }))
    }

    /// Kind 4: terms follow a sum "in any order of position, though a position
    /// still occurs once". A digit "takes no terms (one is refused by 3)".
    fn add_term(&mut self, term: Term) -> Result<(), Refusal> {
        let group = self.current().ok_or(Refusal::Place)?;
        let length = group.length();
        let Some(Output::Sum(sum)) = group.outputs.last_mut() else {
            return Err(Refusal::Place);
        };
        let mut before = sum.terms.iter();
        let repeated = before.any(|other| other.position == term.position);
        if term.position >= length || repeated {
            return Err(Refusal::Place);
        }
        sum.terms.push(term);
        Ok(())
    }

    /// Kind 6: "stands wherever kind 3 may"; its position is below K.
    fn add_digit(&mut self, digit: Digit) -> Result<(), Refusal> {
        let group = self.current().ok_or(Refusal::Place)?;
        if digit.position >= group.length() {
            return Err(Refusal::Place);
        }
        group.add_output(Output::Digit(digit))
    }

    /// Kind 5: opens the default.
    fn add_default(&mut self, marked: bool) -> Result<(), Refusal> {
        self.check_new_group()?;
        self.default = Some(Group::default_group());
        self.marked = marked;
        Ok(())
    }

    /// A group may begin unless the default, which comes last, has begun (3);
    /// the ranges before it end there (4).
    fn check_new_group(&self) -> Result<(), Refusal> {
        if self.default.is_some() {
            return Err(Refusal::Place);
        }
        self.check_filled()
    }

    /// No position is unfilled when the ranges end.
    fn check_filled(&self) -> Result<(), Refusal> {
        if self.rules.last().is_some_and(|rule| !rule.is_filled()) {
            return Err(Refusal::Unfilled);
        }
        Ok(())
    }

    /// At the table's end: 4, 5, 7.
    fn check_whole(&self) -> Result<(), Refusal> {
        self.check_filled()?;
        if self.rules.is_empty() {
            return Err(Refusal::NoRule);
        }
        if self.groups().any(Group::may_leave_characters) {
            return Err(Refusal::Value);
        }
        Ok(())
    }

    /// The group that records are being added to.
    fn current(&mut self) -> Option<&mut Group> {
        self.default.as_mut().or(self.rules.last_mut())
    }
}

/// Whether a range may still come at a position: no later position has one, and
/// the range starts above the end of the position's last.
fn in_order(positions: &[Vec<Range>], position: usize, range: Range) -> bool {
    positions[position + 1..].iter().all(Vec::is_empty)
        && positions[position]
            .last()
            .is_none_or(|last| last.high < range.low)
}

/// A record of the house format.
#[derive(Clone, Copy, Debug, PartialEq, Eq)]
pub enum Record {
    /// Kind 1: a rule of length K, anchored or not.
    Rule {
        /// The length K.
        length: usize,
        /// Whether the pattern must end at the input's end.
        anchored: bool,
    },
    /// Kind 2: a range of a position.
    Range {
        /// The position.
        position: usize,
        /// The range.
        range: Range,
    },
    /// Kind 3: an output character.
    Output {
        /// Its constant.
        constant: i32,
    },
    /// Kind 4: a term of the output character before it.
    Term(Term),
    /// Kind 5: the default, marked or not.
    Default {
        /// Whether it takes both units of a pair.
        marked: bool,
    },
    /// Kind 6: a digit as output character.
    Digit(Digit),
}

impl Record {
    /// A record from its bytes; refusal 2 for an unknown kind, a field outside
    /// its own range, a byte that must be zero and isn't, lowest above highest.
    pub fn decode(bytes: &[u8; RECORD_BYTES]) -> Result<Record, Refusal> {
        match *bytes {
            [1, length @ 1..=8, anchored @ 0..=1, 0, 0, 0, 0, 0] => Ok(Record::Rule {
                length: usize::from(length),
                anchored: anchored == 1,
            }),
            [2, position @ 0..=7, 0, 0, low0, low1, high0, high1] => {
                Record::decode_range(position, [low0, low1], [high0, high1])
            }
            [3, 0, 0, 0, c0, c1, c2, c3] => Ok(Record::Output {
                constant: i32::from_le_bytes([c0, c1, c2, c3]),
            }),
            [4, position @ 0..=7, 0, 0, c0, c1, 0, 0] if [c0, c1] != [0, 0] => {
                Ok(Record::Term(Term {
                    position: usize::from(position),
                    coefficient: i16::from_le_bytes([c0, c1]),
                }))
            }
            [5, marked @ 0..=1, 0, 0, 0, 0, 0, 0] => Ok(Record::Default {
                marked: marked == 1,
            }),
            [6, position @ 0..=7, shift @ (0 | 4 | 8 | 12), 0, 0, 0, 0, 0] => {
                Ok(Record::Digit(Digit {
                    position: usize::from(position),
                    shift: u16::from(shift),
                }))
            }
            _ => Err(Refusal::Field),
        }
    }

    /// Kind 2, whose lowest is at most its highest.
    fn decode_range(position: u8, low: [u8; 2], high: [u8; 2]) -> Result<Record, Refusal> {
        let range = Range {
            low: u16::from_le_bytes(low),
            high: u16::from_le_bytes(high),
        };
        if range.low > range.high {
            return Err(Refusal::Field);
        }
        Ok(Record::Range {
            position: usize::from(position),
            range,
        })
    }

    /// The record's bytes, little-endian, bytes not named zero. Lengths,
    /// positions and shifts are a byte wide.
    pub fn encode(self) -> [u8; RECORD_BYTES] {
        match self {
            Record::Rule { length, anchored } => {
                [1, length as u8, u8::from(anchored), 0, 0, 0, 0, 0]
            }
            Record::Range { position, range } => {
                let ([l0, l1], [h0, h1]) = (range.low.to_le_bytes(), range.high.to_le_bytes());
                [2, position as u8, 0, 0, l0, l1, h0, h1]
            }
            Record::Output { constant } => {
                let [c0, c1, c2, c3] = constant.to_le_bytes();
                [3, 0, 0, 0, c0, c1, c2, c3]
            }
            Record::Term(term) => {
                let [c0, c1] = term.coefficient.to_le_bytes();
                [4, term.position as u8, 0, 0, c0, c1, 0, 0]
            }
            Record::Default { marked } => [5, u8::from(marked), 0, 0, 0, 0, 0, 0],
            Record::Digit(digit) => [6, digit.position as u8, digit.shift as u8, 0, 0, 0, 0, 0],
        }
    }
}
