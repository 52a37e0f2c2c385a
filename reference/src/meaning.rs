//! What a table means: exact values, and Definition 7 as request \[8\] amends it.

use crate::pairs::{begins_with_pair, PAIR};
use crate::table::{Digit, Group, Mode, Output, RuleNo, Sum, Table, MAX_RULES};

/// A character's digit: "its value v is the character divided by 2 to that
/// shift, rounded down, modulo 16. The output is 48 + v when v is below 10, and
/// 55 + v from 10 to 15."
pub fn digit(character: u16, shift: u16) -> u16 {
    let v = character / 2u16.pow(u32::from(shift)) % 16;
    if v < 10 {
        48 + v
    } else {
        55 + v
    }
}

impl Output {
    /// The exact value for a word that fits the group.
    pub fn value(&self, word: &[u16]) -> i64 {
        match self {
            Output::Sum(sum) => sum.value(word),
            Output::Digit(digit) => i64::from(digit.value(word)),
        }
    }
}

impl Digit {
    /// The digit of the character at its position.
    pub fn value(&self, word: &[u16]) -> u16 {
        digit(word[self.position], self.shift)
    }
}

impl Sum {
    /// "Its constant plus each coefficient times the character at that
    /// position", exactly.
    pub fn value(&self, word: &[u16]) -> i64 {
        let terms = self.terms.iter();
        i64::from(self.constant)
            + terms
                .map(|term| i64::from(term.coefficient) * i64::from(word[term.position]))
                .sum::<i64>()
    }
}

impl Group {
    /// A rule fits if the next K characters exist and lie in its ranges and,
    /// when anchored, are the last K of the input. `rest` is the input from the
    /// place on.
    pub fn fits(&self, rest: &[u16]) -> bool {
        rest.len() >= self.length()
            && (!self.anchored || rest.len() == self.length())
            && (0..self.length()).all(|position| self.takes(position, rest[position]))
    }

    /// Writes the group's output for a word that fits it.
    ///
    /// # Panics
    ///
    /// If a value leaves 0 to 65535, which no table has that was read.
    pub fn write(&self, word: &[u16], text: &mut Vec<u16>) {
        text.extend(self.outputs.iter().map(|output| {
            u16::try_from(output.value(word)).expect("refusal 7 keeps values in 0 to 65535")
        }));
    }
}

/// What is chosen at a place.
#[derive(Clone, Copy, Debug, PartialEq, Eq)]
pub enum Choice {
    /// A rule.
    Rule(RuleNo),
    /// The default on one unit.
    Default,
    /// The marked default on a pair.
    Pair,
}

impl Choice {
    /// Every choice that a table may have, by number.
    pub fn all() -> impl Iterator<Item = Choice> {
        let rules = (0..MAX_RULES as u16).map(|number| Choice::Rule(RuleNo(number)));
        rules.chain([Choice::Default, Choice::Pair])
    }

    /// The number: a rule's own, 32 for the default, 33 for a pair.
    pub fn number(self) -> usize {
        match self {
            Choice::Rule(rule) => rule.index(),
            Choice::Default => MAX_RULES,
            Choice::Pair => MAX_RULES + 1,
        }
    }
}

impl Table {
    /// The group whose output a choice of this table writes; a pair has none.
    pub fn group(&self, choice: Choice) -> Option<&Group> {
        match choice {
            Choice::Rule(rule) => Some(&self.rules[rule.index()]),
            Choice::Default => self.default.as_ref(),
            Choice::Pair => None,
        }
    }

    /// How many characters a choice takes.
    pub fn taken(&self, choice: Choice) -> usize {
        self.group(choice).map_or(PAIR, Group::length)
    }

    /// Writes what a choice gives for the characters that it takes: a group's output,
    /// and of a pair "both unchanged".
    pub fn write(&self, choice: Choice, word: &[u16], text: &mut Vec<u16>) {
        match self.group(choice) {
            Some(group) => group.write(word, text),
            None => text.extend(word),
        }
    }
}

/// How a conversion ends.
#[derive(Clone, Copy, Debug, PartialEq, Eq)]
pub enum Ending {
    /// "The end of the input closes."
    Closed,
    /// No rule fits and there is no default.
    Stopped,
}

/// The text of Definition 7 for an input, and where conversion ended.
#[derive(Clone, Debug, PartialEq, Eq)]
pub struct Meaning {
    /// The text written.
    pub text: Vec<u16>,
    /// The input's end, or the place at which conversion stopped.
    pub place: usize,
    /// Closed or stopped.
    pub ending: Ending,
}

/// "Of the rules that fit, the shortest is chosen, then the lowest number."
pub fn chosen_rule(table: &Table, rest: &[u16]) -> Option<RuleNo> {
    let rules = (0..).map(RuleNo).zip(&table.rules);
    let fitting = rules.filter(|(_, rule)| rule.fits(rest));
    // Of several of the least length, `min_by_key` gives the first.
    fitting
        .min_by_key(|(_, rule)| rule.length())
        .map(|(number, _)| number)
}

/// "With none, the default is chosen." Under the mark, "where no rule fits and the next
/// two characters are such a pair, the default takes both".
pub fn choose(table: &Table, rest: &[u16]) -> Option<Choice> {
    if let Some(rule) = chosen_rule(table, rest) {
        return Some(Choice::Rule(rule));
    }
    match table.mode() {
        Mode::Absent => None,
        Mode::Paired if begins_with_pair(rest) => Some(Choice::Pair),
        Mode::Single | Mode::Paired => Some(Choice::Default),
    }
}

/// Definition 7 along an input, from place 0: each place at which it makes a choice,
/// with the choice. At the last place there may be none, and "conversion stops at this
/// place".
pub fn along<'t>(
    table: &'t Table,
    input: &'t [u16],
) -> impl Iterator<Item = (usize, Option<Choice>)> + 't {
    let mut next = Some(0);
    std::iter::from_fn(move || {
        let place = next.filter(|&place| place < input.len())?;
        let choice = choose(table, &input[place..]);
        next = choice.map(|choice| place + table.taken(choice));
        Some((place, choice))
    })
}

/// Definition 7, from place 0 to the input's end or to a stop.
pub fn convert(table: &Table, input: &[u16]) -> Meaning {
    let mut text = Vec::new();
    for (place, choice) in along(table, input) {
        let Some(choice) = choice else {
            let ending = Ending::Stopped;
            return Meaning {
                text,
                place,
                ending,
            };
        };
        let word = &input[place..][..table.taken(choice)];
        table.write(choice, word, &mut text);
    }
    Meaning {
        text,
        place: input.len(),
        ending: Ending::Closed,
    }
}
