//! Rules that can never be chosen: request \[6\] of document 02, by an argument about
//! Definition 7 and by trial. Neither looks at states.

use std::collections::{BTreeSet, HashSet};

use crate::classes::starts_of;
use crate::compile::compile;
use crate::meaning::{along, Choice};
use crate::refusal::Refusal;
use crate::table::{Group, RuleNo, Table};
use crate::trial::{text_count, texts};

/// "Free but of at most 9 characters."
pub const MAX_INPUT: usize = 9;

/// "A new check compiles the table, with compiling's buffer and refusals, and says of
/// a given rule number whether some input makes the definition choose it": such an
/// input for a live rule, none for a dead one. The words are left as compiling leaves
/// them.
pub fn witness(table: &[u8], words: &mut [u16], rule: u32) -> Result<Option<Vec<u16>>, Refusal> {
    compile(table, words)?;
    Ok(input_of(&Table::read(table)?, rule))
}

/// An input of at most 9 characters on which the rule is the first choice, if any input
/// has it chosen anywhere. "A number that no rule has is dead."
///
/// What is chosen at a place depends on what follows there alone, so that a rule that
/// is chosen anywhere is the first choice of the rest of that input. It is chosen for
/// its K characters exactly if they lie in its ranges and no rival fits: a shorter rule
/// or, of its length, a lower one. Of the characters behind the K, it matters only
/// whether there are any: none for an anchored rule, and one is as good as many. Shorter
/// anchored rules never fit, since a word of K characters goes on behind them; those of
/// length K fit where the input ends.
pub fn input_of(table: &Table, rule: u32) -> Option<Vec<u16>> {
    let number = rule as usize;
    let group = table.rules.get(number)?;
    let rivals = |at_end: bool| {
        let before = |other: usize, rival: &Group| match rival.length() {
            length if length < group.length() => !rival.anchored,
            length if length > group.length() => false,
            _ => other < number && (at_end || !rival.anchored),
        };
        let rules = table.rules.iter().enumerate();
        let numbers = rules.filter(|&(other, rival)| before(other, rival));
        numbers.fold(0, |bits, (other, _)| bits | 1 << other)
    };
    if let Some(word) = Search::new(table, group).word(rivals(true)) {
        return Some(word);
    }
    if group.anchored {
        return None;
    }
    let mut input = Search::new(table, group).word(rivals(false))?;
    input.push(0);
    Some(input)
}

/// Rules as bits, the lowest for rule 0.
type Bits = u32;

/// A search for a word that lies in a rule's ranges while no rival fits its beginning.
struct Search<'t> {
    table: &'t Table,
    group: &'t Group,
    /// A character of each class: all characters of a class lie in the same ranges.
    characters: Vec<u16>,
    /// Lengths and rivals from which no word was found.
    failed: HashSet<(usize, Bits)>,
}

impl<'t> Search<'t> {
    fn new(table: &'t Table, group: &'t Group) -> Search<'t> {
        Search {
            table,
            group,
            characters: starts_of(table.ranges()).into_iter().collect(),
            failed: HashSet::new(),
        }
    }

    /// A word of K characters which no rival fits.
    fn word(&mut self, rivals: Bits) -> Option<Vec<u16>> {
        let mut word = Vec::new();
        self.extend(&mut word, rivals).then_some(word)
    }

    /// Extends a word to K characters, if it can; else leaves it as it was. The rivals
    /// are those that the word lies in the ranges of, as far as it goes.
    fn extend(&mut self, word: &mut Vec<u16>, rivals: Bits) -> bool {
        let length = word.len();
        if self.fits_one(length, rivals) || self.failed.contains(&(length, rivals)) {
            return false;
        }
        if length == self.group.length() {
            return true;
        }
        for place in 0..self.characters.len() {
            let character = self.characters[place];
            if !self.group.takes(length, character) {
                continue;
            }
            word.push(character);
            if self.extend(word, self.taking(rivals, length, character)) {
                return true;
            }
            word.pop();
        }
        self.failed.insert((length, rivals));
        false
    }

    /// Whether one of the rivals is of a length, and so fits.
    fn fits_one(&self, length: usize, rivals: Bits) -> bool {
        let mut rules = self.table.rules.iter().enumerate();
        rules.any(|(number, rule)| rivals >> number & 1 == 1 && rule.length() == length)
    }

    /// Those of the rivals that take the character at a position.
    fn taking(&self, rivals: Bits, position: usize, character: u16) -> Bits {
        let rules = self.table.rules.iter().enumerate();
        let taking = rules.filter(|(_, rule)| rule.takes(position, character));
        rivals & taking.fold(0, |bits, (number, _)| bits | 1 << number)
    }
}

/// The rules that Definition 7 chooses, place by place, until the input's end or a
/// stop.
pub fn choices(table: &Table, input: &[u16]) -> Vec<RuleNo> {
    let rules = along(table, input).filter_map(|(_, choice)| match choice? {
        Choice::Rule(rule) => Some(rule),
        Choice::Default | Choice::Pair => None,
    });
    rules.collect()
}

/// By trial: the rules that Definition 7 chooses anywhere on some input of up to so many
/// characters, each the start of a class. The trial ends early where these are all rules.
pub fn chosen_on_trial(table: &Table, most: usize) -> BTreeSet<RuleNo> {
    let characters: Vec<u16> = starts_of(table.ranges()).into_iter().collect();
    let mut chosen = BTreeSet::new();
    for input in texts(&characters, 1..=most) {
        chosen.extend(choices(table, &input));
        if chosen.len() == table.rules.len() {
            break;
        }
    }
    chosen
}

/// How many inputs a trial of up to so many characters has at most.
pub fn trials(table: &Table, most: usize) -> usize {
    text_count(starts_of(table.ranges()).len(), 1..=most)
}

/// The most characters, up to 9, with which a trial of a table has at most so many
/// inputs, if these are more than its longest rule has: a trial then meets every live
/// rule.
pub fn most_tried(table: &Table, inputs: usize) -> Option<usize> {
    let mut lengths = (table.longest() + 1..=MAX_INPUT).rev();
    lengths.find(|&most| trials(table, most) <= inputs)
}
