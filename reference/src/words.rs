//! The machine words: their layout and their soundness.

use std::ops::RangeInclusive;

use crate::automaton::{Automaton, TableAutomaton};
use crate::classes::{class_of, ClassNo, MAX_CLASSES};
use crate::meaning::{digit, Choice};
use crate::pairs::PAIR;
use crate::refusal::Refusal;
use crate::states::{State, StateNo, MAX_STATES};
use crate::table::{Group, Mode, Output, RuleNo, MAX_LENGTH, MAX_OUTPUTS, MAX_RULES, SHIFTS};

/// "Blocks become 83 words and the machine 19,961."
pub const WORDS: usize = BLOCKS + (MAX_RULES + 1) * BLOCK;

/// "From 6, 64 class starts."
const STARTS: usize = 6;
/// "From 70, three words a state."
const STATES: usize = STARTS + MAX_CLASSES;
/// Depth, end + 1, go + 1.
const STATE: usize = 3;
/// "From 838, 64 targets a state."
const TARGETS: usize = STATES + MAX_STATES * STATE;
/// "From 17222, 33 blocks", of 83 words since request [1].
const BLOCKS: usize = TARGETS + MAX_STATES * MAX_CLASSES;
/// K, anchored, output count, then the outputs.
const BLOCK: usize = 3 + MAX_OUTPUTS * OUTPUT;
/// "Each output entry gains a first word", its sort, before "a constant and
/// eight coefficients by position".
const OUTPUT: usize = 2 + MAX_LENGTH;

/// The sort of a sum.
const SUM: u16 = 0;
/// The sort of a digit.
const DIGIT: u16 = 1;

/// "0 states, 1 classes, 2 L, 3 E, 4 rules, 5 default": the header's limits.
const HEADER_LIMITS: [RangeInclusive<u16>; STARTS] = [
    1..=MAX_STATES as u16,
    1..=MAX_CLASSES as u16,
    1..=MAX_LENGTH as u16,
    0..=MAX_OUTPUTS as u16,
    1..=MAX_RULES as u16,
    ABSENT..=PAIRED,
];

/// Word 5 without a default.
const ABSENT: u16 = 0;
/// Word 5 with a default that takes one unit.
const SINGLE: u16 = 1;
/// "Header word 5 is 2 for this mode."
const PAIRED: u16 = 2;

/// Lays out a table's automaton in words; unused words are 0.
pub fn lay_out(automaton: &TableAutomaton, words: &mut [u16; WORDS]) {
    words.fill(0);
    words[..STARTS].copy_from_slice(&header(automaton));
    let starts = automaton.classes.starts();
    words[STARTS..][..starts.len()].copy_from_slice(starts);
    for (number, state) in automaton.states.list().iter().enumerate() {
        lay_out_state(number, state, words);
    }
    let rules = automaton.table.rules.iter().enumerate();
    let default = automaton
        .table
        .default
        .iter()
        .map(|group| (MAX_RULES, group));
    for (number, group) in rules.chain(default) {
        lay_out_group(group, &mut words[BLOCKS + BLOCK * number..][..BLOCK]);
    }
}

/// "0 states, 1 classes, 2 L, 3 E, 4 rules, 5 default (0 or 1)", or 2.
fn header(automaton: &TableAutomaton) -> [u16; STARTS] {
    let table = &automaton.table;
    let mode = match table.mode() {
        Mode::Absent => ABSENT,
        Mode::Single => SINGLE,
        Mode::Paired => PAIRED,
    };
    [
        automaton.states.list().len() as u16,
        automaton.classes.starts().len() as u16,
        table.longest() as u16,
        table.most_outputs() as u16,
        table.rules.len() as u16,
        mode,
    ]
}

/// "Three words a state (depth, end + 1, go + 1; 0 for none)" and its targets.
fn lay_out_state(number: usize, state: &State, words: &mut [u16; WORDS]) {
    let named = |rule: Option<RuleNo>| rule.map_or(0, |rule| rule.0 + 1);
    words[STATES + STATE * number..][..STATE].copy_from_slice(&[
        state.depth as u16,
        named(state.accept_at_end),
        named(state.accept),
    ]);
    let targets = &mut words[TARGETS + MAX_CLASSES * number..];
    for (word, target) in targets.iter_mut().zip(&state.targets) {
        *word = target.map_or(0, |target| target.0);
    }
}

/// "K, anchored, output count", then the entries of the output characters.
fn lay_out_group(group: &Group, block: &mut [u16]) {
    block[0] = group.length() as u16;
    block[1] = u16::from(group.anchored);
    block[2] = group.outputs.len() as u16;
    for (entry, output) in block[3..].chunks_exact_mut(OUTPUT).zip(&group.outputs) {
        lay_out_output(output, entry);
    }
}

/// The sort, the constant and the coefficients by position, kept modulo 65536.
/// "A digit keeps its shift as constant and 1 at its position's coefficient."
fn lay_out_output(output: &Output, entry: &mut [u16]) {
    match output {
        Output::Sum(sum) => {
            entry[0] = SUM;
            entry[1] = sum.constant as u16;
            for term in &sum.terms {
                entry[2 + term.position] = term.coefficient as u16;
            }
        }
        Output::Digit(digit) => {
            entry[0] = DIGIT;
            entry[1] = digit.shift;
            entry[2 + digit.position] = 1;
        }
    }
}

/// Sound machine words.
#[derive(Clone, Copy, Debug)]
pub struct Words<'w>(&'w [u16; WORDS]);

impl<'w> Words<'w> {
    /// Takes lent words; 11 for under 19,961 words or words that are not sound.
    /// Words beyond are not looked at.
    pub fn sound(words: &'w [u16]) -> Result<Words<'w>, Refusal> {
        words
            .first_chunk()
            .map(Words)
            .filter(Words::are_sound)
            .ok_or(Refusal::UnsoundWords)
    }

    /// The number of states.
    pub fn states(&self) -> u16 {
        self.0[0]
    }

    /// The class starts in use.
    pub fn starts(&self) -> &'w [u16] {
        &self.0[STARTS..][..usize::from(self.0[1])]
    }

    /// L, the longest pattern.
    pub fn longest(&self) -> u16 {
        self.0[2]
    }

    /// E, the most output characters of a group.
    pub fn most_outputs(&self) -> u16 {
        self.0[3]
    }

    /// The number of rules.
    pub fn rules(&self) -> u16 {
        self.0[4]
    }

    /// How many characters a choice takes, K of a group; none of a rule or a default
    /// that the machine lacks, nor of pairs without the mark.
    pub fn length(&self, choice: Choice) -> Option<u16> {
        match choice {
            Choice::Rule(rule) => (rule.0 < self.rules()).then(|| self.block(choice).length()),
            Choice::Default => self.has_default().then(|| self.block(choice).length()),
            Choice::Pair => (self.mode() == Mode::Paired).then_some(PAIR as u16),
        }
    }

    /// "The default's block is looked at where word 5 is not 0."
    fn has_default(&self) -> bool {
        self.mode() != Mode::Absent
    }

    /// The depth of a state.
    pub fn depth(&self, state: StateNo) -> u16 {
        self.0[STATES + STATE * state.index()]
    }

    /// The target of a state by a class.
    fn class_target(&self, state: StateNo, class: ClassNo) -> Option<StateNo> {
        let target = self.0[TARGETS + MAX_CLASSES * state.index() + class.index()];
        (target != 0).then_some(StateNo(target))
    }

    /// The block of a group; a pair has none.
    fn block(&self, choice: Choice) -> Block<'w> {
        Block(&self.0[BLOCKS + BLOCK * choice.number()..][..BLOCK])
    }

    /// "Sound words", the header first: it says which words are in use.
    fn are_sound(&self) -> bool {
        self.header_is_within_limits()
            && self.starts_rise()
            && (0..self.rules()).all(|rule| self.rule_is_sound(RuleNo(rule)))
            && self.default_is_sound()
            && (0..self.states()).all(|state| self.state_is_sound(StateNo(state)))
    }

    /// "The header is within its limits." Under the mark "E is then at least 1, in sound
    /// words too".
    fn header_is_within_limits(&self) -> bool {
        let mut limits = HEADER_LIMITS.iter().zip(self.0);
        limits.all(|(limits, word)| limits.contains(word))
            && usize::from(self.most_outputs()) >= self.mode().least_outputs()
    }

    /// "The class starts begin at 0 and rise strictly."
    fn starts_rise(&self) -> bool {
        let starts = self.starts();
        starts[0] == 0 && starts.is_sorted_by(|start, next| start < next)
    }

    /// "Blocks have K 1 to L, anchored 0 or 1, output count at most E", and
    /// sound entries.
    fn rule_is_sound(&self, rule: RuleNo) -> bool {
        let block = self.block(Choice::Rule(rule));
        (1..=self.longest()).contains(&block.length())
            && block.anchored() <= 1
            && block.outputs() <= self.most_outputs()
            && block.entries_are_sound()
    }

    /// The same for the default, with K 1 and anchored 0.
    fn default_is_sound(&self) -> bool {
        let block = self.block(Choice::Default);
        !self.has_default()
            || block.length() == 1
                && block.anchored() == 0
                && block.outputs() <= self.most_outputs()
                && block.entries_are_sound()
    }

    /// What sound words have of each state.
    fn state_is_sound(&self, state: StateNo) -> bool {
        self.depth_is_sound(state) && self.accepts_are_sound(state) && self.targets_are_sound(state)
    }

    /// "State 0 has depth 0, others 1 to L."
    fn depth_is_sound(&self, state: StateNo) -> bool {
        let depth = self.depth(state);
        if state == StateNo::START {
            depth == 0
        } else {
            (1..=self.longest()).contains(&depth)
        }
    }

    /// "End and go name rules below the count whose K is the depth, go's
    /// unanchored, and a go comes with an end."
    fn accepts_are_sound(&self, state: StateNo) -> bool {
        let (end, go) = (self.accept_at_end(state), self.accept(state));
        let block = |rule| self.block(Choice::Rule(rule));
        let names_rule =
            |rule: RuleNo| rule.0 < self.rules() && block(rule).length() == self.depth(state);
        end.is_none_or(names_rule)
            && go.is_none_or(|rule| names_rule(rule) && block(rule).anchored() == 0)
            && (go.is_none() || end.is_some())
    }

    /// "A target exceeds its state's number, is below the state count and lies
    /// one deeper; a state with a go has no targets."
    fn targets_are_sound(&self, state: StateNo) -> bool {
        let classes = (0..self.starts().len() as u16).map(ClassNo);
        let mut targets = classes.filter_map(|class| self.class_target(state, class));
        targets.all(|target| {
            target > state
                && target.0 < self.states()
                && self.depth(target) == self.depth(state) + 1
                && self.accept(state).is_none()
        })
    }
}

impl Automaton for Words<'_> {
    fn accept(&self, state: StateNo) -> Option<RuleNo> {
        let word = self.0[STATES + STATE * state.index() + 2];
        word.checked_sub(1).map(RuleNo)
    }

    fn accept_at_end(&self, state: StateNo) -> Option<RuleNo> {
        let word = self.0[STATES + STATE * state.index() + 1];
        word.checked_sub(1).map(RuleNo)
    }

    fn target(&self, state: StateNo, character: u16) -> Option<StateNo> {
        self.class_target(state, class_of(self.starts(), character))
    }

    fn mode(&self) -> Mode {
        match self.0[5] {
            ABSENT => Mode::Absent,
            SINGLE => Mode::Single,
            // In sound words no other number than this one.
            _ => Mode::Paired,
        }
    }

    fn write(&self, choice: Choice, store: &[u16], text: &mut Vec<u16>) {
        match choice {
            Choice::Rule(_) | Choice::Default => self.block(choice).write(store, text),
            Choice::Pair => text.extend(store),
        }
    }
}

/// The block of a group.
struct Block<'w>(&'w [u16]);

impl<'w> Block<'w> {
    /// K.
    fn length(&self) -> u16 {
        self.0[0]
    }

    /// 1 for an anchored pattern, else 0.
    fn anchored(&self) -> u16 {
        self.0[1]
    }

    /// The number of output characters.
    fn outputs(&self) -> u16 {
        self.0[2]
    }

    /// The entries in use, each with the coefficients below K alone.
    fn entries(&self) -> impl Iterator<Item = Entry<'w>> {
        let length = usize::from(self.length());
        let entries = self.0[3..].chunks_exact(OUTPUT);
        let used = entries.take(usize::from(self.outputs()));
        used.map(move |entry| Entry {
            sort: entry[0],
            constant: entry[1],
            coefficients: &entry[2..][..length],
        })
    }

    /// Whether the entries in use are sound, K and the count being so.
    fn entries_are_sound(&self) -> bool {
        self.entries().all(|entry| entry.is_sound())
    }

    /// Writes the output for a store of K characters.
    fn write(&self, store: &[u16], text: &mut Vec<u16>) {
        text.extend(self.entries().map(|entry| entry.value(store)));
    }
}

/// The entry of an output character in a block.
struct Entry<'w> {
    sort: u16,
    constant: u16,
    /// The coefficients by position, below K.
    coefficients: &'w [u16],
}

impl Entry<'_> {
    /// "Sound words have a known sort, and a digit entry has one of the four
    /// shifts and just one coefficient, of 1, below K."
    fn is_sound(&self) -> bool {
        match self.sort {
            SUM => true,
            DIGIT => SHIFTS.contains(&self.constant) && self.used_coefficients().eq([1]),
            _ => false,
        }
    }

    /// The coefficients that are not 0.
    fn used_coefficients(&self) -> impl Iterator<Item = u16> + '_ {
        self.coefficients.iter().copied().filter(|&word| word != 0)
    }

    /// "The machine adds modulo 65536"; a digit is of the character at its only
    /// coefficient.
    fn value(&self, store: &[u16]) -> u16 {
        let mut pairs = self.coefficients.iter().zip(store);
        if self.sort == DIGIT {
            let (_, &character) = pairs
                .find(|&(&coefficient, _)| coefficient != 0)
                .expect("a digit entry of sound words has a coefficient");
            return digit(character, self.constant);
        }
        let products = pairs.map(|(coefficient, x)| coefficient.wrapping_mul(*x));
        products.fold(self.constant, u16::wrapping_add)
    }
}
