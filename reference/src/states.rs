//! The states of a table's machine and their numbers.

use std::collections::HashMap;

use crate::classes::{ClassNo, Classes};
use crate::refusal::Refusal;
use crate::table::{RuleNo, Table};

/// The most states of a compiled table.
pub const MAX_STATES: usize = 256;

/// A state number.
#[derive(Clone, Copy, Debug, PartialEq, Eq, PartialOrd, Ord, Hash)]
pub struct StateNo(pub u16);

impl StateNo {
    /// State 0, of depth 0 and all rules.
    pub const START: StateNo = StateNo(0);

    /// The number as a place in a list.
    pub fn index(self) -> usize {
        usize::from(self.0)
    }
}

/// A set of rules, one bit for each of the 32.
#[derive(Clone, Copy, Debug, PartialEq, Eq, PartialOrd, Ord, Hash)]
pub struct RuleSet(u32);

impl RuleSet {
    /// The rules of the table that a test admits, given each one's number.
    pub fn of(table: &Table, admits: impl Fn(RuleNo) -> bool) -> RuleSet {
        let numbers = (0..table.rules.len() as u16).map(RuleNo);
        RuleSet(
            numbers
                .filter(|&rule| admits(rule))
                .fold(0, |bits, rule| bits | 1 << rule.0),
        )
    }

    /// The rules of the set, rising.
    pub fn rules(self) -> impl Iterator<Item = RuleNo> {
        (0..32)
            .filter(move |rule| self.0 >> rule & 1 == 1)
            .map(RuleNo)
    }

    /// Whether the set has no rule.
    pub fn is_empty(self) -> bool {
        self.0 == 0
    }

    /// The rules of both sets.
    fn and(self, other: RuleSet) -> RuleSet {
        RuleSet(self.0 & other.0)
    }
}

/// A state: "a pair: depth d, and the set of rules with K at least d that fit
/// some word of length d in their first d positions and are all the rules that
/// do so for that word".
#[derive(Clone, Debug, PartialEq, Eq)]
pub struct State {
    /// The depth d.
    pub depth: usize,
    /// The set of rules.
    pub rules: RuleSet,
    /// The state's *go*: the lowest unanchored rule in the set with K = d.
    pub accept: Option<RuleNo>,
    /// The state's *end*: the lowest rule of either sort with K = d.
    pub accept_at_end: Option<RuleNo>,
    /// The successor by each class.
    pub targets: Vec<Option<StateNo>>,
}

impl State {
    /// A state whose successors are still to be found.
    fn new(table: &Table, depth: usize, rules: RuleSet) -> State {
        let group = |rule: RuleNo| &table.rules[rule.index()];
        let whole = || rules.rules().filter(|&rule| group(rule).length() == depth);
        State {
            depth,
            rules,
            accept: whole().find(|&rule| !group(rule).anchored),
            accept_at_end: whole().next(),
            targets: Vec::new(),
        }
    }
}

/// The states reached from state 0, in the order of their numbers.
#[derive(Clone, Debug, PartialEq, Eq)]
pub struct States(Vec<State>);

impl States {
    /// The states "numbered by depth, then lowest parent, then lowest class that
    /// leads there from it"; a 257th is refused by 9.
    ///
    /// Each state in turn gives numbers to its new successors, class by class.
    /// Since a successor lies one deeper, this is the order asked for.
    pub fn of(table: &Table, classes: &Classes) -> Result<States, Refusal> {
        let takers = takers(table, classes);
        let mut numbering = Numbering::new(table);
        let mut parent = 0;
        while let Some(state) = numbering.states.get(parent) {
            let (depth, rules) = (state.depth, state.rules);
            // A state with a go has no successors.
            let has_successors = state.accept.is_none();
            let targets = takers[depth].iter().map(|&takers| {
                let rules = rules.and(takers);
                let reached = has_successors && !rules.is_empty();
                reached
                    .then(|| numbering.number(depth + 1, rules))
                    .transpose()
            });
            let targets: Vec<Option<StateNo>> = targets.collect::<Result<_, Refusal>>()?;
            numbering.states[parent].targets = targets;
            parent += 1;
        }
        Ok(States(numbering.states))
    }

    /// The states, in the order of their numbers.
    pub fn list(&self) -> &[State] {
        &self.0
    }

    /// A state by its number.
    pub fn get(&self, state: StateNo) -> &State {
        &self.0[state.index()]
    }

    /// The successor of a state by a class.
    pub fn target(&self, state: StateNo, class: ClassNo) -> Option<StateNo> {
        self.get(state).targets[class.index()]
    }
}

/// For each position up to L and each class, the rules whose position takes the
/// class's characters: all of them or none, so the start decides.
fn takers(table: &Table, classes: &Classes) -> Vec<Vec<RuleSet>> {
    let at = |position: usize, start: u16| {
        RuleSet::of(table, |rule| {
            table.rules[rule.index()].takes(position, start)
        })
    };
    let row = |position| {
        classes
            .starts()
            .iter()
            .map(move |&start| at(position, start))
    };
    (0..=table.longest())
        .map(|position| row(position).collect())
        .collect()
}

/// The states numbered so far.
struct Numbering<'t> {
    table: &'t Table,
    states: Vec<State>,
    numbers: HashMap<(usize, RuleSet), StateNo>,
}

impl<'t> Numbering<'t> {
    /// "State 0 has depth 0 and all rules."
    fn new(table: &'t Table) -> Self {
        let start = State::new(table, 0, RuleSet::of(table, |_| true));
        Numbering {
            table,
            states: vec![start],
            numbers: HashMap::new(),
        }
    }

    /// The number of a state, a new one if it has none yet.
    fn number(&mut self, depth: usize, rules: RuleSet) -> Result<StateNo, Refusal> {
        if let Some(&number) = self.numbers.get(&(depth, rules)) {
            return Ok(number);
        }
        if self.states.len() == MAX_STATES {
            return Err(Refusal::States);
        }
        let number = StateNo(self.states.len() as u16);
        self.states.push(State::new(self.table, depth, rules));
        self.numbers.insert((depth, rules), number);
        Ok(number)
    }
}
