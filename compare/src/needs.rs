//! Request \[9\]: tables whose ways can be tried, sessions with what they were fed, and
//! sound words that have a machine wait without need. The places are those of document
//! 01's layout, written out.

use reference::meaning::Choice;
use reference::needs::{AtPlace, Trial};
use reference::pairs::{begins_with_pair, is_first_unit};
use reference::random::Random;
use reference::reckoning::Call;
use reference::table::{Mode, RuleNo, Table};

use crate::calls::by_library;
use crate::face::{Session, OK, OPEN, STOPPED};
use crate::lists::Compiled;
use crate::orders::targets;
use crate::pairs::{has_target, with_word};

/// Of some tables those that compile and have at most so many ways to try.
pub fn tried(tables: impl Iterator<Item = Table>, ways: usize) -> impl Iterator<Item = Compiled> {
    let small = tables.filter(move |table| Trial::of(table).size() <= ways);
    small.filter_map(Compiled::of)
}

/// A session of the library, with what it was fed.
#[derive(Clone, Debug)]
pub struct Fed {
    /// The session.
    pub session: Session,
    /// The accepted pieces, joined.
    pub input: Vec<u16>,
}

impl Fed {
    /// A fresh session.
    pub const FRESH: Fed = Fed {
        session: Session::FRESH,
        input: Vec::new(),
    };

    /// Feeds a piece, with so much room; answers the code.
    pub fn feed(&mut self, words: &[u16], piece: &[u16], room: usize) -> u32 {
        let call = Call::Feed {
            piece: piece.to_vec(),
            output: room as u64,
        };
        let left = by_library(words, self.session, &call);
        if matches!(left.code, OK | STOPPED | OPEN) {
            self.input.extend(piece);
        }
        self.session = left.session;
        left.code
    }

    /// Whether the session is open.
    pub fn is_open(&self) -> bool {
        self.session.status == 0
    }

    /// The place of the first held character.
    pub fn consumed(&self) -> usize {
        self.session.consumed() as usize
    }

    /// The held characters.
    pub fn held(&self) -> &[u16] {
        &self.session.held[..usize::from(self.session.held_count)]
    }
}

/// A sort of choices.
#[derive(Clone, Copy, Debug, PartialEq, Eq, PartialOrd, Ord)]
pub enum Sort {
    /// A rule.
    Rule,
    /// The default on one unit.
    Default,
    /// The default on a pair.
    Pair,
    /// The stop.
    Stop,
}

impl Sort {
    /// The sort of a choice.
    pub fn of(chosen: AtPlace) -> Sort {
        match chosen {
            AtPlace::Chosen(Choice::Rule(_)) => Sort::Rule,
            AtPlace::Chosen(Choice::Default) => Sort::Default,
            AtPlace::Chosen(Choice::Pair) => Sort::Pair,
            AtPlace::Stop => Sort::Stop,
        }
    }
}

/// Words that have a machine wait without need.
#[derive(Clone, Debug)]
pub struct Needless {
    /// The words, which are sound.
    pub words: Vec<u16>,
    /// What it is fed, and holds.
    pub input: Vec<u16>,
    /// What Definition 7 chooses at the start of it, whatever follows.
    pub chosen: AtPlace,
}

impl Needless {
    /// A state whose go equals its end loses its go: the rule waits for the end. None if
    /// no state has such a go.
    pub fn without_go(random: &mut Random, machine: &Compiled) -> Option<Needless> {
        let words = &machine.words;
        let at_once: Vec<usize> = (1..usize::from(words[0]))
            .filter(|&state| goes_at_once(words, state))
            .collect();
        let state = *pick(random, &at_once)?;
        let go = words[go_of(state)];
        Some(Needless {
            words: with_word(words, go_of(state), 0),
            input: path(words, state),
            chosen: AtPlace::Chosen(Choice::Rule(RuleNo(go - 1))),
        })
    }

    /// A state gets a target for a class with which no rule goes on from there: what
    /// leads to it is given back whatever follows. None if no state lacks such a target,
    /// or if a first unit may wait there by right.
    pub fn with_target(random: &mut Random, machine: &Compiled) -> Option<Needless> {
        let words = &machine.words;
        let table = &machine.automaton.table;
        let (states, classes) = (usize::from(words[0]), usize::from(words[1]));
        let mut places = Vec::new();
        for state in (0..states).filter(|&state| words[go_of(state)] == 0) {
            let deeper = |&target: &usize| {
                words[depth_of(target)] == words[depth_of(state)] + 1
                    && !goes_at_once(words, target)
            };
            let free = (0..classes).filter(|&class| words[target_of(state, class)] == 0);
            for class in free {
                let targets = (state + 1..states).filter(deeper);
                places.extend(targets.map(|target| (state, class, target)));
            }
        }
        let &(state, class, target) = pick(random, &places)?;
        let mut input = path(words, state);
        input.push(words[6 + class]);
        let chosen = match table.mode() {
            Mode::Absent => AtPlace::Stop,
            Mode::Single => AtPlace::Chosen(Choice::Default),
            Mode::Paired if input.len() == 1 && is_first_unit(input[0]) => return None,
            Mode::Paired if begins_with_pair(&input) => AtPlace::Chosen(Choice::Pair),
            Mode::Paired => AtPlace::Chosen(Choice::Default),
        };
        Some(Needless {
            words: with_word(words, target_of(state, class), target as u16),
            input,
            chosen,
        })
    }

    /// A default that the table has not marked is marked: a first unit that no rule
    /// begins with waits. None without such a default or such a unit, or where nothing
    /// writes anything, so that E forbids the mark.
    pub fn with_mark(random: &mut Random, machine: &Compiled) -> Option<Needless> {
        let words = &machine.words;
        let unit = random.between(0xD800, 0xDBFF) as u16;
        let is_single = machine.automaton.table.mode() == Mode::Single;
        if !is_single || words[3] == 0 || has_target(words, unit) {
            return None;
        }
        Some(Needless {
            words: with_word(words, 5, 2),
            input: vec![unit],
            chosen: AtPlace::Chosen(Choice::Default),
        })
    }
}

/// One of the items, if there are any.
fn pick<'i, T>(random: &mut Random, items: &'i [T]) -> Option<&'i T> {
    (!items.is_empty()).then(|| random.pick(items))
}

/// The place of a state's depth.
fn depth_of(state: usize) -> usize {
    70 + 3 * state
}

/// The place of a state's go.
fn go_of(state: usize) -> usize {
    depth_of(state) + 2
}

/// The place of a state's target by a class.
fn target_of(state: usize, class: usize) -> usize {
    838 + 64 * state + class
}

/// Whether a state has a go that equals its end.
fn goes_at_once(words: &[u16], state: usize) -> bool {
    let (end, go) = (words[depth_of(state) + 1], words[go_of(state)]);
    go != 0 && go == end
}

/// Characters that lead to a state of compiled words from state 0, each the start of a
/// class.
fn path(words: &[u16], state: usize) -> Vec<u16> {
    let mut path = Vec::new();
    let mut reached = state;
    while reached != 0 {
        let class_from = |parent: usize| {
            let mut targets = targets(words, parent).iter();
            let class = targets.position(|&target| usize::from(target) == reached);
            class.map(|class| (parent, class))
        };
        let found = (0..reached).find_map(class_from);
        let (parent, class) = found.expect("only states reached from state 0 count");
        path.push(words[6 + class]);
        reached = parent;
    }
    path.reverse();
    path
}
