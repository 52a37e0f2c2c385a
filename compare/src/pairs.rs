//! Request \[8\]: tables with marked defaults over units of pairs, what they are made of,
//! and sessions that hold characters at state 0.

use reference::automaton::Automaton;
use reference::meaning::Choice;
use reference::pairs::{is_first_unit, is_second_unit};
use reference::random::Random;
use reference::samples::random_marked_table;
use reference::states::StateNo;
use reference::table::{Range, Table};
use reference::words::Words;

use crate::face::Session;

/// The tables that a seed gives, without end, each with a marked default.
pub fn marked_tables(seed: u64) -> impl Iterator<Item = Table> {
    let mut random = Random::new(seed);
    std::iter::repeat_with(move || random_marked_table(&mut random))
}

/// What a table may have, by its rules and its default.
#[derive(Clone, Copy, Debug, PartialEq, Eq, PartialOrd, Ord)]
pub enum Feature {
    /// A range of first units alone.
    First,
    /// A range of second units alone.
    Second,
    /// A range of both.
    Both,
    /// A pattern of two characters or more whose last may be a first unit.
    EndsInFirst,
    /// An anchored one.
    EndsInFirstAtEnd,
    /// A default that writes nothing.
    Silent,
    /// No group that writes anything.
    AllSilent,
}

impl Feature {
    /// Every one.
    pub const ALL: [Feature; 7] = [
        Feature::First,
        Feature::Second,
        Feature::Both,
        Feature::EndsInFirst,
        Feature::EndsInFirstAtEnd,
        Feature::Silent,
        Feature::AllSilent,
    ];

    /// Whether a table has it.
    pub fn is_of(self, table: &Table) -> bool {
        let ends = |anchored: bool| {
            let mut rules = table.rules.iter();
            rules.any(|rule| {
                let last = rule.length() - 1;
                let mut ranges = rule.positions[last].iter();
                rule.anchored == anchored
                    && last > 0
                    && ranges.any(|range| is_first_unit(range.high))
            })
        };
        let both = |range: &Range| is_first_unit(range.low) && is_second_unit(range.high);
        match self {
            Feature::First => table.ranges().any(|range| is_of(range, is_first_unit)),
            Feature::Second => table.ranges().any(|range| is_of(range, is_second_unit)),
            Feature::Both => table.ranges().any(both),
            Feature::EndsInFirst => ends(false),
            Feature::EndsInFirstAtEnd => ends(true),
            Feature::Silent => table.default.iter().all(|group| group.outputs.is_empty()),
            Feature::AllSilent => table.groups().all(|group| group.outputs.is_empty()),
        }
    }
}

/// Whether a range's ends, and so all of it, are of a sort of units.
fn is_of(range: &Range, sort: fn(u16) -> bool) -> bool {
    sort(range.low) && sort(range.high)
}

/// Whether state 0 of sound words has a target for a character.
///
/// # Panics
///
/// If the words are not sound.
pub fn has_target(words: &[u16], character: u16) -> bool {
    let words = Words::sound(words).expect("the words are sound");
    words.target(StateNo::START, character).is_some()
}

/// An open session that holds nothing, with characters more, which it holds at state 0.
pub fn holding(session: &Session, characters: &[u16]) -> Session {
    let mut holding = *session;
    holding.held[..characters.len()].copy_from_slice(characters);
    holding.held_count = characters.len() as u16;
    holding.received += characters.len() as u64;
    holding
}

/// The session with uses that go over from one count to another, so many for each.
pub fn moved(session: &Session, from: Choice, to: Choice, uses: u64, each: u64) -> Session {
    let mut moved = *session;
    moved.uses[from.number()] -= uses;
    moved.uses[to.number()] += uses * each;
    moved
}

/// Words with another number in a word.
pub fn with_word(words: &[u16], place: usize, word: u16) -> Vec<u16> {
    let mut changed = words.to_vec();
    changed[place] = word;
    changed
}
