//! Nothing held without need: request \[9\] of document 02, by trial of the ways for an
//! input to go on. It knows nothing of states or sessions.

use crate::classes::starts_of;
use crate::meaning::{along, Choice};
use crate::pairs::{FIRST_UNITS, SECOND_UNITS};
use crate::table::{Mode, Table};
use crate::trial::{text_count, texts};

/// "A choice is a rule, the default on one unit, the default on a pair, or the stop."
#[derive(Clone, Copy, Debug, PartialEq, Eq)]
pub enum AtPlace {
    /// A rule or the default.
    Chosen(Choice),
    /// No rule fits and there is no default.
    Stop,
}

/// What Definition 7 chooses at a place of a whole input; nothing within a word, behind
/// a stop and from the input's end on.
pub fn chosen_at(table: &Table, input: &[u16], place: usize) -> Option<AtPlace> {
    let from_there = along(table, input).find(|&(at, _)| at >= place);
    let (_, choice) = from_there.filter(|&(at, _)| at == place)?;
    Some(choice.map_or(AtPlace::Stop, AtPlace::Chosen))
}

/// A way for an input to go on, at the end of which it ends.
#[derive(Clone, Debug, PartialEq, Eq)]
pub struct Way {
    /// What still comes; nothing where the input ends at once.
    pub text: Vec<u16>,
    /// What Definition 7 then chooses at a place.
    pub chosen: AtPlace,
}

/// A trial of every short way for inputs to go on under a table.
///
/// A choice depends on up to L characters from its place on and on whether any follow
/// them, or on two characters for a pair. Ways of up to L + 1 characters so show all that
/// longer ones would.
#[derive(Clone, Debug)]
pub struct Trial<'t> {
    table: &'t Table,
    /// One character of each class. Where the default is marked, those of a class that
    /// are first units, second units or neither are told apart.
    characters: Vec<u16>,
    /// The most characters of a way.
    longest: usize,
}

impl<'t> Trial<'t> {
    /// The trial of a table.
    pub fn of(table: &'t Table) -> Trial<'t> {
        let units: &[_] = match table.mode() {
            Mode::Absent | Mode::Single => &[],
            Mode::Paired => &[FIRST_UNITS, SECOND_UNITS],
        };
        let starts = starts_of(table.ranges().chain(units));
        Trial {
            table,
            characters: starts.into_iter().collect(),
            longest: table.longest() + 1,
        }
    }

    /// How many ways there are to try.
    pub fn size(&self) -> usize {
        text_count(self.characters.len(), 0..=self.longest)
    }

    /// An input with each way for it to go on, "ending there included", the shortest
    /// first.
    fn inputs<'i>(&'i self, input: &'i [u16]) -> impl Iterator<Item = Vec<u16>> + 'i {
        let ways = texts(&self.characters, 0..=self.longest);
        ways.map(move |way| [input, &way].concat())
    }

    /// The ways for an input to go on under which Definition 7 makes a choice at a place.
    pub fn ways<'i>(&'i self, input: &'i [u16], place: usize) -> impl Iterator<Item = Way> + 'i {
        self.inputs(input).filter_map(move |whole| {
            let chosen = chosen_at(self.table, &whole, place)?;
            let text = whole[input.len()..].to_vec();
            Some(Way { text, chosen })
        })
    }

    /// "Two ways for the input to go on, ending there included, under which the
    /// definition makes different choices" at a place, if there are such. The trial ends
    /// where they are found.
    pub fn two_ways(&self, input: &[u16], place: usize) -> Option<[Way; 2]> {
        let mut ways = self.ways(input, place);
        let first = ways.next()?;
        let other = ways.find(|way| way.chosen != first.chosen)?;
        Some([first, other])
    }

    /// Whether Definition 7 makes the same choices at the same places before a place,
    /// however the input goes on.
    pub fn is_settled_before(&self, input: &[u16], place: usize) -> bool {
        let before = |whole: &[u16]| -> Vec<(usize, Option<Choice>)> {
            let choices = along(self.table, whole);
            choices.take_while(|&(at, _)| at < place).collect()
        };
        let ending_there = before(input);
        self.inputs(input)
            .all(|whole| before(&whole) == ending_there)
    }
}
