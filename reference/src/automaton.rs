//! The interface between the plain machine and where its states are kept, and
//! the automaton that is made from a table.

use crate::classes::Classes;
use crate::meaning::Choice;
use crate::refusal::Refusal;
use crate::states::{StateNo, States};
use crate::table::{Mode, RuleNo, Table};

/// What the plain machine asks of the states, classes and groups.
pub trait Automaton {
    /// The state's *go*: the rule accepted without regard to what follows.
    fn accept(&self, state: StateNo) -> Option<RuleNo>;

    /// The state's *end*: the rule accepted if the input ends here.
    fn accept_at_end(&self, state: StateNo) -> Option<RuleNo>;

    /// The target of a state for a character's class.
    fn target(&self, state: StateNo, character: u16) -> Option<StateNo>;

    /// What happens where no rule fits.
    fn mode(&self) -> Mode;

    /// Writes a group's output for the characters of the store, or a pair as it stands.
    fn write(&self, choice: Choice, store: &[u16], text: &mut Vec<u16>);

    /// The rule of a state whose go is set and equal to its end: it is emitted
    /// before another character is looked at.
    fn accept_at_once(&self, state: StateNo) -> Option<RuleNo> {
        self.accept(state)
            .filter(|&rule| self.accept_at_end(state) == Some(rule))
    }
}

/// The states, classes and groups defined from a table.
#[derive(Clone, Debug)]
pub struct TableAutomaton {
    /// The table, which has the groups.
    pub table: Table,
    /// Its classes.
    pub classes: Classes,
    /// Its states.
    pub states: States,
}

impl TableAutomaton {
    /// The automaton of a table; refused by 8 for a 65th class, then by 9 for a
    /// 257th state.
    pub fn of(table: Table) -> Result<TableAutomaton, Refusal> {
        let classes = Classes::of(&table)?;
        let states = States::of(&table, &classes)?;
        Ok(TableAutomaton {
            table,
            classes,
            states,
        })
    }
}

impl Automaton for TableAutomaton {
    fn accept(&self, state: StateNo) -> Option<RuleNo> {
        self.states.get(state).accept
    }

    fn accept_at_end(&self, state: StateNo) -> Option<RuleNo> {
        self.states.get(state).accept_at_end
    }

    fn target(&self, state: StateNo, character: u16) -> Option<StateNo> {
        self.states.target(state, self.classes.class(character))
    }

    fn mode(&self) -> Mode {
        self.table.mode()
    }

    fn write(&self, choice: Choice, store: &[u16], text: &mut Vec<u16>) {
        self.table.write(choice, store, text);
    }
}
