//! The plain machine, one counted step at a time.

use crate::automaton::Automaton;
use crate::meaning::Choice;
use crate::pairs::{begins_with_pair, is_first_unit, PAIR};
use crate::states::StateNo;
use crate::table::Mode;
use crate::uses::Uses;

/// One step of the machine. Waiting is none.
#[derive(Clone, Copy, Debug, PartialEq, Eq, Hash)]
pub enum Step {
    /// *Take*: the next character goes into the store.
    Read,
    /// *Emit*: writes from the store, empties it and sets state 0.
    Emit,
    /// *Back*: store and character become unread again, state 0.
    RollBack,
    /// *Stop*: drops what is unread.
    Stop,
    /// *Close*: the end of the input is reached with nothing in the store.
    Close,
}

/// Where a machine stands: open while it waits, or closed, or stopped.
#[derive(Clone, Copy, Debug, PartialEq, Eq, Hash)]
pub enum Status {
    /// Waiting for more.
    Open,
    /// Closed at the input's end.
    Closed,
    /// Stopped where no rule fits and there is no default.
    Stopped,
}

/// What the next step is about.
#[derive(Clone, Copy, Debug, PartialEq, Eq)]
enum Phase {
    /// The store is led by the states.
    Matching,
    /// The store was given back: the default is due, or a stop.
    RolledBack,
    /// The default has read the first of the characters that it takes.
    Falling(Fall),
    /// Closed.
    Closed,
    /// Stopped.
    Stopped,
}

/// What the default takes after a back.
#[derive(Clone, Copy, Debug, PartialEq, Eq)]
enum Fall {
    /// One unit, for which its output is written.
    Single,
    /// Both units of a pair, which are written unchanged.
    Pair,
}

impl Fall {
    /// How many characters are taken.
    fn taken(self) -> usize {
        match self {
            Fall::Single => 1,
            Fall::Pair => PAIR,
        }
    }

    /// What is emitted.
    fn choice(self) -> Choice {
        match self {
            Fall::Single => Choice::Default,
            Fall::Pair => Choice::Pair,
        }
    }
}

/// "It holds a store, the unread characters and a state. Unread characters come
/// first from those given back, then from the piece."
#[derive(Clone, Debug)]
pub struct Machine<'a, A> {
    automaton: &'a A,
    phase: Phase,
    state: StateNo,
    store: Vec<u16>,
    /// The characters given back, the next one last.
    buffer: Vec<u16>,
    piece: &'a [u16],
    ended: bool,
    output: Vec<u16>,
    consumed: u64,
    steps: u64,
    uses: Uses,
}

impl<'a, A: Automaton> Machine<'a, A> {
    /// A machine with an empty store and state 0.
    pub fn start(automaton: &'a A, piece: &'a [u16], ended: bool) -> Self {
        Machine::resume(automaton, StateNo::START, &[], piece, ended)
    }

    /// A machine that goes on from a state and the characters that it held. Those of
    /// state 0, which no target leads to, are a first unit "left by a back": it was
    /// given back, and "the back is counted before the wait".
    pub fn resume(
        automaton: &'a A,
        state: StateNo,
        held: &[u16],
        piece: &'a [u16],
        ended: bool,
    ) -> Self {
        let left_by_back = state == StateNo::START && !held.is_empty();
        let (phase, store, buffer) = if left_by_back {
            (Phase::RolledBack, Vec::new(), held.to_vec())
        } else {
            (Phase::Matching, held.to_vec(), Vec::new())
        };
        Machine {
            automaton,
            phase,
            state,
            store,
            buffer,
            piece,
            ended,
            output: Vec::new(),
            consumed: 0,
            steps: 0,
            uses: Uses::NONE,
        }
    }

    /// Runs until the machine waits, closes or stops.
    pub fn run(&mut self) {
        while self.step().is_some() {}
    }

    /// Makes one step and counts it; none if the machine waits, has closed or
    /// has stopped.
    pub fn step(&mut self) -> Option<Step> {
        let step = match self.phase {
            Phase::Matching => self.match_on()?,
            Phase::RolledBack => self.fall_back()?,
            Phase::Falling(fall) if self.store.len() < fall.taken() => self.read_for(fall),
            Phase::Falling(fall) => self.emit(fall.choice()),
            Phase::Closed | Phase::Stopped => return None,
        };
        self.steps += 1;
        Some(step)
    }

    /// The rules of "The plain machine", from the first; none is waiting.
    fn match_on(&mut self) -> Option<Step> {
        if let Some(rule) = self.automaton.accept_at_once(self.state) {
            Some(self.emit(Choice::Rule(rule)))
        } else if let Some(character) = self.next_character() {
            Some(self.match_character(character))
        } else if self.ended {
            Some(self.match_end())
        } else {
            None
        }
    }

    /// "A next character exists: with a go, emit go and leave the character
    /// unread; with a target for its class, take it into the store; otherwise
    /// back."
    fn match_character(&mut self, character: u16) -> Step {
        if let Some(rule) = self.automaton.accept(self.state) {
            self.emit(Choice::Rule(rule))
        } else if let Some(target) = self.automaton.target(self.state, character) {
            self.read(target)
        } else {
            self.roll_back()
        }
    }

    /// "At the end: with an end rule, emit it; else with a store, back and the
    /// default as above; else close."
    fn match_end(&mut self) -> Step {
        if let Some(rule) = self.automaton.accept_at_end(self.state) {
            self.emit(Choice::Rule(rule))
        } else if !self.store.is_empty() {
            self.roll_back()
        } else {
            self.close()
        }
    }

    /// "Then with a default take one and emit the default, without one stop"; under the
    /// mark as request \[8\] has it, none being a first unit that waits.
    fn fall_back(&mut self) -> Option<Step> {
        match self.automaton.mode() {
            Mode::Absent => Some(self.stop()),
            Mode::Single => Some(self.read_for(Fall::Single)),
            Mode::Paired => self.marked_fall().map(|fall| self.read_for(fall)),
        }
    }

    /// What the marked default takes. "A first unit with nothing readable after it
    /// waits, and at the input's end it is treated alone."
    fn marked_fall(&self) -> Option<Fall> {
        let next: Vec<u16> = self.unread().take(PAIR).collect();
        match next[..] {
            [unit] if is_first_unit(unit) && !self.ended => None,
            _ if begins_with_pair(&next) => Some(Fall::Pair),
            _ => Some(Fall::Single),
        }
    }

    /// The unread characters: "first from those given back, then from the piece".
    fn unread(&self) -> impl Iterator<Item = u16> + '_ {
        self.buffer.iter().rev().chain(self.piece).copied()
    }

    /// The next unread character.
    fn next_character(&self) -> Option<u16> {
        self.unread().next()
    }

    /// Moves the next unread character into the store.
    fn store_next(&mut self) {
        let given_back = self.buffer.pop();
        let next = given_back.or_else(|| self.piece.split_off_first().copied());
        self.store.extend(next);
    }

    /// *Take* by a target.
    fn read(&mut self, target: StateNo) -> Step {
        self.store_next();
        self.state = target;
        Step::Read
    }

    /// "With a default take one", and of a pair another: the state stays 0.
    fn read_for(&mut self, fall: Fall) -> Step {
        self.store_next();
        self.phase = Phase::Falling(fall);
        Step::Read
    }

    /// "Every emit writes from the store, empties it and sets state 0."
    fn emit(&mut self, choice: Choice) -> Step {
        self.automaton.write(choice, &self.store, &mut self.output);
        self.consumed += self.store.len() as u64;
        self.uses.count(choice);
        self.store.clear();
        self.state = StateNo::START;
        self.phase = Phase::Matching;
        Step::Emit
    }

    /// *Back*: "store and character become unread again, state 0". The character
    /// that led nowhere was not moved, so only the store has to be given back.
    fn roll_back(&mut self) -> Step {
        self.buffer.extend(self.store.drain(..).rev());
        self.state = StateNo::START;
        self.phase = Phase::RolledBack;
        Step::RollBack
    }

    /// "Stop drops what is unread."
    fn stop(&mut self) -> Step {
        self.buffer.clear();
        self.piece = &[];
        self.phase = Phase::Stopped;
        Step::Stop
    }

    /// *Close*, at the input's end.
    fn close(&mut self) -> Step {
        self.phase = Phase::Closed;
        Step::Close
    }

    /// Open, closed or stopped.
    pub fn status(&self) -> Status {
        match self.phase {
            Phase::Closed => Status::Closed,
            Phase::Stopped => Status::Stopped,
            _ => Status::Open,
        }
    }

    /// The state.
    pub fn state(&self) -> StateNo {
        self.state
    }

    /// When the machine waits, the characters that it holds: the store, or the first
    /// unit that waits unread. Nothing is left of either when it has closed or stopped.
    pub fn held(&self) -> Vec<u16> {
        let store = self.store.iter().copied();
        store.chain(self.unread()).collect()
    }

    /// What was written.
    pub fn output(&self) -> &[u16] {
        &self.output
    }

    /// The number of characters that emits removed from the store.
    pub fn consumed(&self) -> u64 {
        self.consumed
    }

    /// The steps counted.
    pub fn steps(&self) -> u64 {
        self.steps
    }

    /// The emits counted, by the group whose output each wrote.
    pub fn uses(&self) -> &Uses {
        &self.uses
    }
}
