//! The reckoning of demand 3: what a list of calls must give, from the table and
//! the calls alone.

use crate::automaton::TableAutomaton;
use crate::lengths::Lengths;
use crate::machine::{Machine, Status};
use crate::refusal::Refusal;
use crate::session::{held_places, Answer, Session};

/// A call of a compiled machine, with its piece and output length.
#[derive(Clone, Debug, PartialEq, Eq)]
pub enum Call {
    /// A feed.
    Feed {
        /// The piece.
        piece: Vec<u16>,
        /// The output length.
        output: u64,
    },
    /// A finish.
    Finish {
        /// The output length.
        output: u64,
    },
}

impl Call {
    /// The piece, empty for a finish.
    fn piece(&self) -> &[u16] {
        match self {
            Call::Feed { piece, .. } => piece,
            Call::Finish { .. } => &[],
        }
    }

    /// The output length.
    fn output(&self) -> u64 {
        match *self {
            Call::Feed { output, .. } | Call::Finish { output } => output,
        }
    }
}

/// The reckoning after a list of calls.
#[derive(Clone, Debug, PartialEq, Eq)]
pub struct Reckoning {
    /// Each call's answer. An accepted call's output is what the machine wrote
    /// more than before it.
    pub answers: Vec<Result<Answer, Refusal>>,
    /// The accepted pieces joined.
    pub input: Vec<u16>,
    /// Whether a finish gave the input its end.
    pub ended: bool,
    /// The joined outputs.
    pub output: Vec<u16>,
    /// The session.
    pub session: Session,
}

/// Reckons a list of calls from a fresh session.
pub fn reckon(automaton: &TableAutomaton, calls: &[Call]) -> Reckoning {
    let mut reckoning = Reckoning {
        answers: Vec::with_capacity(calls.len()),
        input: Vec::new(),
        ended: false,
        output: Vec::new(),
        session: Session::FRESH,
    };
    reckoning.run(automaton);
    for call in calls {
        let answer = reckoning.answer(automaton, call);
        reckoning.answers.push(answer);
    }
    reckoning
}

impl Reckoning {
    /// Runs the plain machine "from an empty store and state 0 over the input so
    /// far, as one piece, until it waits, closes or stops".
    fn run(&mut self, automaton: &TableAutomaton) {
        let mut machine = Machine::start(automaton, &self.input, self.ended);
        machine.run();
        let held = machine.held();
        self.session = Session {
            status: machine.status(),
            state: machine.state().0,
            held: held_places(&held),
            count: held.len() as u16,
            received: match machine.status() {
                Status::Stopped => machine.consumed(),
                Status::Open | Status::Closed => self.input.len() as u64,
            },
            produced: machine.output().len() as u64,
            steps: machine.steps(),
            uses: *machine.uses(),
        };
        self.output = machine.output().to_vec();
    }

    /// "If it closed or stopped, the call is refused by 13. Else 14 takes the
    /// input's length as received, and 15 the number of characters that the
    /// machine holds as held; if neither refuses, the call is accepted."
    fn answer(&mut self, automaton: &TableAutomaton, call: &Call) -> Result<Answer, Refusal> {
        if self.session.status != Status::Open {
            return Err(Refusal::Ended);
        }
        let lengths = Lengths {
            received: self.input.len() as u64,
            held: u64::from(self.session.count),
            piece: call.piece().len() as u64,
            output: call.output(),
        };
        match lengths.refusal(automaton.table.most_outputs()) {
            Some(refusal) => Err(refusal),
            None => Ok(self.accept(automaton, call)),
        }
    }

    /// "An accepted feed adds its piece to the input; an accepted finish gives
    /// it its end."
    fn accept(&mut self, automaton: &TableAutomaton, call: &Call) -> Answer {
        let written = self.output.len();
        self.input.extend(call.piece());
        self.ended = matches!(call, Call::Finish { .. });
        self.run(automaton);
        Answer {
            count: self.output.len() - written,
            status: self.session.status,
        }
    }
}
