//! Refusals 14 and 15, which look at lengths alone.

use crate::refusal::Refusal;

/// The most characters that may be received: 1,099,511,627,776.
pub const MAX_RECEIVED: u64 = 1_099_511_627_776;

/// The lengths that refusals 14 and 15 compare.
#[derive(Clone, Copy, Debug)]
pub struct Lengths {
    /// Characters received before the call.
    pub received: u64,
    /// Characters held before the call.
    pub held: u64,
    /// Characters of the piece; none for a finish.
    pub piece: u64,
    /// Places of the output buffer.
    pub output: u64,
}

impl Lengths {
    /// 14 for received plus piece above the limit, then 15 for an output
    /// shorter than E times (held + piece).
    pub fn refusal(&self, most_outputs: usize) -> Option<Refusal> {
        if self.are_above_limit() {
            Some(Refusal::TooLong)
        } else if self.are_above_output(most_outputs) {
            Some(Refusal::ShortOutput)
        } else {
            None
        }
    }

    /// "Received plus piece above 1,099,511,627,776."
    pub fn are_above_limit(&self) -> bool {
        u128::from(self.received) + u128::from(self.piece) > u128::from(MAX_RECEIVED)
    }

    /// "Output shorter than E times (held + piece)."
    pub fn are_above_output(&self, most_outputs: usize) -> bool {
        u128::from(self.output) < self.least_output(most_outputs)
    }

    /// E times (held + piece).
    pub fn least_output(&self, most_outputs: usize) -> u128 {
        most_outputs as u128 * (u128::from(self.held) + u128::from(self.piece))
    }
}
