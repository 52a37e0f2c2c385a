//! Request \[2\]: "the session gains 33 counts, one a rule and one for the
//! default", "each the number of the plain machine's emits that wrote that
//! group's output". By request \[8\] "pairs have a count of their own".

use crate::meaning::Choice;
use crate::table::MAX_RULES;

/// The place of the default's count, behind those of the rules, which stand at
/// their numbers. The paper leaves the order open; this is that of the blocks.
pub const DEFAULT: usize = MAX_RULES;

/// The place of the count of pairs, behind the default's.
pub const PAIRS: usize = DEFAULT + 1;

/// How many counts there are: of 32 rules, the default and pairs.
pub const COUNTS: usize = PAIRS + 1;

/// How often each choice was made.
#[derive(Clone, Copy, Debug, PartialEq, Eq)]
pub struct Uses(pub [u64; COUNTS]);

impl Uses {
    /// Nothing was used.
    pub const NONE: Uses = Uses([0; COUNTS]);

    /// So many uses by each of these places of counts, and none of the others.
    pub fn of(used: &[(usize, u64)]) -> Uses {
        let mut uses = Uses::NONE;
        for &(place, count) in used {
            uses.0[place] = count;
        }
        uses
    }

    /// One use more.
    pub fn count(&mut self, choice: Choice) {
        self.0[choice.number()] += 1;
    }

    /// These uses and later ones together.
    pub fn with(&self, later: &Uses) -> Uses {
        Uses(std::array::from_fn(|place| self.0[place] + later.0[place]))
    }
}
