//! Compiled tables, and whether a rule can be chosen.

use std::fmt;

use crate::raw::{self, Input, INPUT_SIZE, WORDS_SIZE};
use crate::refusal::Refusal;

/// A machine: sound words, compiled from a table or tested.
#[derive(Clone, PartialEq, Eq)]
pub struct Machine {
    words: Box<[u16]>,
}

impl Machine {
    /// Compiles a table; refused by the first of 1 to 9 in document 01's order.
    pub fn compile(table: &[u8]) -> Result<Machine, Refusal> {
        let mut words = vec![0; WORDS_SIZE].into_boxed_slice();
        match raw::compile(table, &mut words) {
            raw::OK => Ok(Machine { words }),
            number => Err(Refusal::answered(number)),
        }
    }

    /// A machine of words that came from elsewhere; refused by 11 where they are
    /// under 19,961 or not sound. Words beyond are left out.
    pub fn from_words(words: &[u16]) -> Result<Machine, Refusal> {
        let words = words.get(..WORDS_SIZE).ok_or(Refusal::UnsoundWords)?;
        match raw::is_sound(words) {
            0 => Err(Refusal::UnsoundWords),
            _ => Ok(Machine {
                words: words.into(),
            }),
        }
    }

    /// The machine words.
    pub fn words(&self) -> &[u16] {
        &self.words
    }

    /// The number of states.
    pub fn state_count(&self) -> u16 {
        self.words[0]
    }

    /// The number of classes.
    pub fn class_count(&self) -> u16 {
        self.words[1]
    }

    /// L, the greatest length of a pattern.
    pub fn longest_pattern(&self) -> u16 {
        self.words[2]
    }

    /// E, the greatest number of output characters in a group: 0 where no group writes any,
    /// but at least 1 under a marked default.
    /// [`Session::longest_piece`](crate::Session::longest_piece) divides a room by it.
    pub fn expansion(&self) -> u16 {
        self.words[3]
    }

    /// The number of rules.
    pub fn rule_count(&self) -> u16 {
        self.words[4]
    }

    /// Whether there is a default, marked or not.
    pub fn has_default(&self) -> bool {
        self.words[5] != 0
    }

    /// Whether there is a marked default, which lets pairs outside the basic plane
    /// through whole.
    pub fn keeps_pairs(&self) -> bool {
        self.words[5] == 2
    }

    /// The most steps for an input of so many characters: (L + 3) times them,
    /// plus 1.
    pub fn most_steps(&self, characters: u64) -> u64 {
        let most_a_character = u64::from(self.longest_pattern()) + 3;
        characters
            .saturating_mul(most_a_character)
            .saturating_add(1)
    }
}

impl fmt::Debug for Machine {
    fn fmt(&self, f: &mut fmt::Formatter<'_>) -> fmt::Result {
        f.debug_struct("Machine")
            .field("state_count", &self.state_count())
            .field("class_count", &self.class_count())
            .field("longest_pattern", &self.longest_pattern())
            .field("expansion", &self.expansion())
            .field("rule_count", &self.rule_count())
            .field("has_default", &self.has_default())
            .field("keeps_pairs", &self.keeps_pairs())
            .finish_non_exhaustive()
    }
}

/// Whether a rule of a table can be chosen: for a live rule an input of at most
/// [`INPUT_SIZE`] characters on which it is the first choice, for a dead one none. A rule is
/// dead exactly when no input has Definition 7 choose it anywhere, and a number that no
/// rule has is dead. Refused as [`Machine::compile`].
///
/// ```
/// use cobbletwill::{witness, Table};
///
/// // What begins with `ab` never comes to the second rule.
/// let typed: Vec<u16> = "\"ab\" ==> [49]; \"aba\" ==> [50];".encode_utf16().collect();
/// let table = Table::from_text(&typed)?;
/// let input = witness(&table, 0)?.expect("the first rule is live");
/// assert!(input.starts_with(&[97, 98]));
/// assert_eq!(witness(&table, 1)?, None);
/// # Ok::<(), cobbletwill::Refusal>(())
/// ```
pub fn witness(table: &[u8], rule: u32) -> Result<Option<Vec<u16>>, Refusal> {
    let mut words = vec![0; WORDS_SIZE];
    let mut input = Input {
        length: 0,
        characters: [0; INPUT_SIZE],
    };
    match raw::witness(table, &mut words, rule, &mut input) {
        raw::OK => {
            // It is not above the number of places.
            let length = usize::from(input.length);
            Ok(Some(input.characters[..length].to_vec()))
        }
        raw::DEAD => Ok(None),
        number => Err(Refusal::answered(number)),
    }
}
