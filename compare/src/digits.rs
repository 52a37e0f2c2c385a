//! Tables with digits, and damage to their records and to the words of their
//! entries. The places are those of document 01's layout with request \[1\]'s
//! blocks, written out.

use reference::random::Random;
use reference::table::{Table, RECORD_BYTES, SHIFTS};

use crate::cases::sound_tables;

/// The tables with digits that a seed gives, without end: undamaged, and most of
/// them with sums too.
pub fn tables(seed: u64) -> impl Iterator<Item = Table> {
    sound_tables(seed).filter(Table::has_digits)
}

/// A table's bytes with another value of one byte of a random record of kind 6.
///
/// # Panics
///
/// If there is no such record.
pub fn damaged_record(random: &mut Random, table: &[u8], byte: usize) -> Vec<u8> {
    let records = (0..table.len()).step_by(RECORD_BYTES);
    let digits: Vec<usize> = records.filter(|&place| table[place] == 6).collect();
    let place = random.pick(&digits) + byte;
    let found = table[place];
    let others = std::iter::repeat_with(|| match random.below(4) {
        0 => found ^ 1 << random.below(8),
        1 => found.wrapping_add(1),
        2 => random.below(16) as u8,
        _ => random.number() as u8,
    });
    let other = others.into_iter().find(|&byte| byte != found);
    let mut damaged = table.to_vec();
    damaged[place] = other.expect("one of so many differs");
    damaged
}

/// A way to damage the entry of an output character.
#[derive(Clone, Copy, Debug, PartialEq, Eq, PartialOrd, Ord)]
pub enum Damage {
    /// A digit's sort is this.
    Sort(u16),
    /// A digit's sort is unknown.
    UnknownSort,
    /// A digit's shift is this.
    Shift(u16),
    /// A digit's shift is none of the four.
    UnknownShift,
    /// A digit's shift is any of the four.
    KnownShift,
    /// A digit has two coefficients below K.
    Second,
    /// A digit's coefficient is this.
    Coefficient(u16),
    /// A digit's coefficient is neither 0 nor 1.
    UnknownCoefficient,
    /// A digit's coefficient is moved from below K to K or beyond.
    MovedOut,
    /// A digit's coefficient is moved to another position below K.
    Moved,
    /// A digit's coefficients from K on are any words.
    FromK,
    /// This word of a digit's entry is changed.
    Word(usize),
    /// A sum's sort is a digit's.
    SumAsDigit,
    /// An entry that is not in use has any words.
    Unused,
}

impl Damage {
    /// Every way.
    pub fn all() -> impl Iterator<Item = Damage> {
        let named = [
            Damage::Sort(0),
            Damage::Sort(2),
            Damage::UnknownSort,
            Damage::Shift(1),
            Damage::Shift(3),
            Damage::Shift(5),
            Damage::Shift(16),
            Damage::UnknownShift,
            Damage::KnownShift,
            Damage::Second,
            Damage::Coefficient(0),
            Damage::Coefficient(2),
            Damage::UnknownCoefficient,
            Damage::MovedOut,
            Damage::Moved,
            Damage::FromK,
            Damage::SumAsDigit,
            Damage::Unused,
        ];
        named.into_iter().chain((0..ENTRY).map(Damage::Word))
    }

    /// Whether words so damaged are sound, where that doesn't hang on the rest.
    pub fn leaves_sound(self) -> Option<bool> {
        match self {
            Damage::Sort(0) | Damage::KnownShift | Damage::Moved => Some(true),
            Damage::FromK | Damage::Unused => Some(true),
            Damage::Word(_) | Damage::SumAsDigit => None,
            _ => Some(false),
        }
    }

    /// Whether words so damaged give what they gave before.
    pub fn changes_nothing(self) -> bool {
        matches!(self, Damage::FromK | Damage::Unused)
    }

    /// Whether a digit of a group of length K can be so damaged.
    fn fits(self, length: usize) -> bool {
        match self {
            Damage::Second | Damage::Moved => length > 1,
            Damage::MovedOut | Damage::FromK => length < 8,
            _ => true,
        }
    }
}

/// The words of an entry: its sort, its constant and eight coefficients.
const ENTRY: usize = 10;

/// An entry in use: where it begins, and K.
#[derive(Clone, Copy)]
struct Entry {
    place: usize,
    length: usize,
}

/// Compiled words, with the entries of their groups.
pub struct Entries {
    words: Vec<u16>,
    sums: Vec<Entry>,
    digits: Vec<Entry>,
    unused: Vec<Entry>,
}

impl Entries {
    /// The entries of compiled words.
    pub fn new(words: Vec<u16>) -> Entries {
        let default = (words[5] == 1).then_some(32);
        let blocks = (0..usize::from(words[4])).chain(default);
        let mut entries = Entries {
            words,
            sums: Vec::new(),
            digits: Vec::new(),
            unused: Vec::new(),
        };
        blocks.for_each(|block| entries.add(17222 + 83 * block));
        entries
    }

    /// Adds the eight entries of a block.
    fn add(&mut self, block: usize) {
        let [length, count] = [block, block + 2].map(|place| usize::from(self.words[place]));
        for number in 0..8 {
            let place = block + 3 + ENTRY * number;
            let entries = match self.words[place] {
                _ if number >= count => &mut self.unused,
                0 => &mut self.sums,
                _ => &mut self.digits,
            };
            entries.push(Entry { place, length });
        }
    }

    /// The words with an entry damaged in a way; none if no entry can be.
    pub fn damaged(&self, random: &mut Random, damage: Damage) -> Option<Vec<u16>> {
        let entries = match damage {
            Damage::SumAsDigit => &self.sums,
            Damage::Unused => &self.unused,
            _ => &self.digits,
        };
        let fitting = entries.iter().filter(|entry| damage.fits(entry.length));
        let fitting: Vec<&Entry> = fitting.collect();
        if fitting.is_empty() {
            return None;
        }
        let entry = *random.pick(&fitting);
        let mut words = self.words.clone();
        let (head, coefficients) = words[entry.place..][..ENTRY].split_at_mut(2);
        match damage {
            Damage::Sort(sort) => head[0] = sort,
            Damage::UnknownSort => head[0] = random.between(2, 65535) as u16,
            Damage::SumAsDigit => head[0] = 1,
            Damage::Shift(shift) => head[1] = shift,
            Damage::UnknownShift => head[1] = unknown_shift(random),
            Damage::KnownShift => head[1] = *random.pick(&SHIFTS),
            Damage::Word(number) => change(random, &mut words[entry.place + number]),
            Damage::Unused => words[entry.place..][..ENTRY].fill_with(|| random.character()),
            _ => damage_coefficients(random, damage, coefficients, entry.length),
        }
        Some(words)
    }
}

/// Damages a digit's coefficients, of which one is 1 and the others 0.
fn damage_coefficients(random: &mut Random, damage: Damage, words: &mut [u16], length: usize) {
    let one = words.iter().position(|&word| word == 1);
    let one = one.expect("a compiled digit has a coefficient of 1");
    let (below, from_k) = words.split_at_mut(length);
    let other =
        |random: &mut Random| (one + random.between(1, length as i64 - 1) as usize) % length;
    match damage {
        Damage::Second => {
            let word = &mut below[other(random)];
            *word = *random.pick(&[1, 1, 2, 65535]);
        }
        Damage::Coefficient(word) => below[one] = word,
        Damage::UnknownCoefficient => below[one] = random.between(2, 65535) as u16,
        Damage::MovedOut => {
            below[one] = 0;
            from_k[random.below(8 - length)] = 1;
        }
        Damage::Moved => below.swap(one, other(random)),
        _ => from_k.fill_with(|| random.character()),
    }
}

/// A shift that is none of the four: small or any.
fn unknown_shift(random: &mut Random) -> u16 {
    let shift = match random.below(2) {
        0 => random.below(20) as u16,
        _ => random.character(),
    };
    if SHIFTS.contains(&shift) {
        return shift + 1;
    }
    shift
}

/// Changes a word: by one, to a small number or to any.
fn change(random: &mut Random, word: &mut u16) {
    *word = match random.below(4) {
        0 => word.wrapping_add(1),
        1 => word.wrapping_sub(1),
        2 => random.below(17) as u16,
        _ => random.character(),
    };
}
