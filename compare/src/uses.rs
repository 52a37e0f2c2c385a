//! Request \[2\]: tables with many rules, sessions with uses of all of them, and
//! damage to the counts of uses.

use reference::builder::TableBuilder;
use reference::random::Random;
use reference::table::{Table, MAX_LENGTH, MAX_RULES};

use crate::cases::rules_apart;
use crate::face::{Session, USES_DEFAULT, USES_PAIRS};

/// The tables that a seed gives, without end: every second has 32 rules, the
/// others 1 to 32, of lengths 1 to 8; two of three have a default, every second of
/// them a marked one. Each group writes the first character that it took.
pub fn tables(seed: u64) -> impl Iterator<Item = Table> {
    let mut random = Random::new(seed);
    std::iter::repeat_with(move || {
        let rules = match random.below(2) {
            0 => MAX_RULES,
            _ => random.below(MAX_RULES) + 1,
        };
        let lengths: Vec<usize> = (0..rules).map(|_| random.below(MAX_LENGTH) + 1).collect();
        let table = rules_apart(lengths.into_iter().zip(0..), TableBuilder::copy);
        let table = match random.below(3) {
            0 => table.copying_default(),
            1 => table.marked_default().copy(),
            _ => table,
        };
        Table::read(&table.bytes()).expect("the table is accepted")
    })
}

/// The groups that sound words have: the place of each one's count, and its K. Under
/// the mark, pairs count as one of K = 2.
pub fn groups(words: &[u16]) -> Vec<(usize, u64)> {
    let rules = 0..usize::from(words[4]);
    let rules = rules.map(|rule| (rule, u64::from(words[17222 + 83 * rule])));
    let default = (words[5] != 0).then_some((USES_DEFAULT, 1));
    let pairs = (words[5] == 2).then_some((USES_PAIRS, 2));
    rules.chain(default).chain(pairs).collect()
}

/// "The sum over rules of count times K, plus the default's count", to which "a pair adds
/// 2", exactly.
pub fn taken(words: &[u16], session: &Session) -> u128 {
    let groups = groups(words).into_iter();
    groups
        .map(|(place, length)| u128::from(length) * u128::from(session.uses[place]))
        .sum()
}

/// A sound session that has received more, for which it used every group once or
/// more; it is sound too. The uses of 34 groups stay within the most characters.
pub fn used_more(random: &mut Random, words: &[u16], session: &Session) -> Session {
    let mut used = *session;
    for (place, length) in groups(words) {
        let most = *random.pick(&[1, 9, 1 << 31]);
        let uses = random.between(1, most) as u64;
        used.uses[place] += uses;
        used.received += length * uses;
    }
    used
}

/// A way to damage a count.
#[derive(Clone, Copy, Debug, PartialEq, Eq, PartialOrd, Ord)]
pub enum Damage {
    /// One use more.
    More,
    /// One use less.
    Less,
    /// Uses that go over to a group of the same K: the session stays sound.
    MovedAlike,
    /// Uses that go over to a group of another K.
    MovedUnlike,
    /// Uses of a rule or a default that the machine lacks, or of pairs.
    Lacking,
    /// Uses that go over to a rule or a default that the machine lacks, one for each
    /// of their characters.
    MovedToLacking,
    /// Uses of so many characters more that they add 0 modulo 2^64.
    Wrapping,
    /// Uses that go over to or from another group, their characters being the same
    /// modulo 2^64 alone.
    WrappingBeside,
}

impl Damage {
    /// Every way.
    pub const ALL: [Damage; 8] = [
        Damage::More,
        Damage::Less,
        Damage::MovedAlike,
        Damage::MovedUnlike,
        Damage::Lacking,
        Damage::MovedToLacking,
        Damage::Wrapping,
        Damage::WrappingBeside,
    ];

    /// The session, in which every group that the machine has was used, with the
    /// count at a place damaged so. None if the machine lacks the group, or has it
    /// though it should lack it, or none to take beside it, and for
    /// [`Damage::Wrapping`] if K is odd.
    pub fn of(
        self,
        random: &mut Random,
        words: &[u16],
        session: &Session,
        place: usize,
    ) -> Option<Session> {
        let mut groups = groups(words);
        match groups.iter().position(|&(other, _)| other == place) {
            Some(at) => {
                let group = groups.remove(at);
                self.of_group(random, session, group, &groups)
            }
            None => self.of_lacking(random, session, place, &groups),
        }
    }

    /// The same for a group that the machine lacks beside those that it has.
    fn of_lacking(
        self,
        random: &mut Random,
        session: &Session,
        place: usize,
        groups: &[(usize, u64)],
    ) -> Option<Session> {
        let mut damaged = *session;
        match self {
            Damage::Lacking => {
                damaged.uses[place] = *random.pick(&[1, 2, 1 << 61, 1 << 63, u64::MAX]);
            }
            Damage::MovedToLacking => {
                let &(from, length) = random.pick(groups);
                let moved = random.between(1, session.uses[from] as i64) as u64;
                damaged.uses[from] -= moved;
                damaged.uses[place] = length * moved;
            }
            _ => return None,
        }
        Some(damaged)
    }

    /// The same for a group that the machine has beside others.
    fn of_group(
        self,
        random: &mut Random,
        session: &Session,
        (place, length): (usize, u64),
        others: &[(usize, u64)],
    ) -> Option<Session> {
        let mut damaged = *session;
        let uses = session.uses[place];
        match self {
            Damage::More => damaged.uses[place] = uses + 1,
            Damage::Less => damaged.uses[place] = uses - 1,
            Damage::MovedAlike | Damage::MovedUnlike => {
                let alike = self == Damage::MovedAlike;
                let (to, _) = one_of(random, others, |other| (other == length) == alike)?;
                let moved = random.between(1, uses as i64) as u64;
                damaged.uses[place] = uses - moved;
                damaged.uses[to] += moved;
            }
            Damage::Lacking | Damage::MovedToLacking => return None,
            Damage::Wrapping => {
                // 8 times 2^61 is 2^64, and so is 4 times 2^62; 6 times 2^63 is
                // three times that.
                let zeros = length.trailing_zeros();
                if zeros == 0 {
                    return None;
                }
                let times = random.between(1, (1 << zeros) - 1) as u64;
                damaged.uses[place] = uses + (times << (64 - zeros));
            }
            Damage::WrappingBeside => {
                let (to, to_length) = one_of(random, others, |_| true)?;
                let times = random.number();
                damaged.uses[place] = uses.wrapping_sub(to_length.wrapping_mul(times));
                let more = length.wrapping_mul(times);
                damaged.uses[to] = damaged.uses[to].wrapping_add(more);
            }
        }
        Some(damaged)
    }
}

/// One of the groups whose K is as asked for, if there is any.
fn one_of(
    random: &mut Random,
    groups: &[(usize, u64)],
    asked: impl Fn(u64) -> bool,
) -> Option<(usize, u64)> {
    let fitting: Vec<_> = { groups.iter().copied() }
        .filter(|&(_, length)| asked(length))
        .collect();
    (!fitting.is_empty()).then(|| *random.pick(&fitting))
}
