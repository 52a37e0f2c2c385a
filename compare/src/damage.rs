//! Damaged machine words and sessions, but for counts of uses. The places are those
//! of document 01's layout with request \[1\]'s blocks, written out.

use reference::lengths::MAX_RECEIVED;
use reference::random::Random;

use crate::face::Session;
use crate::uses::groups;

/// A part of the machine words.
#[derive(Clone, Copy, Debug, PartialEq, Eq)]
pub enum Part {
    /// The six counts.
    Header,
    /// The class starts in use.
    Starts,
    /// Depth, end and go of a state.
    States,
    /// The targets of a state, used or not.
    Targets,
    /// The blocks of the rules and of the default.
    Blocks,
    /// The first word after those in use of a sort, or any.
    Others,
}

impl Part {
    /// Every part.
    pub const ALL: [Part; 6] = [
        Part::Header,
        Part::Starts,
        Part::States,
        Part::Targets,
        Part::Blocks,
        Part::Others,
    ];
}

/// Sound words, with the places of their targets.
pub struct Base {
    words: Vec<u16>,
    targets: Vec<usize>,
}

impl Base {
    /// Compiled words.
    pub fn new(words: Vec<u16>) -> Base {
        let targets = (838..17222).filter(|&place| words[place] != 0).collect();
        Base { words, targets }
    }

    /// The words with one to three of them changed, of any part.
    pub fn damaged(&self, random: &mut Random) -> Vec<u16> {
        let mut words = self.words.clone();
        for _ in 0..random.between(1, 3) {
            let part = match random.below(12) {
                0 => Part::Header,
                1 => Part::Starts,
                2..=4 => Part::States,
                5..=6 => Part::Targets,
                7..=9 => Part::Blocks,
                _ => Part::Others,
            };
            self.damage(random, &mut words, part);
        }
        words
    }

    /// The words with one word of a part changed.
    pub fn damaged_in(&self, random: &mut Random, part: Part) -> Vec<u16> {
        let mut words = self.words.clone();
        self.damage(random, &mut words, part);
        words
    }

    /// Changes a word of a part.
    fn damage(&self, random: &mut Random, words: &mut [u16], part: Part) {
        let place = self.place(random, part);
        words[place] = self.value(random, words[place]);
    }

    /// A count of the header.
    fn count(&self, place: usize) -> usize {
        usize::from(self.words[place])
    }

    /// The place of a word of a part.
    fn place(&self, random: &mut Random, part: Part) -> usize {
        let (states, classes) = (self.count(0), self.count(1));
        let (state, class) = (random.below(states), random.below(classes));
        let rule = random.below(self.count(4) + 1);
        let block = 17222 + 83 * if rule == self.count(4) { 32 } else { rule };
        match part {
            Part::Header => random.below(6),
            Part::Starts => 6 + class,
            Part::States => 70 + 3 * state + random.below(3),
            Part::Targets if random.one_in(2) => 838 + 64 * state + class,
            Part::Targets => *random.pick(&self.targets),
            Part::Blocks if random.one_in(3) => block + random.below(3),
            Part::Blocks => block + 3 + random.below(80),
            Part::Others if random.one_in(2) => self.beyond(random, state),
            Part::Others => random.below(self.words.len()),
        }
    }

    /// The place of the first word after those in use of a sort, where words of
    /// this sort follow; or any.
    fn beyond(&self, random: &mut Random, state: usize) -> usize {
        let (states, classes, rules) = (self.count(0), self.count(1), self.count(4));
        match random.below(5) {
            0 if classes < 64 => 6 + classes,
            1 if states < 256 => 70 + 3 * states + random.below(3),
            2 if classes < 64 => 838 + 64 * state + classes,
            3 if states < 256 => 838 + 64 * states + random.below(64),
            4 if rules < 32 => 17222 + 83 * rules + random.below(3),
            _ => random.below(self.words.len()),
        }
    }

    /// Another value of a word: near, small, a state's number, or any.
    fn value(&self, random: &mut Random, found: u16) -> u16 {
        match random.below(8) {
            0..=1 => found.wrapping_add(1),
            2..=3 => found.wrapping_sub(1),
            4 => 0,
            5 => random.below(9) as u16,
            6 => random.below(self.count(0) + 1) as u16,
            _ => random.character(),
        }
    }
}

/// A field of a session, beside its counts of uses.
#[derive(Clone, Copy, Debug, PartialEq, Eq)]
pub enum Field {
    /// Characters received.
    Received,
    /// Characters produced.
    Produced,
    /// Steps counted.
    Steps,
    /// The status.
    Status,
    /// The state number.
    State,
    /// The number of held characters.
    HeldCount,
    /// A place for a held character.
    Held(usize),
}

impl Field {
    /// Every field.
    pub fn all() -> impl Iterator<Item = Field> {
        let single = [
            Field::Received,
            Field::Produced,
            Field::Steps,
            Field::Status,
            Field::State,
            Field::HeldCount,
        ];
        single.into_iter().chain((0..8).map(Field::Held))
    }
}

/// The session with another value of a field: near, at a limit of document 01 or
/// one beyond it, small, or any. A limit of produced or steps is sometimes that
/// of the most characters received. Three times in four, a group's uses follow the
/// characters received.
pub fn damaged_session(
    random: &mut Random,
    words: &[u16],
    session: &Session,
    field: Field,
) -> Session {
    let mut damaged = *session;
    if matches!(field, Field::Produced | Field::Steps) && random.one_in(4) {
        damaged.received = MAX_RECEIVED - random.below(3) as u64;
        follow(words, session, &mut damaged);
    }
    let limits = Limits::of(words, &damaged);
    match field {
        Field::Received => {
            damaged.received = received(random, session);
            if !random.one_in(4) {
                follow(words, session, &mut damaged);
            }
        }
        Field::Produced => {
            damaged.tally.produced = large(random, session.tally.produced, limits.produced)
        }
        Field::Steps => damaged.tally.steps = large(random, session.tally.steps, limits.steps),
        Field::Status => damaged.status = status(random, session.status),
        Field::State => damaged.state = small(random, session.state, words[0]),
        Field::HeldCount => damaged.held_count = small(random, session.held_count, 8),
        Field::Held(place) => {
            let start = words[6 + random.below(usize::from(words[1]))];
            damaged.held[place] = small(random, session.held[place], start);
        }
    }
    damaged
}

/// Lets the uses of the last group, pairs or the default if there are any, follow the
/// characters received, which are brought to a multiple of its K more or less; but
/// for numbers that no uses come to.
fn follow(words: &[u16], session: &Session, damaged: &mut Session) {
    let groups = groups(words);
    let (place, length) = groups[groups.len() - 1];
    let [before, after] = [session, &*damaged].map(|session| i128::from(session.received));
    let more = (after - before) / i128::from(length);
    let uses = u64::try_from(i128::from(session.uses[place]) + more);
    let received = u64::try_from(before + more * i128::from(length));
    if let (Ok(uses), Ok(received)) = (uses, received) {
        damaged.uses[place] = uses;
        damaged.received = received;
    }
}

/// An open session with one character more, which a target of its state takes:
/// sound but where the go of the target equals its end. None if the state has no
/// target or nothing more can be held.
pub fn further(random: &mut Random, words: &[u16], session: &Session) -> Option<Session> {
    let state = usize::from(session.state);
    let classes: Vec<usize> = (0..usize::from(words[1]))
        .filter(|class| words[838 + 64 * state + class] != 0)
        .collect();
    if classes.is_empty() || session.status != 0 {
        return None;
    }
    let class = *random.pick(&classes);
    let mut further = *session;
    *further.held.get_mut(usize::from(session.held_count))? = words[6 + class];
    further.held_count += 1;
    further.received += 1;
    further.tally.steps += 1;
    further.state = words[838 + 64 * state + class];
    Some(further)
}

/// The limits of a session's counts, those of steps and produced by the
/// characters that it has consumed.
struct Limits {
    produced: u64,
    steps: u64,
}

impl Limits {
    /// "Produced at most E times consumed; steps at most (L + 3) times consumed
    /// plus held", closed or stopped "(L + 3) times (consumed + 1)".
    fn of(words: &[u16], session: &Session) -> Limits {
        let [longest, most_outputs] = [words[2], words[3]].map(u64::from);
        let held = u64::from(session.held_count);
        let consumed = session.received - held;
        Limits {
            produced: most_outputs * consumed,
            steps: match session.status {
                0 => (longest + 3) * consumed + held,
                _ => (longest + 3) * (consumed + 1),
            },
        }
    }
}

/// Another number of characters received: held is the least, and those near the
/// greatest leave no room for a piece.
fn received(random: &mut Random, session: &Session) -> u64 {
    let near_greatest = MAX_RECEIVED - random.below(50) as u64;
    let limit = *random.pick(&[u64::from(session.held_count), MAX_RECEIVED, near_greatest]);
    large(random, session.received, limit)
}

/// Another value of a count: near, at a limit or one beside it, or any.
fn large(random: &mut Random, found: u64, limit: u64) -> u64 {
    match random.below(8) {
        0 => found.wrapping_add(1),
        1 => found.wrapping_sub(1),
        2..=3 => limit,
        4..=5 => limit.wrapping_add(1),
        6 => limit.wrapping_sub(1),
        _ => random.number(),
    }
}

/// Another status: near, small, or one whose lower 16 bits are as found.
fn status(random: &mut Random, found: u32) -> u32 {
    match random.below(4) {
        0 => found | 1 << random.between(16, 31),
        _ => u32::from(small(random, found as u16, 3)),
    }
}

/// Another value of a word of a session: near, at a limit or one beside it, below
/// it, or any.
fn small(random: &mut Random, found: u16, limit: u16) -> u16 {
    match random.below(8) {
        0..=1 => found.wrapping_add(1),
        2 => found.wrapping_sub(1),
        3 => limit,
        4 => limit.wrapping_add(1),
        5..=6 => random.below(usize::from(limit) + 1) as u16,
        _ => random.character(),
    }
}
