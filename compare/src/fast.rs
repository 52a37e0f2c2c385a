//! The rollback machine written for speed in safe Rust, to time the library
//! beside. It works over the machine words of a table, out of which it prepares
//! a class for each of the 65,536 characters, whether it begins a pattern or a pair,
//! and for each state and class what to do there. It tests words once, when it is
//! made, and trusts its sessions, whose counts of uses it changes in place.

use reference::pairs::{begins_with_pair, is_first_unit};
use reference::refusal::Refusal;
use reference::words::Words;

use crate::face::{Session, USES_DEFAULT, USES_PAIRS, USES_SIZE};

/// Characters of the piece that are looked at beside those held: more than the 8
/// that a round may read and the one after them.
const AHEAD: usize = 16;

/// What to do in a state before a character of a class.
#[derive(Clone, Copy)]
enum Action {
    /// Roll back: no rule goes on.
    Back,
    /// Read the character into a state, given by the place of its actions.
    Read(u16),
    /// Read the character and write a rule, which is go and end of the state
    /// that it leads to.
    Settle(u8),
    /// Write a rule, which is the state's go, and leave the character unread.
    Accept(u8),
}

/// What a character may begin.
#[derive(Clone, Copy, PartialEq, Eq)]
enum Sort {
    /// A pattern.
    Pattern,
    /// No pattern, but under the mark a pair.
    Pair,
    /// Neither: it is the default's, alone.
    Plain,
}

/// The hexadecimal digits.
const DIGITS: [u8; 16] = *b"0123456789ABCDEF";

/// A sum: a constant, and terms of a position and a coefficient, of which the
/// first so many are in use.
#[derive(Clone, Copy, Default)]
struct Sum {
    constant: u16,
    count: u8,
    terms: [(u8, u16); 8],
}

/// An output character.
#[derive(Clone, Copy)]
enum Output {
    Sum(Sum),
    /// The digit of the character at a position by a shift.
    Digit(u8, u8),
}

/// A default's output: often one sum, with at most one term.
enum DefaultOutput {
    One { constant: u16, coefficient: u16 },
    Many(Vec<Output>),
}

/// A prepared machine.
pub struct Fast {
    most_outputs: usize,
    classes: Box<[u8; 1 << 16]>,
    sorts: Box<[Sort; 1 << 16]>,
    actions: Box<[Action; 256 * 64]>,
    ends: Vec<Option<u8>>,
    rules: Vec<Vec<Output>>,
    default: Option<DefaultOutput>,
    marked: bool,
}

/// Where a run stands: the store is the text from `from` on and below `at`.
#[derive(Clone, Copy)]
struct Place {
    /// The place of the state's actions.
    state: u16,
    from: usize,
    at: usize,
    count: usize,
    /// The steps, modulo 2^64, but for the reads into the store.
    steps: u64,
    status: u32,
}

impl Fast {
    /// Prepares sound words; 11 for others.
    pub fn new(words: &[u16]) -> Result<Fast, Refusal> {
        let starts = Words::sound(words)?.starts();
        let [states, rules] = [words[0], words[4]].map(usize::from);
        let mut actions = Box::new([Action::Back; 256 * 64]);
        for state in 0..states {
            for class in 0..starts.len() {
                actions[64 * state + class] = action(words, state, class);
            }
        }
        let mut classes = Box::new([0; 1 << 16]);
        for (class, &start) in (0..).zip(starts) {
            classes[usize::from(start)..].fill(class);
        }
        let marked = words[5] == 2;
        let mut sorts = Box::new([Sort::Plain; 1 << 16]);
        for (character, sort) in (0..=u16::MAX).zip(&mut sorts[..]) {
            let class = classes[usize::from(character)];
            if !matches!(actions[usize::from(class)], Action::Back) {
                *sort = Sort::Pattern;
            } else if marked && is_first_unit(character) {
                *sort = Sort::Pair;
            }
        }
        Ok(Fast {
            most_outputs: usize::from(words[3]),
            classes,
            sorts,
            actions,
            ends: (0..states)
                .map(|state| named(words[71 + 3 * state]))
                .collect(),
            rules: (0..rules).map(|rule| outputs(words, rule)).collect(),
            default: (words[5] != 0).then(|| default(outputs(words, 32))),
            marked,
        })
    }

    /// A feed of an open session; the number of characters written.
    ///
    /// # Panics
    ///
    /// If the session is not open or the output shorter than refusal 15 asks.
    pub fn feed(&self, session: &mut Session, piece: &[u16], output: &mut [u16]) -> usize {
        let held = self.admit(session, piece, output);
        let mut head = [0; 8 + AHEAD];
        let text = joined(&mut head, &session.held[..held], piece);
        let mut place = start(session);
        let uses = &mut session.uses;
        self.run(text, held, false, &mut place, uses, output);
        // A round from a held character sees no further than the head; so where
        // one is left, the piece has ended.
        let (text, gone) = if place.from < held || place.status != 0 {
            (text, place.from)
        } else {
            (place.from, place.at) = (place.from - held, place.at - held);
            self.run(piece, piece.len(), false, &mut place, uses, output);
            (piece, held + place.from)
        };
        leave(session, piece.len(), gone, text, &place)
    }

    /// A finish of an open session; the number of characters written.
    ///
    /// # Panics
    ///
    /// As [`Fast::feed`].
    pub fn finish(&self, session: &mut Session, output: &mut [u16]) -> usize {
        let held = self.admit(session, &[], output);
        let places = session.held;
        let text = &places[..held];
        let mut place = start(session);
        let uses = &mut session.uses;
        while place.status == 0 {
            self.run(text, held, true, &mut place, uses, output);
            if place.status == 0 {
                self.end(text, &mut place, uses, output);
            }
        }
        leave(session, 0, place.from, &[], &place)
    }

    /// The number of characters held.
    fn admit(&self, session: &Session, piece: &[u16], output: &[u16]) -> usize {
        let held = usize::from(session.held_count);
        assert!(session.status == 0, "an open session");
        assert!(
            output.len() >= self.most_outputs * (held + piece.len()),
            "a long output"
        );
        held
    }

    /// Runs until the text is read, the store begins at a place or beyond, a first unit
    /// waits or the machine stops.
    fn run(
        &self,
        text: &[u16],
        until: usize,
        ended: bool,
        place: &mut Place,
        uses: &mut [u64; USES_SIZE],
        output: &mut [u16],
    ) {
        let mut now = *place;
        while now.from < until {
            if now.at == now.from {
                self.convert_plain(&text[now.from..until], &mut now, uses, output);
            }
            match self.read(text, &mut now) {
                Some(Action::Settle(rule)) => {
                    now.at += 1;
                    self.emit(rule, text, &mut now, uses, output);
                }
                Some(Action::Accept(rule)) => self.emit(rule, text, &mut now, uses, output),
                Some(Action::Back) if !ended && self.waits(text, &now) => {
                    now.at = now.from + 1;
                    break;
                }
                Some(Action::Back) => self.back(text, &mut now, uses, output),
                Some(Action::Read(_)) | None => break,
            }
            if now.status != 0 {
                break;
            }
        }
        *place = now;
    }

    /// Converts characters that begin no pattern, up to one that may, if the
    /// default writes one character.
    #[inline(always)]
    fn convert_plain(
        &self,
        text: &[u16],
        now: &mut Place,
        uses: &mut [u64; USES_SIZE],
        output: &mut [u16],
    ) {
        let Some(DefaultOutput::One {
            constant,
            coefficient,
        }) = self.default
        else {
            return;
        };
        let mut count = 0;
        for (&character, place) in text.iter().zip(&mut output[now.count..]) {
            if self.sorts[usize::from(character)] != Sort::Plain {
                break;
            }
            *place = coefficient.wrapping_mul(character).wrapping_add(constant);
            count += 1;
        }
        now.from += count;
        now.at = now.from;
        now.count += count;
        now.steps = now.steps.wrapping_add(3 * count as u64);
        uses[USES_DEFAULT] += count as u64;
    }

    /// Reads while the states lead on; what to do then, or none at the text's end.
    #[inline(always)]
    fn read(&self, text: &[u16], now: &mut Place) -> Option<Action> {
        let (mut state, mut at) = (now.state, now.at);
        let action = loop {
            let Some(&character) = text.get(at) else {
                break None;
            };
            let class = self.classes[usize::from(character)];
            match self.actions[usize::from(state | u16::from(class)) & 0x3fff] {
                Action::Read(next) => state = next,
                action => break Some(action),
            }
            at += 1;
        };
        (now.state, now.at) = (state, at);
        action
    }

    /// At the input's end, with the text read: the end rule, the default or a
    /// stop where there is a store, else the close.
    fn end(&self, text: &[u16], now: &mut Place, uses: &mut [u64; USES_SIZE], output: &mut [u16]) {
        if let Some(rule) = self.ends[usize::from(now.state) / 64] {
            self.emit(rule, text, now, uses, output);
        } else if now.from < now.at {
            self.back(text, now, uses, output);
        } else {
            now.steps = now.steps.wrapping_add(1);
            now.status = 1;
        }
    }

    /// Writes a rule's output from the store.
    #[inline(always)]
    fn emit(
        &self,
        rule: u8,
        text: &[u16],
        now: &mut Place,
        uses: &mut [u64; USES_SIZE],
        output: &mut [u16],
    ) {
        let store = &text[now.from..now.at];
        now.count += write(
            &self.rules[usize::from(rule)],
            store,
            &mut output[now.count..],
        );
        now.steps = now.steps.wrapping_add(store.len() as u64 + 1);
        uses[usize::from(rule)] += 1;
        now.from = now.at;
        now.state = 0;
    }

    /// Whether a first unit has nothing behind it, before the input's end: nothing was
    /// read then, since what led nowhere is behind what was.
    #[inline(always)]
    fn waits(&self, text: &[u16], now: &Place) -> bool {
        self.marked && now.from + 1 == text.len() && is_first_unit(text[now.from])
    }

    /// Gives the store back and writes pairs or the default's output, or stops.
    #[inline(always)]
    fn back(&self, text: &[u16], now: &mut Place, uses: &mut [u64; USES_SIZE], output: &mut [u16]) {
        let reads = (now.at - now.from) as u64;
        if self.marked && begins_with_pair(&text[now.from..]) {
            now.steps = now.steps.wrapping_add(reads);
            self.copy_pairs(text, now, uses, output);
        } else if let Some(default) = &self.default {
            let store = &text[now.from..=now.from];
            let room = &mut output[now.count..];
            now.count += match default {
                DefaultOutput::One {
                    constant,
                    coefficient,
                } => {
                    room[0] = coefficient.wrapping_mul(store[0]).wrapping_add(*constant);
                    1
                }
                DefaultOutput::Many(outputs) => write(outputs, store, room),
            };
            now.from += 1;
            now.steps = now.steps.wrapping_add(reads + 3);
            uses[USES_DEFAULT] += 1;
        } else {
            now.steps = now.steps.wrapping_add(reads + 2);
            now.status = 2;
        }
        now.at = now.from;
        now.state = 0;
    }

    /// Copies the pair at the place, and those behind it whose first units begin no
    /// pattern.
    #[inline(always)]
    fn copy_pairs(
        &self,
        text: &[u16],
        now: &mut Place,
        uses: &mut [u64; USES_SIZE],
        output: &mut [u16],
    ) {
        let pairs = text[now.from..].chunks_exact(2);
        let mut count = 0;
        for (pair, place) in pairs.zip(output[now.count..].chunks_exact_mut(2)) {
            let begins_no_pattern = self.sorts[usize::from(pair[0])] == Sort::Pair;
            if count > 0 && !(begins_no_pattern && begins_with_pair(pair)) {
                break;
            }
            place.copy_from_slice(pair);
            count += 1;
        }
        now.from += 2 * count;
        now.count += 2 * count;
        now.steps = now.steps.wrapping_add(4 * count as u64);
        uses[USES_PAIRS] += count as u64;
    }
}

/// Where a run of a session starts, the held characters standing first. The one at state
/// 0 is a first unit that waits, and is to be looked at again.
fn start(session: &Session) -> Place {
    let read = if session.state == 0 {
        0
    } else {
        session.held_count
    };
    Place {
        state: 64 * session.state,
        from: 0,
        at: usize::from(read),
        count: 0,
        // The held characters were read before, or the one given back.
        steps: 0u64.wrapping_sub(u64::from(session.held_count)),
        status: 0,
    }
}

/// The held characters and the beginning of the piece.
fn joined<'h>(head: &'h mut [u16; 8 + AHEAD], held: &[u16], piece: &[u16]) -> &'h [u16] {
    let next = &piece[..piece.len().min(AHEAD)];
    head[..held.len()].copy_from_slice(held);
    head[held.len()..][..next.len()].copy_from_slice(next);
    &head[..held.len() + next.len()]
}

/// Brings a session up to a run over so many more characters, of which it has
/// consumed so many with those held before; the number of characters written.
fn leave(session: &mut Session, piece: usize, gone: usize, text: &[u16], run: &Place) -> usize {
    let consumed = session.received - u64::from(session.held_count) + gone as u64;
    let store = match run.status {
        0 => &text[run.from..run.at],
        _ => &[],
    };
    session.received = match run.status {
        2 => consumed,
        _ => session.received + piece as u64,
    };
    session.tally.produced += run.count as u64;
    session.tally.steps += run.steps.wrapping_add(store.len() as u64);
    session.status = run.status;
    session.state = run.state / 64;
    session.held_count = store.len() as u16;
    session.held = [0; 8];
    session.held[..store.len()].copy_from_slice(store);
    run.count
}

/// Writes a group's output for a store; the number of characters written.
#[inline(always)]
fn write(outputs: &[Output], store: &[u16], room: &mut [u16]) -> usize {
    for (place, output) in room.iter_mut().zip(outputs) {
        *place = match output {
            Output::Sum(sum) => sum.value(store),
            Output::Digit(position, shift) => {
                let character = store[usize::from(*position)];
                u16::from(DIGITS[usize::from(character >> (shift & 15)) & 15])
            }
        };
    }
    outputs.len()
}

impl Sum {
    /// The value for a store.
    #[inline(always)]
    fn value(&self, store: &[u16]) -> u16 {
        let product = |&(position, coefficient): &(u8, u16)| {
            coefficient.wrapping_mul(store[usize::from(position)])
        };
        let used = self.terms.iter().take(usize::from(self.count));
        used.map(product).fold(self.constant, u16::wrapping_add)
    }
}

/// What to do in a state before a character of a class.
fn action(words: &[u16], state: usize, class: usize) -> Action {
    if let Some(rule) = named(words[72 + 3 * state]) {
        return Action::Accept(rule);
    }
    match words[838 + 64 * state + class] {
        0 => Action::Back,
        target => {
            let next = 70 + 3 * usize::from(target);
            match named(words[next + 2]) {
                Some(rule) if words[next + 1] == words[next + 2] => Action::Settle(rule),
                _ => Action::Read(64 * target),
            }
        }
    }
}

/// The rule that a word of a state names.
fn named(word: u16) -> Option<u8> {
    word.checked_sub(1).map(|rule| rule as u8)
}

/// The output characters of a block.
fn outputs(words: &[u16], block: usize) -> Vec<Output> {
    let block = &words[17222 + 83 * block..][..83];
    let length = usize::from(block[0]);
    let outputs = block[3..].chunks_exact(10).take(usize::from(block[2]));
    outputs
        .map(|output| {
            let sum = sum(output[1], &output[2..][..length]);
            match output[0] {
                0 => Output::Sum(sum),
                _ => Output::Digit(sum.terms[0].0, sum.constant as u8),
            }
        })
        .collect()
}

/// A sum out of its constant and its coefficients by position, of which those
/// that are not 0 count.
fn sum(constant: u16, coefficients: &[u16]) -> Sum {
    let mut sum = Sum {
        constant,
        ..Sum::default()
    };
    for (position, &coefficient) in (0..).zip(coefficients) {
        if coefficient != 0 {
            sum.terms[usize::from(sum.count)] = (position, coefficient);
            sum.count += 1;
        }
    }
    sum
}

/// The default's output.
fn default(outputs: Vec<Output>) -> DefaultOutput {
    match outputs[..] {
        [Output::Sum(Sum {
            constant,
            terms: [(_, coefficient), ..],
            ..
        })] => DefaultOutput::One {
            constant,
            coefficient,
        },
        _ => DefaultOutput::Many(outputs),
    }
}
