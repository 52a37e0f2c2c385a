//! Chains of two tables over an input in pieces, and the finish, beside the feeds and
//! finishes of both machines made one after the other.

use std::hint::black_box;
use std::time::Duration;

use compare::builds::{Link, CHAINS, NOW};
use compare::face::{Session, OK, OPEN};
use reference::compile::compiled;
use reference::samples::{t1, two_digits};
use reference::table;

use crate::inputs::{mixed, plain, FILL, LENGTH};
use crate::tables::Table;
use crate::timing::{best, nanoseconds, worked};

/// The lengths of pieces, each with the runs of which the best counts.
const PIECES: [(usize, usize); 2] = [(1 << 16, 100), (16, 25)];

/// The most characters that a machine holds.
const HELD: usize = 8;

/// What is timed.
#[derive(Clone, Copy)]
enum By {
    /// The calls of a chain.
    Chain,
    /// The first's feed, and the second's feed of what it wrote.
    Feeds,
}

/// An input, two machines, and buffers for the first's text of a call and for all that
/// the second writes.
struct Chaining {
    text: Vec<u16>,
    words: [Vec<u16>; 2],
    middle: Vec<u16>,
    output: Vec<u16>,
}

/// Prints the times.
pub fn print() {
    println!("## Two tables in a row");
    println!();
    println!(
        "Chains beside the feeds of both machines, in nanoseconds a character of the input, {LENGTH} characters. Pieces of 65,536 \
         characters, best of {} runs, and of 16, best of {}. Both write into one middle buffer and one output, which is filled before each run, \
         outside the time.",
        PIECES[0].1, PIECES[1].1
    );
    println!();
    let table = Table::new(&["input, tables", "piece"], &["two feeds"], &[], 2);
    let subjects = [
        (
            "plain text, T1 and bytes as two digits",
            plain(),
            two_digits(),
        ),
        ("a mix, T1 and bytes as two digits", mixed(), two_digits()),
        ("a mix, T1 and T1", mixed(), t1()),
    ];
    for (piece, runs) in PIECES {
        for (name, text, second) in &subjects {
            let mut chaining = Chaining::of(text, [&t1(), second], piece);
            let times = nanoseconds(&chaining.times(piece, runs), LENGTH);
            table.print_new_row(&[name, &piece.to_string()], &times);
        }
    }
}

/// E of a table.
fn most_outputs(table: &[u8]) -> usize {
    let table = table::Table::read(table).expect("the tables are accepted");
    table.most_outputs()
}

impl Chaining {
    /// An input with what is needed to feed it in pieces of a length. The output has room
    /// for the whole text, and behind it for what the last call asks.
    fn of(text: &[u16], tables: [&[u8]; 2], piece: usize) -> Chaining {
        let [first_most, second_most] = tables.map(most_outputs);
        let middle = first_most * (piece + HELD);
        Chaining {
            text: text.to_vec(),
            words: tables.map(|table| compiled(table).expect("the tables compile")),
            middle: vec![FILL; middle],
            output: vec![FILL; second_most * (LENGTH + HELD + middle)],
        }
    }

    /// The best times of both, whose sessions and texts are compared.
    fn times(&mut self, piece: usize, runs: usize) -> Vec<Duration> {
        let (sessions, written, _) = self.run(By::Feeds, piece);
        let text = self.output[..written].to_vec();
        best(runs, &[By::Chain, By::Feeds], |by| {
            let (left, count, time) = self.run(by, piece);
            assert_eq!(left, sessions);
            assert!(self.output[..count] == text, "another text");
            time
        })
    }

    /// A run over the input, whose text is then in the output: the sessions, how much was
    /// written, and the time.
    fn run(&mut self, by: By, piece: usize) -> ([Session; 2], usize, Duration) {
        self.output.fill(FILL);
        let mut sessions = [Session::FRESH; 2];
        let (written, time) = worked(|| match by {
            By::Chain => self.by_chain(&mut sessions, piece),
            By::Feeds => self.by_feeds(&mut sessions, piece),
        });
        (sessions, written, time)
    }

    /// By the calls of a chain; how much was written.
    fn by_chain(&mut self, sessions: &mut [Session; 2], piece: usize) -> usize {
        let words = black_box(&self.words);
        let (middle, output) = (&mut self.middle[..], &mut self.output[..]);
        let (mut written, mut count, mut first) = (0, 0, 0);
        for piece in black_box(&self.text[..]).chunks(piece) {
            let (links, room) = (links(words, sessions), &mut output[written..]);
            let second = CHAINS.feed(links, piece, middle, room, &mut count, &mut first);
            assert_eq!((first, second), (OPEN, OPEN));
            written += count as usize;
        }
        let (links, room) = (links(words, sessions), &mut output[written..]);
        let second = CHAINS.finish(links, middle, room, &mut count, &mut first);
        assert_eq!((first, second), (OK, OK));
        written + count as usize
    }

    /// By the feeds and finishes of both machines; how much was written.
    fn by_feeds(&mut self, sessions: &mut [Session; 2], piece: usize) -> usize {
        let [first_words, second_words] = black_box(&self.words);
        let (middle, output) = (&mut self.middle[..], &mut self.output[..]);
        let [first, second] = sessions;
        let (mut written, mut given, mut count) = (0, 0, 0);
        for piece in black_box(&self.text[..]).chunks(piece) {
            let answer = NOW.feed(first_words, first, piece, middle, &mut given);
            assert_eq!(answer, OPEN);
            let (text, room) = (&middle[..given as usize], &mut output[written..]);
            let answer = NOW.feed(second_words, second, text, room, &mut count);
            assert_eq!(answer, OPEN);
            written += count as usize;
        }
        let answer = NOW.finish(first_words, first, middle, &mut given);
        assert_eq!(answer, OK);
        let (text, room) = (&middle[..given as usize], &mut output[written..]);
        let answer = NOW.feed(second_words, second, text, room, &mut count);
        assert_eq!(answer, OPEN);
        written += count as usize;
        let answer = NOW.finish(second_words, second, &mut output[written..], &mut count);
        assert_eq!(answer, OK);
        written + count as usize
    }
}

/// Both machines, as a call is lent them.
fn links<'l>(words: &'l [Vec<u16>; 2], sessions: &'l mut [Session; 2]) -> [Link<'l>; 2] {
    let [first, second] = sessions;
    [(&words[0], first), (&words[1], second)].map(|(words, session)| Link { words, session })
}
