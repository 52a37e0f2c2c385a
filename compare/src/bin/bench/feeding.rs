//! Feeds of an input in pieces, and the finish: by both builds, by the machine written
//! for speed, and by the scanners that flex generates.

use std::hint::black_box;
use std::time::Duration;

use compare::builds::Build;
use compare::face::{Session, OK, OPEN};
use compare::fast::Fast;
use compare::flex::{scan, Tables};
use reference::compile::compiled;

use crate::inputs::{inputs, Input, DESCRIPTION, FILL, LENGTH};
use crate::tables::Table;
use crate::timing::{best, nanoseconds, worked};

/// The lengths of pieces, each with the runs of which the best counts.
const PIECES: [(usize, usize); 2] = [(1 << 16, 100), (16, 25)];

/// Who converts.
#[derive(Clone, Copy)]
enum By {
    /// A build of the library.
    Library(&'static Build),
    /// The machine written for speed.
    Rust,
    /// A scanner that flex generates.
    Flex(Tables),
}

/// What a run came to: the number of characters in the buffer, and the session, which
/// scanners don't have.
struct Fed {
    session: Option<Session>,
    written: usize,
    time: Duration,
}

/// An input, for scanners also in bytes, the machine of its table, and a buffer for all
/// of its output.
struct Feeding {
    input: Input,
    bytes: Vec<u8>,
    words: Vec<u16>,
    fast: Fast,
    output: Vec<u16>,
}

/// Prints the times.
pub fn print() {
    println!("## Feed and finish");
    println!();
    println!(
        "In nanoseconds a character, {LENGTH} characters {DESCRIPTION}. Pieces of 65,536 characters, best of {} \
         runs, and of 16, best of {}. All write into one buffer of E × ({LENGTH} + 8) characters, which is filled before each run, \
         outside the time.",
        PIECES[0].1, PIECES[1].1
    );
    println!();
    let table = Table::new(&["input", "piece"], &["Rust", "flex", "flex -Cfa"], &[], 2);
    for (piece, runs) in PIECES {
        for input in inputs() {
            let mut feeding = Feeding::of(input);
            let times = nanoseconds(&feeding.times(piece, runs), LENGTH);
            let subject = [feeding.input.name, &piece.to_string()];
            feeding.input.print_row(&table, &subject, &times);
        }
    }
}

impl Feeding {
    /// An input with what is needed to feed it.
    fn of(input: Input) -> Feeding {
        let words = compiled(&input.table).expect("the tables compile");
        let byte = |&character: &u16| u8::try_from(character).expect("characters of one byte");
        let scanned = if input.scanned { &input.text[..] } else { &[] };
        Feeding {
            bytes: scanned.iter().map(byte).collect(),
            fast: Fast::new(&words).expect("compiled words are sound"),
            words,
            output: vec![FILL; input.most_outputs() * (LENGTH + 8)],
            input,
        }
    }

    /// The best times of all who can convert the input, whose sessions and texts are
    /// compared.
    fn times(&mut self, piece: usize, runs: usize) -> Vec<Duration> {
        let expected = self.run(By::Rust, piece);
        let text = self.output[..expected.written].to_vec();
        let builds = self.input.builds().into_iter();
        let mut contenders: Vec<By> = builds.map(By::Library).chain([By::Rust]).collect();
        if self.input.scanned {
            contenders.extend([Tables::Usual, Tables::Fastest].map(By::Flex));
        }
        best(runs, &contenders, |by| {
            let fed = self.run(by, piece);
            assert!(fed.session.is_none() || fed.session == expected.session);
            assert!(self.output[..fed.written] == text, "another text");
            fed.time
        })
    }

    /// A run over the input, whose text is then in the buffer.
    fn run(&mut self, by: By, piece: usize) -> Fed {
        self.output.fill(FILL);
        match by {
            By::Library(build) => self.by_library(build, piece),
            By::Rust => self.by_fast(piece),
            By::Flex(tables) => self.by_flex(tables, piece),
        }
    }

    /// By a build of the library.
    fn by_library(&mut self, build: &Build, piece: usize) -> Fed {
        let (words, output) = (black_box(&self.words[..]), &mut self.output);
        let (mut session, mut written, mut count) = (Session::FRESH, 0, 0);
        let ((), time) = worked(|| {
            for piece in black_box(&self.input.text[..]).chunks(piece) {
                let room = &mut output[written..];
                let answer = build.feed(words, &mut session, piece, room, &mut count);
                assert_eq!(answer, OPEN, "{}", build.name);
                written += count as usize;
            }
            let answer = build.finish(words, &mut session, &mut output[written..], &mut count);
            assert_eq!(answer, OK, "{}", build.name);
            written += count as usize;
        });
        Fed {
            session: Some(session),
            written,
            time,
        }
    }

    /// By the machine written for speed.
    fn by_fast(&mut self, piece: usize) -> Fed {
        let (fast, output) = (black_box(&self.fast), &mut self.output);
        let (mut session, mut written) = (Session::FRESH, 0);
        let ((), time) = worked(|| {
            for piece in black_box(&self.input.text[..]).chunks(piece) {
                written += fast.feed(&mut session, piece, &mut output[written..]);
            }
            written += fast.finish(&mut session, &mut output[written..]);
        });
        Fed {
            session: Some(session),
            written,
            time,
        }
    }

    /// By a scanner that flex generates.
    fn by_flex(&mut self, tables: Tables, piece: usize) -> Fed {
        let (bytes, output) = (black_box(&self.bytes[..]), &mut self.output);
        let (written, time) = worked(|| scan(tables, bytes, piece, output));
        Fed {
            session: None,
            written,
            time,
        }
    }
}
