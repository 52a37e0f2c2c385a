//! The inputs, with the tables for them. The characters are of one byte each, but for
//! those of two units under a marked default.

use compare::builds::Build;
use compare::face::OK;
use reference::builder::characters;
use reference::random::Random;
use reference::samples::{t1, t1_marked, two_digits};
use reference::table;
use reference::words::WORDS;

use crate::tables::Table;
use crate::versions::BUILDS;

/// Characters of an input.
pub const LENGTH: usize = 1 << 20;

/// What every place of a buffer holds before a run.
pub const FILL: u16 = 0xa5a5;

/// An input and the table that it is converted under.
pub struct Input {
    /// What the input is.
    pub name: &'static str,
    /// The table's bytes.
    pub table: Vec<u8>,
    /// The characters.
    pub text: Vec<u16>,
    /// Whether the scanners that flex generates have the table's rules.
    pub scanned: bool,
}

impl Input {
    /// An input under T1.
    fn of_t1(name: &'static str, text: Vec<u16>) -> Input {
        Input {
            name,
            table: t1(),
            text,
            scanned: true,
        }
    }

    /// An input under T1 with a marked default.
    fn of_marked_t1(name: &'static str, text: Vec<u16>) -> Input {
        Input {
            name,
            table: t1_marked(),
            text,
            scanned: false,
        }
    }

    /// E of the table.
    pub fn most_outputs(&self) -> usize {
        let table = table::Table::read(&self.table).expect("the tables are accepted");
        table.most_outputs()
    }

    /// The builds that know the table, that of before first.
    pub fn builds(&self) -> Vec<&'static Build> {
        let compiles = |build: &&Build| build.compile(&self.table, &mut vec![0; WORDS]) == OK;
        BUILDS.into_iter().filter(compiles).collect()
    }

    /// Prints the times of these builds and of rivals.
    pub fn print_row(&self, table: &Table, subject: &[&str], times: &[f64]) {
        if self.builds().len() == BUILDS.len() {
            table.print_row(subject, times, &[]);
        } else {
            table.print_new_row(subject, times);
        }
    }
}

/// What the inputs are, for the words before a table of times.
pub const DESCRIPTION: &str = "under T1, marked or not, and bytes as two digits";

/// The inputs.
pub fn inputs() -> [Input; 8] {
    [
        Input::of_t1("plain text", plain()),
        Input::of_t1("`&#38;` repeated", repeated("&#38;")),
        Input::of_t1("`&#4` repeated", repeated("&#4")),
        Input::of_t1("a mix", mixed()),
        Input {
            name: "bytes as two digits",
            table: two_digits(),
            text: bytes(),
            scanned: false,
        },
        Input::of_marked_t1("plain text, marked", plain()),
        Input::of_marked_t1("pairs, marked", pairs()),
        Input::of_marked_t1(
            "a mix with pairs, marked",
            mix_of(&[&PARTS[..], &WAVES].concat()),
        ),
    ]
}

/// Words, matches and beginnings of matches.
const PARTS: [&str; 8] = [
    "The ", "water ", "214 cm. ", "&#38;", "&#00;", "&#4", "&#", "&",
];

/// Characters of two units, alone and in a row.
const WAVES: [&str; 3] = ["🌊", "🌊🌍", "🌡🌧🌊🌬"];

/// Characters of two units of every value from a fixed seed.
fn pairs() -> Vec<u16> {
    let mut random = Random::new(3);
    let any = || char::from_u32(random.between(0x10000, 0x10FFFF) as u32);
    let text: String = std::iter::repeat_with(any)
        .flatten()
        .take(LENGTH / 2)
        .collect();
    characters(&text)
}

/// Bytes of every value from a fixed seed.
fn bytes() -> Vec<u16> {
    let mut random = Random::new(2);
    (0..LENGTH).map(|_| random.below(256) as u16).collect()
}

/// Text in which no pattern begins.
pub fn plain() -> Vec<u16> {
    repeated("The water stands at 214 cm. ")
}

/// A text over and over.
fn repeated(text: &str) -> Vec<u16> {
    characters(text).into_iter().cycle().take(LENGTH).collect()
}

/// Words, matches and beginnings of matches in an order from a fixed seed.
pub fn mixed() -> Vec<u16> {
    mix_of(&PARTS)
}

/// Parts in an order from a fixed seed.
fn mix_of(parts: &[&str]) -> Vec<u16> {
    let mut random = Random::new(1);
    let mut input = Vec::new();
    while input.len() < LENGTH {
        input.extend(characters(random.pick::<&str>(parts)));
    }
    input.truncate(LENGTH);
    input
}
