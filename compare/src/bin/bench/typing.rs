//! Reading typed texts, by both builds and by the independent version.

use std::hint::black_box;
use std::time::Duration;

use compare::face::TABLE_SIZE;
use compare::typed::longest_text;
use reference::builder::characters;
use reference::typed::from_text;

use crate::inputs::LENGTH;
use crate::tables::Table;
use crate::timing::{best, nanoseconds, worked};
use crate::versions::{number, Version};

/// Runs of each reading, of which the best counts.
const RUNS: usize = 50;
/// What every byte of the buffer is before a run.
const FILL: u8 = 0xa5;

/// Prints the times.
pub fn print() {
    println!("## Reading typed rules");
    println!();
    println!(
        "In nanoseconds a character, best of {RUNS} runs. All write into one buffer of {TABLE_SIZE} bytes, which is filled before each run, \
         outside the time."
    );
    println!();
    let table = Table::new(
        &["text", "characters", "answer"],
        &["independent"],
        &["now, ms a text"],
        2,
    );
    let texts = [
        ("lines over and over, 17 at the end", refused_at_end()),
        ("the longest table, 3377 records", longest_text()),
    ];
    for (name, text) in texts {
        let (answer, times) = times(&text);
        let subject = [name, &text.len().to_string(), &answer.to_string()];
        let whole = times[1].as_secs_f64() * 1e3;
        table.print_row(&subject, &nanoseconds(&times, text.len()), &[whole]);
    }
}

/// A text of 1,048,576 characters: the second rule of T1 over and over, blanks, and
/// a line that is refused by 17.
fn refused_at_end() -> Vec<u16> {
    let line = characters("\"&#[0-9][0-9];\" ==> [10*x2 + x3 - 528];\n");
    let end = characters("\"a\" ==> [x0*x0];");
    let mut text = line.repeat((LENGTH - end.len()) / line.len());
    text.resize(LENGTH - end.len(), 32);
    text.extend(end);
    text
}

/// What a text is answered, and the best times of all, whose answers and buffers are
/// compared.
fn times(text: &[u16]) -> (u32, Vec<Duration>) {
    let mut table = [FILL; TABLE_SIZE];
    let answer = read(Version::Independent, text, &mut table);
    let expected = table;
    let times = best(RUNS, &Version::ALL, |version| {
        table.fill(FILL);
        let (other, time) = worked(|| read(version, black_box(text), &mut table));
        assert_eq!(other, answer, "{}", version.name());
        assert!(table == expected, "{}: another table", version.name());
        time
    });
    (answer, times)
}

/// Reads a text; the answer's number.
fn read(version: Version, text: &[u16], table: &mut [u8]) -> u32 {
    match version {
        Version::Library(build) => build.from_text(text, table, &mut 0),
        Version::Independent => number(from_text(text, table)),
    }
}
