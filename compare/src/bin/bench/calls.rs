//! What a feed costs, whatever its piece: of no character and of one.

use std::hint::black_box;
use std::time::Duration;

use compare::builds::{Build, NOW};
use compare::cases::large_table;
use compare::face::{Session, OPEN};
use reference::compile::compiled;
use reference::samples::t1;

use crate::inputs::mixed;
use crate::tables::Table;
use crate::timing::{best, nanoseconds, worked};
use crate::versions::BUILDS;

/// Calls that are worked together.
const CALLS: usize = 1000;
/// Runs of so many calls, of which the best counts.
const RUNS: usize = 100;

/// Prints the times.
pub fn print() {
    println!("## Single calls");
    println!();
    println!(
        "In nanoseconds a feed, best of {RUNS} runs of {CALLS} feeds. Those of one character are of a mix under T1, and of a \
         character that begins a pattern of eight under the table at the limits."
    );
    println!();
    let table = Table::new(&["words", "feed of"], &[], &[], 0);
    let mut mix = mixed();
    mix.truncate(CALLS);
    print_rows(&table, "T1: 10 classes, 9 states", &t1(), &mix);
    print_rows(
        &table,
        "64 classes, 256 states",
        &large_table(0, 7),
        &[0; CALLS],
    );
}

/// Prints the times under a table for an input on which it doesn't stop.
fn print_rows(table: &Table, name: &str, rules: &[u8], input: &[u16]) {
    let words = compiled(rules).expect("the table compiles");
    let none = vec![&input[..0]; CALLS];
    let single: Vec<&[u16]> = input.chunks(1).collect();
    for (piece, pieces) in [("no character", none), ("one character", single)] {
        let (expected, _) = feeds(&NOW, &words, &pieces);
        let times = best(RUNS, &BUILDS, |build| {
            let (session, time) = feeds(build, &words, &pieces);
            assert_eq!(session, expected, "{}", build.name);
            time
        });
        table.print_row(&[name, piece], &nanoseconds(&times, CALLS), &[]);
    }
}

/// Feeds the pieces to a fresh session; what becomes of it, and the time.
fn feeds(build: &Build, words: &[u16], pieces: &[&[u16]]) -> (Session, Duration) {
    let (mut session, mut output, mut count) = (Session::FRESH, [0; 80], 0);
    let (open, time) = worked(|| {
        pieces.iter().all(|piece| {
            let words = black_box(words);
            build.feed(words, &mut session, piece, &mut output, &mut count) == OPEN
        })
    });
    assert!(open, "{}: an open session", build.name);
    (session, time)
}
