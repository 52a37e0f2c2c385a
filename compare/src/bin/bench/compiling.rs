//! Compiling, by both builds and by the independent version.

use std::hint::black_box;
use std::time::Duration;

use compare::cases::large_table;
use compare::face::OK;
use reference::compile::{self, compiled};
use reference::samples::t1;
use reference::words::WORDS;

use crate::inputs::FILL;
use crate::tables::Table;
use crate::timing::{best, microseconds, worked};
use crate::versions::{number, Version};

/// Calls that are worked together.
const CALLS: usize = 20;
/// Runs of so many calls, of which the best counts.
const RUNS: usize = 200;

/// Prints the times.
pub fn print() {
    println!("## Compiling");
    println!();
    println!(
        "In microseconds a table, best of {RUNS} runs of {CALLS} calls. All write into one buffer of {WORDS} words, which is filled \
         before each run, outside the time."
    );
    println!();
    let table = Table::new(&["table"], &["independent"], &[], 1);
    let tables = [
        ("T1: 10 classes, 9 states", t1()),
        ("64 classes, 256 states", large_table(0, 7)),
    ];
    for (name, rules) in tables {
        table.print_row(&[name], &microseconds(&times(&rules), CALLS), &[]);
    }
}

/// The best times of all, whose words are compared.
fn times(rules: &[u8]) -> Vec<Duration> {
    let expected = compiled(rules).expect("the table compiles");
    let mut words = vec![FILL; WORDS];
    best(RUNS, &Version::ALL, |version| {
        words.fill(FILL);
        let mut call = || compile(version, black_box(rules), &mut words) == OK;
        let (compiled, time) = worked(|| (0..CALLS).all(|_| call()));
        assert!(compiled, "{}: refused", version.name());
        assert!(words == expected, "{}: other words", version.name());
        time
    })
}

/// Compiles a table; the answer's number.
fn compile(version: Version, rules: &[u8], words: &mut [u16]) -> u32 {
    match version {
        Version::Library(build) => build.compile(rules, words),
        Version::Independent => number(compile::compile(rules, words)),
    }
}
