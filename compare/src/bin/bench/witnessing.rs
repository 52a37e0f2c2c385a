//! Live and dead rules: every rule of a table, by both builds and by the independent
//! version. Each call compiles the table.

use std::hint::black_box;
use std::time::Duration;

use compare::cases::large_table;
use compare::face::{Input, INPUT_SIZE, OK};
use reference::compile::compiled;
use reference::samples::t1;
use reference::witness;
use reference::words::WORDS;

use crate::inputs::FILL;
use crate::tables::Table;
use crate::timing::{best, microseconds, worked};
use crate::versions::Version;

/// How often all rules are asked about together.
const ROUNDS: usize = 4;
/// Runs of so many rounds, of which the best counts.
const RUNS: usize = 100;

/// Prints the times.
pub fn print() {
    println!("## Rules that can be chosen");
    println!();
    println!(
        "A call for each rule of a table, in microseconds for all of them, best of {RUNS} runs of {ROUNDS} rounds. All compile into \
         one buffer of {WORDS} words at each call."
    );
    println!();
    let table = Table::new(&["table"], &["independent"], &["now, a rule"], 1);
    let tables = [
        ("T1: 3 rules, 10 classes, 9 states", t1(), 3),
        ("32 rules, 64 classes, 256 states", large_table(0, 7), 32),
    ];
    for (name, rules, count) in tables {
        let times = microseconds(&times(&rules, count), ROUNDS);
        table.print_row(&[name], &times, &[times[1] / f64::from(count)]);
    }
}

/// The best times of asking about all rules, which are live.
fn times(rules: &[u8], count: u32) -> Vec<Duration> {
    let expected = compiled(rules).expect("the table compiles");
    let mut words = vec![FILL; WORDS];
    best(RUNS, &Version::ALL, |version| {
        words.fill(FILL);
        let mut ask = |rule| is_live(version, black_box(rules), &mut words, rule);
        let mut round = || (0..count).all(&mut ask);
        let (live, time) = worked(|| (0..ROUNDS).all(|_| round()));
        assert!(live, "{}: a dead rule", version.name());
        assert!(words == expected, "{}: other words", version.name());
        time
    })
}

/// Whether a rule is live.
fn is_live(version: Version, rules: &[u8], words: &mut [u16], rule: u32) -> bool {
    match version {
        Version::Library(build) => {
            let mut input = Input {
                length: FILL,
                characters: [FILL; INPUT_SIZE],
            };
            let answer = build.witness(rules, words, rule, &mut input);
            black_box(input);
            answer == OK
        }
        Version::Independent => {
            let answer = witness::witness(rules, words, rule).expect("the tables compile");
            black_box(answer).is_some()
        }
    }
}
