//! The test of words, beside merely reading the words that it looks at.

use std::hint::black_box;
use std::time::Duration;

use compare::builds::Build;
use compare::cases::large_table;
use compare::orders::{depths_fall, renumbered};
use reference::compile::compiled;
use reference::samples::t1;
use reference::words::Words;

use crate::tables::Table;
use crate::timing::{best, nanoseconds, worked};
use crate::versions::BUILDS;

/// Calls that are worked together.
const CALLS: usize = 1000;
/// Runs of so many calls, of which the best counts.
const RUNS: usize = 100;

/// Who looks at the words.
#[derive(Clone, Copy)]
enum By {
    /// The test of a build.
    Test(&'static Build),
    /// A loop that merely reads them.
    Reading,
}

/// Prints the times.
pub fn print() {
    println!("## The test of words");
    println!();
    println!(
        "In nanoseconds a call, best of {RUNS} runs of {CALLS} calls. \"Reading\" is a loop in Rust over the words that the test \
         looks at, which puts them together by `|`."
    );
    println!();
    let table = Table::new(
        &["words", "looked at"],
        &["reading"],
        &["now, a word", "reading, a word"],
        0,
    );
    let largest = words_of(&large_table(0, 7));
    print_row(&table, "T1: 10 classes, 9 states", &words_of(&t1()));
    print_row(&table, "64 classes, 256 states", &largest);
    print_row(
        &table,
        "the same, numbered chain after chain",
        &deep_first(&largest),
    );
}

/// The words of a table.
fn words_of(table: &[u8]) -> Vec<u16> {
    compiled(table).expect("the table compiles")
}

/// Prints the times for sound words.
fn print_row(table: &Table, name: &str, words: &[u16]) {
    let [before, now] = BUILDS.map(By::Test);
    let times = best(RUNS, &[before, now, By::Reading], |by| look(by, words));
    let times = nanoseconds(&times, CALLS);
    let count = looked_at(words);
    let a_word = [times[1], times[2]].map(|time| time / count as f64);
    table.print_row(&[name, &count.to_string()], &times, &a_word);
}

/// The time of looking at the words over and over.
fn look(by: By, words: &[u16]) -> Duration {
    match by {
        By::Test(build) => {
            let test = |_| build.is_sound(black_box(words)) == 1;
            let (sound, time) = worked(|| (0..CALLS).all(test));
            assert!(sound, "{}: sound words", build.name);
            time
        }
        By::Reading => {
            let read = |_| _ = black_box(read(black_box(words)));
            worked(|| (0..CALLS).for_each(read)).1
        }
    }
}

/// How many words the test looks at.
fn looked_at(words: &[u16]) -> usize {
    let mut count = 0;
    for_each_part(words, |part| count += part.len());
    count
}

/// Reads the words that the test looks at.
fn read(words: &[u16]) -> u16 {
    let mut all = 0;
    for_each_part(words, |part| {
        all |= part.iter().fold(0, |all, word| all | word);
    });
    all
}

/// Hands on what the test looks at of sound words, part by part: the header, the class
/// starts in use, the states, the targets of each by the classes, and of the blocks in
/// use the first three words and of each output character the sort, and for a digit
/// the shift and the coefficients of the positions.
fn for_each_part(words: &[u16], mut visit: impl FnMut(&[u16])) {
    let [states, classes, rules] = [words[0], words[1], words[4]].map(usize::from);
    visit(&words[..6]);
    visit(&words[6..][..classes]);
    visit(&words[70..][..3 * states]);
    for state in 0..states {
        visit(&words[838 + 64 * state..][..classes]);
    }
    let default = (words[5] != 0).then_some(32);
    for block in (0..rules).chain(default) {
        let block = &words[17222 + 83 * block..][..83];
        let [length, outputs] = [block[0], block[2]].map(usize::from);
        visit(&block[..3]);
        for entry in block[3..].chunks_exact(10).take(outputs) {
            visit(match entry[0] {
                0 => &entry[..1],
                _ => &entry[..2 + length],
            });
        }
    }
}

/// The same machine, whose states form a tree, with its states numbered as a walk meets
/// them that goes as deep as it can before it turns back. Each target still exceeds its
/// state, and so the words are sound; but depths fall where the walk turns, which they
/// never do in compiled words.
fn deep_first(words: &[u16]) -> Vec<u16> {
    let classes = usize::from(words[1]);
    let targets = |state: usize| &words[838 + 64 * state..][..classes];
    let mut walk = Vec::new();
    let mut left = vec![0];
    while let Some(state) = left.pop() {
        walk.push(state);
        let mut next = targets(state).to_vec();
        next.retain(|&target| target != 0);
        next.dedup();
        left.extend(next.into_iter().rev().map(usize::from));
    }
    let renumbered = renumbered(words, &walk);
    assert!(depths_fall(&renumbered) && Words::sound(&renumbered).is_ok());
    renumbered
}
