//! Previews of an input in pieces, by both builds, beside the feeds of the same pieces,
//! each from the session that the last one left or saw.

use std::hint::black_box;
use std::time::Duration;

use compare::builds::{Build, NOW};
use compare::face::{Session, OPEN};
use reference::compile::compiled;

use crate::inputs::{inputs, Input, DESCRIPTION, FILL, LENGTH};
use crate::tables::Table;
use crate::timing::{best, nanoseconds, worked};

/// The lengths of pieces, each with the runs of which the best counts.
const PIECES: [(usize, usize); 2] = [(1 << 16, 100), (16, 25)];

/// What is timed.
#[derive(Clone, Copy)]
enum Call {
    /// Previews by a build.
    Preview(&'static Build),
    /// Feeds by a build.
    Feed(&'static Build),
}

/// Prints the times.
pub fn print() {
    println!("## Previews");
    println!();
    println!(
        "Previews beside the feeds of the same pieces, in nanoseconds a character, {LENGTH} characters {DESCRIPTION}. Pieces of 65,536 characters, best of {} runs, and of 16, best of {}. \"Feed\" is that of now.",
        PIECES[0].1, PIECES[1].1
    );
    println!();
    let table = Table::new(&["input", "piece"], &["feed"], &[], 2);
    for (piece, runs) in PIECES {
        for input in inputs() {
            let times = nanoseconds(&times(&input, piece, runs), LENGTH);
            input.print_row(&table, &[input.name, &piece.to_string()], &times);
        }
    }
}

/// The best times of all, whose sessions and counts are compared.
fn times(input: &Input, piece: usize, runs: usize) -> Vec<Duration> {
    let words = compiled(&input.table).expect("the tables compile");
    let mut output = vec![FILL; input.most_outputs() * (piece + 8)];
    let expected = feeds(&NOW, &words, &input.text, piece, &mut output);
    let previews_by = input.builds().into_iter().map(Call::Preview);
    let calls: Vec<Call> = previews_by.chain([Call::Feed(&NOW)]).collect();
    best(runs, &calls, |call| {
        let (left, time) = worked(|| match call {
            Call::Preview(build) => previews(build, &words, &input.text, piece),
            Call::Feed(build) => feeds(build, &words, &input.text, piece, &mut output),
        });
        assert_eq!(left, expected);
        time
    })
}

/// Feeds the pieces; the session, and how much was written in all.
fn feeds(
    build: &Build,
    words: &[u16],
    text: &[u16],
    piece: usize,
    output: &mut [u16],
) -> (Session, u64) {
    let (mut session, mut total, mut count) = (Session::FRESH, 0, 0);
    for piece in black_box(text).chunks(piece) {
        let answer = build.feed(black_box(words), &mut session, piece, output, &mut count);
        assert_eq!(answer, OPEN, "{}", build.name);
        total += count;
    }
    (session, total)
}

/// Previews the pieces likewise. Two sessions take turns, so that none is copied.
fn previews(build: &Build, words: &[u16], text: &[u16], piece: usize) -> (Session, u64) {
    let (mut session, mut later) = (Session::FRESH, Session::FRESH);
    let (mut total, mut count) = (0, 0);
    for piece in black_box(text).chunks(piece) {
        let answer = build.preview(black_box(words), &session, piece, &mut later, &mut count);
        assert_eq!(answer, OPEN, "{}", build.name);
        total += count;
        std::mem::swap(&mut session, &mut later);
    }
    (session, total)
}
