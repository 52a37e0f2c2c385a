//! The machine written for speed against the independent version: the benchmark
//! times a machine that does the whole job.

use compare::calls::{by_reference, next_piece, roomy_feed, ROOMY_FINISH};
use compare::cases::{examples, sound_tables};
use compare::face::{Session, OK, OPEN, STOPPED};
use compare::fast::Fast;
use reference::builder::encode;
use reference::compile::compiled;
use reference::random::Random;
use reference::reckoning::Call;
use reference::refusal::Refusal;
use reference::samples::{random_input, random_marked_table};
use reference::table::Table;
use reference::words::WORDS;

/// The seed of the random tables.
const SEED: u64 = 1;
/// How many tables are compared.
const TABLES: usize = 2_000;

/// Feeds an input in random pieces and finishes, by both; answers the status.
fn compare(random: &mut Random, words: &[u16], mut input: &[u16]) -> u32 {
    let fast = Fast::new(words).expect("compiled words are sound");
    let mut session = Session::FRESH;
    while session.status == 0 {
        let call = if input.is_empty() {
            ROOMY_FINISH
        } else {
            roomy_feed(next_piece(random, &mut input))
        };
        let expected = by_reference(words, session, &call);
        assert!(matches!(expected.code, OK | STOPPED | OPEN));
        let mut output = vec![0; expected.output.len()];
        let count = match &call {
            Call::Feed { piece, .. } => fast.feed(&mut session, piece, &mut output),
            Call::Finish { .. } => fast.finish(&mut session, &mut output),
        };
        assert_eq!(session, expected.session, "{call:?}");
        assert_eq!(output[..count], *expected.text(), "{call:?}");
    }
    session.status
}

/// Compares tables, those that compile, each over an input; answers how many closed and
/// how many stopped.
fn compare_tables(random: &mut Random, tables: impl Iterator<Item = Table>) -> (usize, usize) {
    let (mut closed, mut stopped) = (0, 0);
    for table in tables {
        let Ok(words) = compiled(&encode(&table)) else {
            continue;
        };
        let length = random.below(200);
        let input = random_input(random, &table, length);
        match compare(random, &words, &input) {
            1 => closed += 1,
            _ => stopped += 1,
        }
    }
    (closed, stopped)
}

#[test]
fn random_tables() {
    let mut random = Random::new(SEED + 1);
    let (closed, stopped) = compare_tables(&mut random, sound_tables(SEED).take(TABLES));
    // A third of the tables has no default and stops on most inputs.
    assert!(closed >= TABLES / 3, "{closed}");
    assert!(stopped >= TABLES / 10, "{stopped}");
}

/// Nearly all of them compile, and none stops.
#[test]
fn marked_tables() {
    let mut random = Random::new(SEED + 3);
    let mut of_tables = Random::new(SEED + 4);
    let tables = std::iter::repeat_with(|| random_marked_table(&mut of_tables));
    let (closed, stopped) = compare_tables(&mut random, tables.take(TABLES));
    assert!(closed >= TABLES / 2, "{closed}");
    assert_eq!(stopped, 0);
}

#[test]
fn example_tables() {
    let mut random = Random::new(SEED + 2);
    for table in examples() {
        let words = compiled(&table).expect("the example tables compile");
        let table = Table::read(&table).expect("they are accepted");
        for _ in 0..500 {
            let length = random.below(100);
            let input = random_input(&mut random, &table, length);
            compare(&mut random, &words, &input);
        }
    }
}

#[test]
fn unsound_words_are_refused() {
    assert_eq!(Fast::new(&[0; WORDS]).err(), Some(Refusal::UnsoundWords));
}
