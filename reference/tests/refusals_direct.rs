//! The refusals of direct conversion: "1 to 7, 14, 15", and what they do to the
//! output buffer.

use reference::direct::{accepted_table, convert, refusal_for_lengths};
use reference::refusal::Refusal;
use reference::samples::{refused_tables, t1, t1_with, t2};

const LIMIT: u64 = 1_099_511_627_776;

#[test]
fn each_refusal_of_the_table_leaves_the_output_as_found() {
    for (number, table) in refused_tables() {
        let mut output = [7; 8];
        let refusal = convert(&table, &[97], &mut output).expect_err("a refusal");
        assert_eq!(refusal.number(), number);
        assert_eq!(output, [7; 8]);
    }
}

#[test]
fn refusal_14_an_input_above_the_limit() {
    assert_eq!(refusal_for_lengths(0, LIMIT, 0), None);
    assert_eq!(refusal_for_lengths(0, LIMIT + 1, 0), Some(Refusal::TooLong));
    assert_eq!(
        refusal_for_lengths(8, u64::MAX, u64::MAX),
        Some(Refusal::TooLong)
    );
}

#[test]
fn refusal_15_an_output_shorter_than_e_times_the_input() {
    for most_outputs in 1..=8 {
        let needed = most_outputs as u64 * LIMIT;
        assert_eq!(refusal_for_lengths(most_outputs, LIMIT, needed), None);
        assert_eq!(
            refusal_for_lengths(most_outputs, LIMIT, needed - 1),
            Some(Refusal::ShortOutput)
        );
    }
    // T1's E is 5.
    let mut output = [7; 15];
    let short = convert(&t1(), &[97; 3], &mut output[..14]);
    assert_eq!(short, Err(Refusal::ShortOutput));
    assert_eq!(output, [7; 15]);
    assert_eq!(convert(&t1(), &[97; 3], &mut output).unwrap().count, 3);
    assert_eq!(output[..4], [97, 97, 97, 7]);
}

#[test]
fn order_7_then_14() {
    let table = t1_with(-529);
    assert_eq!(accepted_table(&table, LIMIT + 1, 0), Err(Refusal::Value));
    assert_eq!(accepted_table(&t1(), LIMIT + 1, 0), Err(Refusal::TooLong));
}

#[test]
fn order_14_then_15() {
    assert_eq!(refusal_for_lengths(1, LIMIT + 1, 0), Some(Refusal::TooLong));
    assert_eq!(refusal_for_lengths(1, LIMIT, 0), Some(Refusal::ShortOutput));
}

#[test]
fn an_empty_input_needs_no_output() {
    assert_eq!(convert(&t2(), &[], &mut []).unwrap().count, 0);
    assert_eq!(convert(&t2(), &[97], &mut []), Err(Refusal::ShortOutput));
}
