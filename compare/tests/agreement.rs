//! The proved library against the independent version: the same answer and the
//! same buffer, the whole of it, for every case.

use std::collections::BTreeMap;

use compare::both::convert;
use compare::cases::{cases, pattern, Case};
use compare::face::{OK, STOPPED};
use reference::samples::{digits_and_sums, lookahead, t1, t2, t3, two_digits};

/// The seed of the random cases.
const SEED: u64 = 1_099_511_627_776;
/// How many random cases are compared.
const CASES: usize = 200_000;

#[test]
fn random_and_damaged_cases() {
    let mut seen: BTreeMap<u32, usize> = BTreeMap::new();
    let (mut stopped_late, mut with_text, mut exact, mut rest_kept) = (0, 0, 0, 0);
    for case in cases(SEED).take(CASES) {
        let left = convert(&case);
        *seen.entry(left.code).or_default() += 1;
        if left.code == OK || left.code == STOPPED {
            let written = left.count as usize;
            stopped_late += usize::from(left.code == STOPPED && left.place > 0);
            with_text += usize::from(written > 0);
            exact += usize::from(written > 0 && written == case.output.len());
            rest_kept += usize::from(written > 0 && written < case.output.len());
        }
    }
    // Each answer that direct conversion has was met often, but for 14, which
    // takes an input of 2 TiB, and no other was.
    let met: Vec<u32> = seen.keys().copied().collect();
    assert_eq!(met, [OK, 1, 2, 3, 4, 5, 6, 7, 15, STOPPED]);
    let least = |code: u32| match code {
        OK => 20_000,
        STOPPED => 5_000,
        _ => 2_000,
    };
    assert!(
        seen.iter().all(|(&code, &times)| times >= least(code)),
        "{seen:?}"
    );
    assert!(stopped_late >= 3_000, "{stopped_late}");
    assert!(with_text >= 20_000, "{with_text}");
    assert!(exact >= 2_000, "{exact}");
    assert!(rest_kept >= 10_000, "{rest_kept}");
}

#[test]
fn a_seed_gives_the_same_cases_each_time_and_another_seed_others() {
    let some = |seed| cases(seed).take(1000).collect::<Vec<_>>();
    assert_eq!(some(SEED), some(SEED));
    assert_ne!(some(SEED), some(SEED + 1));
}

/// The example tables, each with an input that its rules meet.
fn examples() -> [(Vec<u8>, &'static str); 6] {
    [
        (t1(), "&&#00;&#38;&#4&#"),
        (t2(), "aaa"),
        (t3(), "abaabcaba"),
        (lookahead(), "aaabbaba"),
        (two_digits(), "\0\t\n09:AZ\u{99}\u{9a}\u{ff}"),
        (digits_and_sums(), "aZba\u{a9bc}baab"),
    ]
}

#[test]
fn every_change_of_one_byte_of_the_example_tables() {
    let mut accepted = 0;
    for (table, input) in examples() {
        let mut case = Case {
            input: input.encode_utf16().collect(),
            output: pattern(7, 8 * input.len()),
            table,
        };
        for place in 0..case.table.len() {
            let found = case.table[place];
            for byte in (0..=u8::MAX).filter(|&byte| byte != found) {
                case.table[place] = byte;
                let code = convert(&case).code;
                accepted += usize::from(code == OK || code == STOPPED);
            }
            case.table[place] = found;
        }
    }
    assert!(accepted >= 5_000, "{accepted}");
}

#[test]
fn every_cut_of_the_example_tables() {
    for (table, input) in examples() {
        for length in 0..=table.len() {
            convert(&Case {
                table: table[..length].to_vec(),
                input: input.encode_utf16().collect(),
                output: pattern(7, 8 * input.len()),
            });
        }
    }
}

#[test]
fn every_length_of_the_output_buffer() {
    for (table, input) in examples() {
        for room in 0..=8 * input.len() {
            convert(&Case {
                table: table.clone(),
                input: input.encode_utf16().collect(),
                output: pattern(7, room),
            });
        }
    }
}

/// Every input of a length over some characters.
fn inputs(letters: &[u16], length: usize) -> Vec<Vec<u16>> {
    (0..length).fold(vec![Vec::new()], |shorter, _| {
        let longer = |input: &Vec<u16>| {
            let input = input.clone();
            letters
                .iter()
                .map(move |&letter| [&input[..], &[letter]].concat())
        };
        shorter.iter().flat_map(longer).collect()
    })
}

#[test]
fn every_short_input_under_the_example_tables() {
    let tables = [
        (t1(), "&#03;", 6),
        (t2(), "ab", 8),
        (t3(), "abc", 8),
        (lookahead(), "abc", 8),
        (digits_and_sums(), "abZ", 8),
    ];
    for (table, letters, longest) in tables {
        let letters: Vec<u16> = letters.encode_utf16().collect();
        for length in 0..=longest {
            for input in inputs(&letters, length) {
                convert(&Case {
                    table: table.clone(),
                    output: pattern(7, 5 * length),
                    input,
                });
            }
        }
    }
}

#[test]
fn long_inputs() {
    for (table, input) in examples() {
        let input: Vec<u16> = input.encode_utf16().collect();
        let left = convert(&Case {
            table,
            output: pattern(7, 5 * 20_000 * input.len()),
            input: input.repeat(20_000),
        });
        assert_ne!(left.count, 0);
    }
}
