//! Definition 7 against a second reading of it, and direct conversion.

use reference::builder::{characters, encode, hexadecimal, TableBuilder};
use reference::direct::{self, Conversion};
use reference::meaning::{convert, Ending};
use reference::random::Random;
use reference::samples::{lookahead, random_input, random_marked_table, random_table};
use reference::table::{Group, Output, Table};

/// Definition 7 read a second time: lengths rising, then rule numbers, then under the
/// mark a pair, which is a number from 65536 on as Rust decodes it, then the default.
fn read_again(table: &Table, input: &[u16]) -> (Vec<u16>, usize, Ending) {
    let mut text = Vec::new();
    let mut place = 0;
    'places: while place < input.len() {
        for length in 1..=8.min(input.len() - place) {
            let word = &input[place..place + length];
            let last = place + length == input.len();
            for rule in &table.rules {
                if in_ranges(rule, word) && (last || !rule.anchored) {
                    write(rule, word, &mut text);
                    place += length;
                    continue 'places;
                }
            }
        }
        if table.marked && is_pair(&input[place..]) {
            text.extend_from_slice(&input[place..place + 2]);
            place += 2;
            continue;
        }
        match &table.default {
            Some(default) => write(default, &input[place..place + 1], &mut text),
            None => return (text, place, Ending::Stopped),
        }
        place += 1;
    }
    (text, place, Ending::Closed)
}

/// The table without the mark.
fn unmarked(table: &Table) -> Table {
    Table {
        marked: false,
        ..table.clone()
    }
}

/// Whether the first character that a text encodes is of two units.
fn is_pair(text: &[u16]) -> bool {
    let first = char::decode_utf16(text.iter().copied()).next();
    first.is_some_and(|decoded| decoded.is_ok_and(|decoded| decoded.len_utf16() == 2))
}

/// Whether the word has the rule's length and lies in its ranges.
fn in_ranges(rule: &Group, word: &[u16]) -> bool {
    let mut positions = rule.positions.iter().zip(word);
    rule.positions.len() == word.len()
        && positions.all(|(ranges, &c)| ranges.iter().any(|r| r.low <= c && c <= r.high))
}

/// Writes the output characters' values: sums in wide numbers, digits as Rust
/// writes them.
fn write(group: &Group, word: &[u16], text: &mut Vec<u16>) {
    for output in &group.outputs {
        text.push(match output {
            Output::Sum(sum) => {
                let mut value = i128::from(sum.constant);
                for term in &sum.terms {
                    value += i128::from(term.coefficient) * i128::from(word[term.position]);
                }
                u16::try_from(value).expect("a character")
            }
            Output::Digit(digit) => {
                let place = 3 - usize::from(digit.shift) / 4;
                hexadecimal(word[digit.position])[place]
            }
        });
    }
}

#[test]
fn definition_7_agrees_with_a_second_reading_and_direct_conversion_with_both() {
    let mut random = Random::new(81);
    let (mut closed, mut stopped_late, mut with_digits, mut with_pairs) = (0, 0, 0, 0);
    for number in 0..8000 {
        let table = match number % 2 {
            0 => random_table(&mut random),
            _ => random_marked_table(&mut random),
        };
        let bytes = encode(&table);
        with_digits += usize::from(table.has_digits());
        for _ in 0..3 {
            let length = random.below(30);
            let input = random_input(&mut random, &table, length);
            let (text, place, ending) = read_again(&table, &input);
            with_pairs += usize::from(read_again(&unmarked(&table), &input).0 != text);
            let meaning = convert(&table, &input);
            assert_eq!(meaning.text, text);
            assert_eq!((meaning.place, meaning.ending), (place, ending));

            let mut output = vec![7; table.most_outputs() * input.len() + random.below(3)];
            let expected = Conversion {
                ending,
                place,
                count: text.len(),
            };
            let answer = direct::convert(&bytes, &input, &mut output);
            assert_eq!(answer, Ok(expected));
            assert_eq!(output[..text.len()], text);
            assert!(output[text.len()..].iter().all(|&place| place == 7));

            closed += usize::from(ending == Ending::Closed);
            stopped_late += usize::from(ending == Ending::Stopped && place > 0);
        }
    }
    assert!(closed > 2000, "{closed}");
    assert!(stopped_late > 500, "{stopped_late}");
    assert!(with_digits > 1000, "{with_digits}");
    // The mark makes a difference, which a default that copies would not show.
    assert!(with_pairs > 2000, "{with_pairs}");
}

/// The text that a table without faults gives.
fn text(table: &[u8], input: &str) -> String {
    let table = Table::read(table).unwrap();
    String::from_utf16(&convert(&table, &characters(input)).text).unwrap()
}

#[test]
fn the_shortest_is_chosen_then_the_lowest_number() {
    let longer_first = TableBuilder::new()
        .rule(2)
        .spelled(0, "ab")
        .text("2")
        .rule(1)
        .spelled(0, "a")
        .text("1")
        .rule(1)
        .spelled(0, "a")
        .text("3")
        .copying_default();
    assert_eq!(text(&longer_first.bytes(), "abab"), "1b1b");
}

#[test]
fn an_anchored_rule_fits_at_the_last_characters_only() {
    assert_eq!(text(&lookahead(), "aaa"), "YX");
    assert_eq!(text(&lookahead(), "aaaa"), "YY");
}

#[test]
fn the_default_is_no_rule_and_loses_to_a_longer_one() {
    let pair = TableBuilder::new()
        .rule(2)
        .range(0, 0, 65535)
        .range(1, 0, 65535)
        .copying_default();
    assert_eq!(text(&pair.bytes(), "abcde"), "e");
}
