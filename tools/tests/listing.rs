//! Listings, written by hand: of accepted tables and of one for each refusal. Which
//! input shows a rule is free: `…` stands for any text there.

use cobbletwill::record::{digit, output, range, rule, term, Record, DEFAULT, MARKED_DEFAULT};
use cobbletwill::{witness, Machine};
use tools::listing::{listing, verdict};
use tools::source;

/// The records of a table are listed so.
fn lists(records: &[Record], expected: &[&str]) {
    let listing = listing(&records.concat());
    let found: Vec<&str> = listing.lines().collect();
    let mut lines = found.iter().zip(expected);
    let alike = found.len() == expected.len() && lines.all(|(line, expected)| is(line, expected));
    assert!(alike, "{found:#?} and not {expected:#?}");
}

/// Whether a line is the expected one.
fn is(line: &str, expected: &str) -> bool {
    match expected.split_once('…') {
        Some((start, end)) => {
            let rest = line.strip_prefix(start);
            rest.is_some_and(|rest| rest.ends_with(end))
        }
        None => line == expected,
    }
}

/// The records of a table have this verdict.
fn says(records: &[Record], expected: &[&str]) {
    let found = verdict(&records.concat());
    assert_eq!(found.lines().collect::<Vec<_>>(), expected);
}

const FIELD: &str = "refused 2: unknown kind, a field outside its own range, \
                     a byte that must be zero and isn't, lowest above highest";
const PLACE: &str = "refused 3: a record where its kind can't come, a position not below K, \
                     ranges out of order, a term's position repeated";
const UNFILLED: &str = "refused 4: a position skipped, or unfilled when the ranges end";
const TOO_MANY: &str = "refused 6: a 33rd rule, fifth range of a position, ninth output character";
const VALUE: &str = "refused 7: an output value may leave 0 to 65535";

#[test]
fn an_accepted_table() {
    lists(
        &[
            rule(2, false),
            range(0, 97, 97),
            range(1, 48, 57),
            range(1, 256, 9999),
            output(-48),
            term(0, 300),
            term(1, -1),
            rule(1, true),
            range(0, 10, 10),
            DEFAULT,
            output(63),
        ],
        &[
            "rule 0: \"a[0-9Ā-✏]\" ==> [300 * x0 - x1 - 48];",
            "      chosen first on \"a…\"",
            "   0  01 02 00 00 00 00 00 00  rule of length 2",
            "   1  02 00 00 00 61 00 61 00  position 0 takes 97 'a'",
            "   2  02 01 00 00 30 00 39 00  position 1 takes 48 '0' to 57 '9'",
            "   3  02 01 00 00 00 01 0f 27  position 1 takes 256 to 9999",
            "   4  03 00 00 00 d0 ff ff ff  writes -48",
            "   5  04 00 00 00 2c 01 00 00  plus 300 times x0",
            "   6  04 01 00 00 ff ff 00 00  plus -1 times x1",
            "rule 1: \"␊$\" ==> [];",
            "      chosen first on \"␊\"",
            "   7  01 01 01 00 00 00 00 00  rule of length 1, anchored",
            "   8  02 00 00 00 0a 00 0a 00  position 0 takes 10",
            "default: else ==> [63];",
            "   9  05 00 00 00 00 00 00 00  default",
            "  10  03 00 00 00 3f 00 00 00  writes 63 '?'",
            "accepted: rules 2, a default, classes 9, states 4, L 2, E 1",
        ],
    );
}

/// The records are listed as they stand, their terms falling; the line of the group, read
/// as a source, has the terms by position and the same machine words.
#[test]
fn terms_that_fall() {
    let head = [
        rule(2, false),
        range(0, 48, 57),
        range(1, 48, 57),
        output(-528),
    ];
    let falling = [&head[..], &[term(1, 1), term(0, 10)]].concat();
    let line = "\"[0-9][0-9]\" ==> [x1 + 10 * x0 - 528];";
    lists(
        &falling,
        &[
            &format!("rule 0: {line}"),
            "      chosen first on …",
            "   0  01 02 00 00 00 00 00 00  rule of length 2",
            "   1  02 00 00 00 30 00 39 00  position 0 takes 48 '0' to 57 '9'",
            "   2  02 01 00 00 30 00 39 00  position 1 takes 48 '0' to 57 '9'",
            "   3  03 00 00 00 f0 fd ff ff  writes -528",
            "   4  04 01 00 00 01 00 00 00  plus 1 times x1",
            "   5  04 00 00 00 0a 00 00 00  plus 10 times x0",
            "accepted: rules 1, no default, classes 3, states 3, L 2, E 1",
        ],
    );
    let rising = [&head[..], &[term(0, 10), term(1, 1)]].concat().concat();
    assert_eq!(source::table(line), Ok(rising.clone()));
    assert_eq!(
        Machine::compile(&rising),
        Machine::compile(&falling.concat())
    );
    // A position for a second time is refused where it stands.
    let again = [&falling[..], &[term(1, 2), output(0)]].concat();
    says(&again, &[PLACE, "at record 6, in rule 0"]);
}

#[test]
fn digits() {
    lists(
        &[
            rule(3, false),
            range(0, 0, 255),
            range(1, 48, 57),
            range(2, 0, 65535),
            digit(0, 4),
            digit(1, 0),
            output(1),
            term(1, 2),
            DEFAULT,
            digit(0, 12),
            digit(0, 8),
        ],
        &[
            "rule 0: \"[␀-ÿ][0-9][␀-\u{ffff}]\" ==> [hex(x0, 4), hex(x1, 0), 2 * x1 + 1];",
            "      chosen first on …",
            "   0  01 03 00 00 00 00 00 00  rule of length 3",
            "   1  02 00 00 00 00 00 ff 00  position 0 takes 0 to 255",
            "   2  02 01 00 00 30 00 39 00  position 1 takes 48 '0' to 57 '9'",
            "   3  02 02 00 00 00 00 ff ff  position 2 takes 0 to 65535",
            "   4  06 00 04 00 00 00 00 00  \
             writes the second lowest hexadecimal digit of x0, shift 4",
            "   5  06 01 00 00 00 00 00 00  \
             writes the lowest hexadecimal digit of x1, shift 0",
            "   6  03 00 00 00 01 00 00 00  writes 1",
            "   7  04 01 00 00 02 00 00 00  plus 2 times x1",
            "default: else ==> [hex(x0, 12), hex(x0, 8)];",
            "   8  05 00 00 00 00 00 00 00  default",
            "   9  06 00 0c 00 00 00 00 00  \
             writes the highest hexadecimal digit of x0, shift 12",
            "  10  06 00 08 00 00 00 00 00  \
             writes the second highest hexadecimal digit of x0, shift 8",
            "accepted: rules 1, a default, classes 4, states 4, L 3, E 3",
        ],
    );
}

/// E is 1 for the pairs, though nothing else is written.
#[test]
fn a_marked_default() {
    let a = [rule(1, false), range(0, 97, 97)];
    lists(
        &[&a[..], &[MARKED_DEFAULT]].concat(),
        &[
            "rule 0: \"a\" ==> [];",
            "      chosen first on \"a\"",
            "   0  01 01 00 00 00 00 00 00  rule of length 1",
            "   1  02 00 00 00 61 00 61 00  position 0 takes 97 'a'",
            "default: else keep pairs ==> [];",
            "   2  05 01 00 00 00 00 00 00  default, which keeps pairs",
            "accepted: rules 1, a default that keeps pairs, classes 3, states 2, L 1, E 1",
        ],
    );
    lists(
        &[&a[..], &[[5, 2, 0, 0, 0, 0, 0, 0], output(63)]].concat(),
        &[
            "rule 0",
            "   0  01 01 00 00 00 00 00 00  rule of length 1",
            "   1  02 00 00 00 61 00 61 00  position 0 takes 97 'a'",
            "default",
            "   2  05 02 00 00 00 00 00 00  default  <- refused 2",
            "   3  03 00 00 00 3f 00 00 00  writes 63 '?'",
            FIELD,
            "at record 2, in the default",
        ],
    );
    let leaving = [MARKED_DEFAULT, output(1), term(0, 1)];
    says(
        &[&a[..], &leaving].concat(),
        &[VALUE, "at record 3, in the default"],
    );
}

#[test]
fn digits_that_are_refused() {
    let a = [rule(1, false), range(0, 97, 97)];
    let head = [
        "rule 0",
        "   0  01 01 00 00 00 00 00 00  rule of length 1",
        "   1  02 00 00 00 61 00 61 00  position 0 takes 97 'a'",
    ];
    let after = |records: &[Record], expected: &[&str]| {
        lists(&[&a, records].concat(), &[&head, expected].concat());
    };
    after(
        &[digit(0, 5)],
        &[
            "   2  06 00 05 00 00 00 00 00  writes a hexadecimal digit of x0, shift 5  <- refused 2",
            FIELD,
            "at record 2, in rule 0",
        ],
    );
    after(
        &[digit(0, 0), term(0, 1)],
        &[
            "   2  06 00 00 00 00 00 00 00  writes the lowest hexadecimal digit of x0, shift 0",
            "   3  04 00 00 00 01 00 00 00  plus 1 times x0  <- refused 3",
            PLACE,
            "at record 3, in rule 0",
        ],
    );
    after(
        &[digit(1, 0)],
        &[
            "   2  06 01 00 00 00 00 00 00  \
             writes the lowest hexadecimal digit of x1, shift 0  <- refused 3",
            PLACE,
            "at record 2, in rule 0",
        ],
    );
    lists(
        &[rule(1, false), digit(0, 0)],
        &[
            "rule 0",
            "   0  01 01 00 00 00 00 00 00  rule of length 1",
            "   1  06 00 00 00 00 00 00 00  \
             writes the lowest hexadecimal digit of x0, shift 0  <- refused 4",
            UNFILLED,
            "at record 1, in rule 0",
        ],
    );
    lists(
        &[digit(0, 0)],
        &[
            "   0  06 00 00 00 00 00 00 00  \
             writes the lowest hexadecimal digit of x0, shift 0  <- refused 3",
            PLACE,
            "at record 0, in no group",
        ],
    );
}

#[test]
fn t2() {
    lists(
        &[
            rule(1, true),
            range(0, 97, 97),
            output(88),
            rule(1, false),
            range(0, 97, 97),
            output(89),
        ],
        &[
            "rule 0: \"a$\" ==> [88];",
            "      chosen first on \"a\"",
            "   0  01 01 01 00 00 00 00 00  rule of length 1, anchored",
            "   1  02 00 00 00 61 00 61 00  position 0 takes 97 'a'",
            "   2  03 00 00 00 58 00 00 00  writes 88 'X'",
            "rule 1: \"a\" ==> [89];",
            "      chosen first on \"a…\"",
            "   3  01 01 00 00 00 00 00 00  rule of length 1",
            "   4  02 00 00 00 61 00 61 00  position 0 takes 97 'a'",
            "   5  03 00 00 00 59 00 00 00  writes 89 'Y'",
            "accepted: rules 2, no default, classes 3, states 2, L 1, E 1",
        ],
    );
}

/// Document 01's T3, of which request [6] says that the second rule is dead.
fn t3_records() -> Vec<Record> {
    let first = [
        rule(2, false),
        range(0, 97, 97),
        range(1, 98, 98),
        output(49),
    ];
    let second = [
        rule(3, false),
        range(0, 97, 97),
        range(1, 98, 98),
        range(2, 97, 97),
        output(50),
    ];
    let default = [DEFAULT, output(0), term(0, 1)];
    [&first[..], &second, &default].concat()
}

#[test]
fn t3() {
    lists(
        &t3_records(),
        &[
            "rule 0: \"ab\" ==> [49];",
            "      chosen first on \"ab…\"",
            "   0  01 02 00 00 00 00 00 00  rule of length 2",
            "   1  02 00 00 00 61 00 61 00  position 0 takes 97 'a'",
            "   2  02 01 00 00 62 00 62 00  position 1 takes 98 'b'",
            "   3  03 00 00 00 31 00 00 00  writes 49 '1'",
            "rule 1: \"aba\" ==> [50];",
            "      dead: no input makes the definition choose it",
            "   4  01 03 00 00 00 00 00 00  rule of length 3",
            "   5  02 00 00 00 61 00 61 00  position 0 takes 97 'a'",
            "   6  02 01 00 00 62 00 62 00  position 1 takes 98 'b'",
            "   7  02 02 00 00 61 00 61 00  position 2 takes 97 'a'",
            "   8  03 00 00 00 32 00 00 00  writes 50 '2'",
            "default: else ==> [x0];",
            "   9  05 00 00 00 00 00 00 00  default",
            "  10  03 00 00 00 00 00 00 00  writes 0",
            "  11  04 00 00 00 01 00 00 00  plus 1 times x0",
            "accepted: rules 2, a default, classes 4, states 3, L 3, E 1",
        ],
    );
}

/// The one input of a rule that takes these characters at the input's end.
fn shown_on(units: &[u16], expected: &str) {
    let ranges = (0..)
        .zip(units)
        .map(|(place, &unit)| range(place, unit, unit));
    let head = [rule(units.len() as u8, true)];
    let records: Vec<Record> = head.into_iter().chain(ranges).collect();
    let listing = listing(&records.concat());
    let line = listing.lines().nth(1).expect("a line");
    assert_eq!(line, format!("      chosen first on {expected}"));
}

/// In quotes as in a source; the halves of pairs, and what else doesn't show, as
/// numbers.
#[test]
fn inputs_in_quotes_and_as_numbers() {
    shown_on(&[32, 34, 92, 91, 93, 36, 45], "\" \\\"\\\\\\[\\]\\$-\"");
    shown_on(&[0, 9, 31, 127, 0xe9, 0x2713], "\"␀␉␟␡é✓\"");
    shown_on(&[0x2400], "\"\\␀\"");
    shown_on(&[0xd83d, 0xde00], "55357, 56832");
    shown_on(&[97, 0xdc00], "97 'a', 56320");
    shown_on(&[65535, 97], "65535, 97 'a'");
    shown_on(&[0x85, 10], "133, 10");
}

/// The inputs in quotes, read as the patterns of a source, are the library's.
#[test]
fn inputs_read_back() {
    let stored = ["html-decimal", "sdi12", "nmea", "shef", "centimetres"];
    let folder = concat!(env!("CARGO_MANIFEST_DIR"), "/../tables");
    let tables = stored.map(|name| std::fs::read(format!("{folder}/{name}/rules.tab")).unwrap());
    let mut read = 0;
    for table in tables.into_iter().chain([t3_records().concat()]) {
        let listing = listing(&table);
        let mut rules = 0..;
        for line in listing.lines().filter(|line| line.starts_with("      ")) {
            let input = witness(&table, rules.next().unwrap()).expect("compiles");
            let Some(quoted) = line.strip_prefix("      chosen first on ") else {
                assert!(line.starts_with("      dead: ") && input.is_none());
                continue;
            };
            let pattern = source::table(&format!("{quoted} ==> [];")).expect("a source");
            let ranges = pattern.as_chunks::<8>().0[1..].iter();
            let units: Vec<u16> = ranges.map(|r| u16::from_le_bytes([r[4], r[5]])).collect();
            assert_eq!(Some(units), input, "{line}");
            read += 1;
        }
    }
    assert!(read >= 20, "{read}");
}

#[test]
fn refusal_1() {
    let table = [&rule(1, false)[..], &[2, 0]].concat();
    let expected = [
        "rule 0",
        "   0  01 01 00 00 00 00 00 00  rule of length 1",
        "left over",
        "      02 00",
        "refused 1: length no multiple of 8",
        "2 of 8 bytes after the last whole record",
    ];
    assert_eq!(listing(&table).lines().collect::<Vec<_>>(), expected);
}

#[test]
fn refusal_2() {
    lists(
        &[rule(1, false), range(0, 98, 97), [9; 8]],
        &[
            "rule 0",
            "   0  01 01 00 00 00 00 00 00  rule of length 1",
            "   1  02 00 00 00 62 00 61 00  position 0 takes 98 'b' to 97 'a'  <- refused 2",
            "   2  09 09 09 09 09 09 09 09  unknown kind 9",
            FIELD,
            "at record 1, in rule 0",
        ],
    );
    lists(
        &[[0; 8]],
        &[
            "   0  00 00 00 00 00 00 00 00  unknown kind 0  <- refused 2",
            FIELD,
            "at record 0, in no group",
        ],
    );
}

#[test]
fn refusal_3() {
    lists(
        &[rule(1, false), range(0, 97, 97), term(0, 1)],
        &[
            "rule 0",
            "   0  01 01 00 00 00 00 00 00  rule of length 1",
            "   1  02 00 00 00 61 00 61 00  position 0 takes 97 'a'",
            "   2  04 00 00 00 01 00 00 00  plus 1 times x0  <- refused 3",
            PLACE,
            "at record 2, in rule 0",
        ],
    );
}

#[test]
fn refusal_4_at_a_record_and_at_the_tables_end() {
    let unfilled = [rule(2, false), range(0, 97, 97), output(1)];
    lists(
        &unfilled,
        &[
            "rule 0",
            "   0  01 02 00 00 00 00 00 00  rule of length 2",
            "   1  02 00 00 00 61 00 61 00  position 0 takes 97 'a'",
            "   2  03 00 00 00 01 00 00 00  writes 1  <- refused 4",
            UNFILLED,
            "at record 2, in rule 0",
        ],
    );
    lists(
        &unfilled[..2],
        &[
            "rule 0",
            "   0  01 02 00 00 00 00 00 00  rule of length 2",
            "   1  02 00 00 00 61 00 61 00  position 0 takes 97 'a'",
            UNFILLED,
            "at the table's end, after rule 0",
        ],
    );
}

#[test]
fn refusal_5() {
    lists(
        &[DEFAULT],
        &[
            "default",
            "   0  05 00 00 00 00 00 00 00  default",
            "refused 5: no rule",
            "at the table's end, after the default",
        ],
    );
    lists(&[], &["refused 5: no rule", "at the table's end"]);
}

#[test]
fn refusal_6() {
    let a = [rule(1, false), range(0, 97, 97)];
    let ranges = [99, 101, 103, 105].map(|letter| range(0, letter, letter));
    let five = [&a[..], &ranges].concat();
    says(&five, &[TOO_MANY, "at record 5, in rule 0"]);
    let nine = [&a[..], &[output(1)], &a, &[output(1); 9]].concat();
    says(&nine, &[TOO_MANY, "at record 13, in rule 1"]);
    let digits = [&a[..], &[output(1)], &[digit(0, 4); 7], &[output(2)]].concat();
    says(&digits, &[TOO_MANY, "at record 10, in rule 0"]);
    says(&a.repeat(33), &[TOO_MANY, "at record 64, in rule 32"]);
}

#[test]
fn refusal_7_in_a_rule_and_in_the_default() {
    let t1 = include_bytes!("../../tables/html-decimal/rules.tab");
    let mut t1 = t1.as_chunks().0.to_vec();
    assert_eq!(t1[17], output(-528));
    t1[17] = output(-529);
    says(&t1, &[VALUE, "at record 17, in rule 1"]);
    let a = [rule(1, false), range(0, 97, 97), output(49)];
    let default = [DEFAULT, output(0), term(0, 1), output(1), term(0, 1)];
    says(
        &[&a[..], &default].concat(),
        &[VALUE, "at record 6, in the default"],
    );
    let letters = [rule(1, false), range(0, 97, 122)];
    let outputs = [digit(0, 4), output(0), term(0, 1), digit(0, 0)];
    let below = [output(-98), term(0, 1)];
    says(
        &[&letters[..], &outputs, &below].concat(),
        &[VALUE, "at record 6, in rule 0"],
    );
}

/// 32 rules of a length, every second character first from one on, then any.
fn rules(first: u16, length: u8) -> Vec<u8> {
    let rule = |number: u16| {
        let first = first + 2 * number;
        let any = (1..length).map(|position| range(position, 0, 65535));
        let head = [rule(length, false), range(0, first, first)];
        head.into_iter().chain(any).collect::<Vec<_>>().concat()
    };
    (0..32).flat_map(rule).collect()
}

#[test]
fn refusals_8_and_9() {
    let place = "first with rule 31; direct conversion accepts the table";
    let found = verdict(&rules(1, 1));
    assert_eq!(found, format!("refused 8: a 65th class\n{place}\n"));
    let found = verdict(&rules(0, 8));
    assert_eq!(found, format!("refused 9: a 257th state\n{place}\n"));
    // Nothing is said of the rules.
    let listing = listing(&rules(0, 8));
    assert!(!listing.contains("chosen") && !listing.contains("dead"));
    let found = verdict(&rules(0, 7));
    let measures = "rules 32, no default, classes 64, states 225, L 7, E 0";
    assert_eq!(found, format!("accepted: {measures}\n"));
}
