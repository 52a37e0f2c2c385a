//! The source form: request 4's grammar, as the library reads it, the helps of the
//! bench, digits, and the mark of the default.

use cobbletwill::record::{digit, output, range, rule, term, Record, DEFAULT, MARKED_DEFAULT};
use cobbletwill::{Refusal, Table};
use tools::source::table;

/// A source gives these records.
fn gives(source: &str, records: &[Record]) {
    assert_eq!(
        table(source).expect("a source"),
        records.concat(),
        "{source}"
    );
}

/// A source is faulty at a line and column for this reason.
fn faulty(source: &str, line: usize, column: usize, what: &str) {
    let fault = table(source).expect_err(source);
    let at = (fault.at.line, fault.at.column);
    assert_eq!(
        (at, &fault.what[..]),
        ((line, column), what),
        "{source}: {fault}"
    );
}

/// A source leaves the grammar at a line and column, where this may come.
fn outside(source: &str, line: usize, column: usize, may_come: &str) {
    let what = format!("refused 16: text outside the grammar; {may_come} may come here");
    faulty(source, line, column, &what);
}

/// A rule that takes `abcdefgh`.
const EIGHT: &str = "\"abcdefgh\" ==> ";

/// The records of the rule that takes `abcdefgh` and writes expressions.
fn written(expressions: &str, records: &[Record]) {
    let letters = (0..).zip(*b"abcdefgh").map(|(at, letter)| one(at, letter));
    let head = [rule(8, false)].into_iter().chain(letters);
    let all: Vec<Record> = head.chain(records.iter().copied()).collect();
    gives(&format!("{EIGHT}[{expressions}];"), &all);
}

#[test]
fn patterns() {
    gives("\"a\"==>[];", &[rule(1, false), range(0, 97, 97)]);
    gives("\"a$\"==>[];", &[rule(1, true), range(0, 97, 97)]);
    gives("\" \"==>[];", &[rule(1, false), range(0, 32, 32)]);
    let ranges = [range(0, 48, 57), range(0, 65, 70), range(1, 95, 95)];
    gives(
        "\"[0-9A-F]_\"==>[];",
        &[&[rule(2, false)], &ranges[..]].concat(),
    );
    let plain: Vec<Record> = (0..).zip(*b"\"\\[]$").map(|(at, c)| one(at, c)).collect();
    gives(
        r#""\"\\\[\]\$"==>[];"#,
        &[&[rule(5, false)], &plain[..]].concat(),
    );
    gives(
        r#""[\--.]-"==>[];"#,
        &[rule(2, false), range(0, 45, 46), one(1, b'-')],
    );
}

/// A range of one character.
fn one(position: u8, character: u8) -> Record {
    range(position, u16::from(character), u16::from(character))
}

#[test]
fn the_helps_of_the_bench() {
    gives(
        "# \"a\n\"b\" ==>\n# c\n[];\n#",
        &[rule(1, false), one(0, b'b')],
    );
    gives(
        "# a\r\n\"b\" ==>\r\n# c]\r\n[];\r\n",
        &[rule(1, false), one(0, b'b')],
    );
    let controls = [one(0, 0), one(1, 10), one(2, 32), one(3, 127)];
    gives(
        "\"␀␊␠␡\"==>[];",
        &[&[rule(4, false)], &controls[..]].concat(),
    );
    gives(
        "\"[␀-␟␡]\"==>[];",
        &[rule(1, false), range(0, 0, 31), one(0, 127)],
    );
    gives("\"\\␊\"==>[];", &[rule(1, false), range(0, 0x240a, 0x240a)]);
    gives("\"␢\"==>[];", &[rule(1, false), range(0, 0x2422, 0x2422)]);
    let control = "a control character; its picture, as ␊, may stand here";
    faulty("\"a\n\"==>[];", 1, 3, control);
    faulty("\"a\" ==> [];\n\"[\u{7f}]\" ==> [];", 2, 3, control);
    // Behind a backslash a character is plain.
    gives("\"\\\n\"==>[];", &[rule(1, false), one(0, 10)]);
    // Outside the quotes there are no pictures, and in a line no comments.
    let pattern = "a pattern in quotes or `else`";
    outside("\"a\" ==> [];␊", 1, 12, pattern);
    outside("\"a\" ==> []; # b", 1, 13, pattern);
    outside("\"a\" ==> [];\n # b", 2, 2, pattern);
}

#[test]
fn expressions() {
    written("65535, 007", &[output(65535), output(7)]);
    written("x0", &[output(0), term(0, 1)]);
    written(
        "10 * x2 + x3 - 528",
        &[output(-528), term(2, 10), term(3, 1)],
    );
    written(
        "10*(x2-48)+(x3-48)",
        &[output(-528), term(2, 10), term(3, 1)],
    );
    written(
        "x7 - 2 * x1 * 3 + 1000",
        &[output(1000), term(1, -6), term(7, 1)],
    );
    written("x0 - x0 + 1", &[output(1)]);
    written("(x1 - x1 + 2) * x0", &[output(0), term(0, 2)]);
    written("(x0 - x0) * x0", &[output(0)]);
    gives(
        "\"a\" ==> [];\nelse ==> [x0];",
        &[rule(1, false), one(0, b'a'), DEFAULT, output(0), term(0, 1)],
    );
}

#[test]
fn digits() {
    for shift in [0, 4, 8, 12] {
        for position in 0..8 {
            let source = format!("hex(x{position}, {shift})");
            written(&source, &[digit(position, shift)]);
        }
    }
    written(
        "hex(x0, 4), x0 + 1, hex(x0, 0), 7",
        &[digit(0, 4), output(1), term(0, 1), digit(0, 0), output(7)],
    );
    // What stands for a digit is left where it was typed.
    written(
        "x3, hex(x3, 4), x3 + 0, 0, hex(x3, 0), x3",
        &[
            output(0),
            term(3, 1),
            digit(3, 4),
            output(0),
            term(3, 1),
            output(0),
            digit(3, 0),
            output(0),
            term(3, 1),
        ],
    );
    written("hex(x0,4)", &[digit(0, 4)]);
    written("\n hex\r\n( x0 \n, 012 ) ", &[digit(0, 12)]);
    written("hex(\n# hex\nx0, 0000000000000000000008)", &[digit(0, 8)]);
    written(
        "hex(x7, 4),".repeat(8).trim_end_matches(','),
        &[digit(7, 4); 8],
    );
    let a = [rule(1, false), one(0, b'a')];
    let default = [DEFAULT, digit(0, 8)];
    gives(
        "\"a\" ==> [hex(x0, 0)];\nelse ==> [hex(x0, 8)];",
        &[&a[..], &[digit(0, 0)], &default].concat(),
    );
    // In quotes it is a text as any other.
    let letters = [one(0, b'h'), one(1, b'e'), one(2, b'x')];
    gives(
        "\"hex\" ==> [];",
        &[&[rule(3, false)], &letters[..]].concat(),
    );
}

#[test]
fn a_digit_stands_alone() {
    let alone = "a hexadecimal digit stands alone, in no sum, product or parentheses";
    faulty("else ==> [hex(x0, 4) + 1];", 1, 22, alone);
    faulty("else ==> [hex(x0, 4)\n- 1];", 2, 1, alone);
    faulty("else ==> [hex(x0, 4)*2];", 1, 21, alone);
    faulty("else ==> [1 + hex(x0, 4)];", 1, 15, alone);
    faulty("else ==> [1 -\n hex(x0, 4)];", 2, 2, alone);
    faulty("else ==> [1 -\n# a\nhex(x0, 4)];", 3, 1, alone);
    faulty("else ==> [2 * hex(x0, 4)];", 1, 15, alone);
    faulty("else ==> [(hex(x0, 4))];", 1, 12, alone);
    faulty("else ==> [hex(x0, 4) + hex(x0, 0)];", 1, 22, alone);
    outside("else ==> [hex(x0, 4) 1];", 1, 22, "`]`");
    outside("else ==> [hex(x0, 4) hex(x0, 0)];", 1, 22, "`]`");
    outside("else ==> [x0 hex(x0, 4)];", 1, 14, "`]`");
    outside("else ==> [hex(x0, 4)(1)];", 1, 21, "`]`");
    outside("else ==> [hex(x0, 4))];", 1, 21, "`]`");
}

#[test]
fn texts_that_are_no_digit() {
    let shift = "a shift has to come here: 0, 4, 8 or 12";
    for wrong in ["1", "3", "5", "16", "256", "65536", "99999999999999999999"] {
        faulty(&format!("else ==> [hex(x0, {wrong})];"), 1, 19, shift);
    }
    faulty("else ==> [hex(x0, )];", 1, 19, shift);
    faulty("else ==> [hex(x0, x1)];", 1, 19, shift);
    faulty("else ==> [hex(x0, -4)];", 1, 19, shift);
    faulty("else ==> [hex(x0, (4))];", 1, 19, shift);
    faulty("else ==> [hex(x0, 4 + 4)];", 1, 21, "`)` has to come here");
    faulty("else ==> [hex(x0, 4, 0)];", 1, 20, "`)` has to come here");
    faulty("else ==> [hex(x0, 4", 1, 20, "`)` has to come here");
    let comma = "`,` and a shift have to come here";
    faulty("else ==> [hex(x0)];", 1, 17, comma);
    faulty("else ==> [hex(x0 + 1, 4)];", 1, 18, comma);
    faulty("else ==> [hex(x0 4)];", 1, 18, comma);
    let character = "`x` with a digit 0 to 7 has to come here";
    faulty("else ==> [hex(65, 4)];", 1, 15, character);
    faulty("else ==> [hex(4, x0)];", 1, 15, character);
    faulty("else ==> [hex((x0), 4)];", 1, 15, character);
    faulty("else ==> [hex(x8, 4)];", 1, 16, character);
    faulty("else ==> [hex(x 0, 4)];", 1, 16, character);
    faulty("else ==> [hex()];", 1, 15, character);
    faulty("else ==> [hex x0, 4];", 1, 15, "`(` has to come here");
    faulty("else ==> [hex];", 1, 14, "`(` has to come here");
    // One symbol, in small letters.
    let factor = "a number or `x` with a digit";
    outside("else ==> [h ex(x0, 4)];", 1, 11, factor);
    outside("else ==> [HEX(x0, 4)];", 1, 11, factor);
    let pattern = "a pattern in quotes or `else`";
    outside("hex(x0, 4) ==> [];", 1, 1, pattern);
    // Without its word it is an expression in parentheses.
    outside("else ==> [(x0, 4)];", 1, 14, "`)`");
    // What stands before it is looked at first.
    outside("else => [hex(x0, 5)];", 1, 7, "`=>`");
    outside("\"[a\"]\" ==> [];\n", 1, 4, "`]`");
}

/// "A default record may carry 1 in byte 1."
#[test]
fn the_mark() {
    let a = [rule(1, false), one(0, b'a')];
    let marked = |source: &str, written: &[Record]| {
        let default = [&[MARKED_DEFAULT], written].concat();
        gives(source, &[&a[..], &default].concat());
    };
    marked("\"a\" ==> [];\nelse keep pairs ==> [];", &[]);
    marked("\"a\" ==> [];\nelse keep pairs ==> [63];", &[output(63)]);
    marked(
        "\"a\"==>[];else keep pairs==>[x0,hex(x0,4)];",
        &[output(0), term(0, 1), digit(0, 4)],
    );
    marked("\"a\" ==> [];\n else\n# b\nkeep\r\n  pairs\n==> [];", &[]);
    // A digit before it, and the constant 5, whose record is none of kind 5.
    let x = [rule(1, false), one(0, b'x'), digit(0, 0), output(5)];
    gives(
        "\"x\" ==> [hex(x0, 0), 5]; else keep pairs ==> [5];",
        &[&x[..], &[MARKED_DEFAULT, output(5)]].concat(),
    );
    // In quotes it is a text as any other.
    let letters = (0..).zip(*b"keep").map(|(at, letter)| one(at, letter));
    let head = [rule(4, false)].into_iter().chain(letters);
    let all: Vec<Record> = head.chain([DEFAULT]).collect();
    gives("\"keep\" ==> []; else ==> [];", &all);
}

/// "No text of request 4 could mean it": the library refuses each text that has it.
#[test]
fn the_mark_can_not_be_typed() {
    for mark in ["keep pairs", "keep", "pairs", "keeppairs"] {
        for text in [
            format!("\"a\" ==> []; else {mark} ==> [];"),
            format!("\"a\" ==> []; {mark} else ==> [];"),
            format!("\"a\" ==> []; else ==> [] {mark};"),
            format!("{mark} \"a\" ==> []; else ==> [];"),
        ] {
            let units: Vec<u16> = text.encode_utf16().collect();
            assert_eq!(Table::from_text(&units), Err(Refusal::Grammar), "{text}");
        }
    }
}

#[test]
fn the_mark_stands_behind_else_once() {
    let behind_else = "`keep pairs` stands behind `else`, and nowhere else";
    faulty("keep pairs", 1, 1, behind_else);
    faulty("\"a\" ==> [];\nkeep pairs;", 2, 1, behind_else);
    faulty("\"a\" ==> [];\nkeep pairs else ==> [];", 2, 1, behind_else);
    faulty("\"a\" keep pairs ==> [];", 1, 5, behind_else);
    faulty("\"else\" keep pairs ==> [];", 1, 8, behind_else);
    faulty("\"a\" ==> [];\nelse ==> keep pairs [];", 2, 10, behind_else);
    faulty("\"a\" ==> [];\nelse ==> [keep pairs];", 2, 11, behind_else);
    faulty("\"a\" ==> [];\nelse ==> [] keep pairs;", 2, 13, behind_else);
    let twice = "`keep pairs` stands here for a second time";
    faulty("else keep pairs keep pairs ==> [];", 1, 17, twice);
    faulty(
        "else keep pairs ==> [];\nelse keep pairs ==> [];",
        2,
        6,
        twice,
    );
    let pairs = "`pairs` has to come here";
    faulty("else keep ==> [];", 1, 11, pairs);
    faulty("else keep", 1, 10, pairs);
    faulty("else keep pair ==> [];", 1, 11, pairs);
    faulty("else keep Pairs ==> [];", 1, 11, pairs);
    // One symbol each, in small letters.
    outside("else Keep pairs ==> [];", 1, 6, "`==>`");
    outside("else ke ep pairs ==> [];", 1, 6, "`==>`");
    outside("else pairs ==> [];", 1, 6, "`==>`");
    // What stands before it is looked at first.
    outside("els keep pairs ==> [];", 1, 4, "`e`");
    outside("\"a\" => [];\nelse keep ==> [];", 1, 6, "`=>`");
    outside(
        "an else keep pairs ==> [];",
        1,
        1,
        "a pattern in quotes or `else`",
    );
}

/// As the unmarked default: for every character, though none of a pair comes to it, and
/// with a rule before it.
#[test]
fn a_marked_default_is_refused_as_any() {
    let value = "refused 7: an output value may leave 0 to 65535";
    faulty("\"a\" ==> [];\nelse keep pairs ==> [x0 + 1];", 2, 22, value);
    faulty("else keep pairs ==> [x0];", 1, 26, "refused 5: no rule");
    let place = "refused 3: a record where its kind can't come, a position not below K, \
                 ranges out of order, a term's position repeated";
    faulty("else keep pairs ==> [];\n\"a\" ==> [];", 2, 1, place);
}

#[test]
fn sixteen_parentheses_and_no_more() {
    let nested = |depth| format!("{}1{}", "(".repeat(depth), ")".repeat(depth));
    written(&nested(16), &[output(1)]);
    let factor = "a number or `x` with a digit";
    outside(&format!("else ==> [{}];", nested(17)), 1, 27, factor);
}

/// Each leaves the grammar at the first character that no text has there.
#[test]
fn texts_outside_the_grammar() {
    let pattern = "a pattern in quotes or `else`";
    outside("a", 1, 1, pattern);
    outside("\"a\" ==> [];\n;", 2, 1, pattern);
    outside("\"\" ==> [];", 1, 2, "a character");
    outside("\"$\" ==> [];", 1, 2, "a character");
    outside("\"123456789\" ==> [];", 1, 10, "`\"`");
    outside("\"a$b\" ==> [];", 1, 4, "`\"`");
    outside("\"a]\" ==> [];", 1, 3, "`\"`");
    outside("\"[]\" ==> [];", 1, 3, "a character");
    outside("\"[a-]\" ==> [];", 1, 5, "a character");
    outside("\"[-a]\" ==> [];", 1, 3, "a character");
    outside("\"[a$]\" ==> [];", 1, 4, "`]`");
    outside("\"a", 1, 3, "`\"`");
    outside("\"a\\", 1, 4, "a character");
    outside("\"a\" ==> [];\nels ==> [];", 2, 4, "`e`");
    outside("\"a\" ==> [];\nel", 2, 3, "`se`");
    outside("\"a\" ==> [];\ne", 2, 2, "`lse`");
    outside("else", 1, 5, "`==>`");
    outside("else\n= => [];", 2, 2, "`=>`");
    outside("else ==[];", 1, 8, "`>`");
    outside("else ==> 1;", 1, 10, "`[`");
    let factor = "a number or `x` with a digit";
    outside("else ==> [1 2];", 1, 13, "`]`");
    outside("else ==> [x8];", 1, 12, "a digit");
    outside("else ==> [x 0];", 1, 12, "a digit");
    outside("else ==> [-1];", 1, 11, factor);
    outside("else ==> [1 +];", 1, 14, factor);
    outside("else ==> [2 * (1 - (x0 - 3];", 1, 27, "`)`");
    outside("else ==> [65536];", 1, 15, "`]`");
    outside("else ==> [1,];", 1, 13, factor);
    outside("else ==> [1]", 1, 13, "`;`");
    // The first line that is outside, with a semicolon and a line end in quotes before.
    outside(
        "\";\\\";\" ==> [];\n\"a\" ==> [1;\nelse ==> [];",
        2,
        11,
        "`]`",
    );
}

/// Each is refused from the character on from which no ending saves it.
#[test]
fn values_outside_the_records() {
    let refused = |source: &str, column| {
        let what = "refused 17: a product both of whose factors have a coefficient other than \
                    0, a constant or coefficient of any part outside signed 32 bits, a final \
                    coefficient outside signed 16 bits";
        faulty(
            &format!("\"a\" ==> [];\n{EIGHT}[{source}];"),
            2,
            column,
            what,
        );
    };
    refused("x0 * x0", 22);
    refused("x0 * 3, (x0 - 1) * (x1 - x1 + 2) * (2 - x2)", 57);
    refused("65535 * 65535", 29);
    refused("1, 65535 * 32768 + 32768", 40);
    refused("32768 * x0", 25);
    refused("32768 * x0 - x0, 32767 * x0 + x0", 47);
    written(
        "32767 * x0 - 65535 * 48",
        &[output(-65535 * 48), term(0, 32767)],
    );
    written(
        "65535 * 49 + (0 - 32768) * x0",
        &[output(65535 * 49), term(0, -32768)],
    );
    written("32768 * x0 - 32768 * x0", &[output(0)]);
}
