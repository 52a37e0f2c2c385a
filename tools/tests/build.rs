//! `build_table` says where a source is at fault: the file, the line and the
//! column, also where the table of a good source is refused.

use std::path::{Path, PathBuf};
use std::process::{Command, Output};
use std::{env, fs};

use tools::build::build;

/// A source is refused with this.
fn refused(source: &str, expected: &str) {
    let fault = build(source.as_bytes()).expect_err(source);
    assert_eq!(fault, expected, "{source}");
}

const TOO_MANY: &str = "refused 6: a 33rd rule, fifth range of a position, ninth output character";
const VALUE: &str = "refused 7: an output value may leave 0 to 65535";

#[test]
fn no_source() {
    refused(
        "\"a\" ==> [1];\n\"b\" [2];",
        "line 2, column 5: refused 16: text outside the grammar; `==>` may come here",
    );
    let bytes = b"\"a\" ==> [1];\n# \xff";
    let fault = build(bytes).expect_err("no text");
    assert_eq!(fault, "line 2, column 3: a byte that is no UTF-8");
}

#[test]
fn ranges_and_positions() {
    let place = "refused 3: a record where its kind can't come, a position not below K, \
                 ranges out of order, a term's position repeated";
    refused(
        "# letters\n\"x[ba]\" ==> [];",
        &format!("line 2, column 5: {place}"),
    );
    refused(
        "\"[a-fb-g]\" ==> [x0 * 3, (x0 - 1) * (2 - 1)];",
        &format!("line 1, column 6: {place}"),
    );
    refused(
        "else ==> [];\n \"a\" ==> [];",
        &format!("line 2, column 2: {place}"),
    );
    refused(
        "\"a\" ==> [];\nelse ==> [];\n\nelse ==> [];",
        &format!("line 4, column 1: {place}"),
    );
    refused(
        "\"a\" ==> [\n  65,\n  x0 + x1];",
        &format!("line 3, column 3: {place}"),
    );
    refused(
        "\"a\" ==> [x1 - x1,\n  x0 + 2 * (x1 - x1) - x2 + x1, x1];",
        &format!("line 2, column 3: {place}"),
    );
    refused(
        "\"a\" ==> [hex(x0, 4),\n  hex(x1, 0)];",
        &format!("line 2, column 3: {place}"),
    );
    refused(
        "\"a\" ==> [];\nelse ==> [hex(x1, 12)];",
        &format!("line 2, column 11: {place}"),
    );
}

/// At the end of the range.
#[test]
fn lowest_above_highest() {
    let field = "refused 2: unknown kind, a field outside its own range, \
                 a byte that must be zero and isn't, lowest above highest";
    refused(
        "\"a\" ==> [0 - 1];\n\"[0-9z-a,;]\" ==> [x0 * 1];",
        &format!("line 2, column 8: {field}"),
    );
}

#[test]
fn counts() {
    refused(
        "\"[acegi]\" ==> [1 * x0 * 1];",
        &format!("line 1, column 7: {TOO_MANY}"),
    );
    refused(
        &"\"a\" ==> [];\n".repeat(33),
        &format!("line 33, column 1: {TOO_MANY}"),
    );
    refused(
        "\"b\" ==> [1, 2, 3, 4,\n 5, 6, 7, 8,\n 9, x0 * 10];",
        &format!("line 3, column 2: {TOO_MANY}"),
    );
    refused(
        "\"b\" ==> [1, hex(x0, 4), 3, hex(x0, 0), 5,\n 6, 7, 8, hex(x0, 8)];",
        &format!("line 2, column 11: {TOO_MANY}"),
    );
    refused("else ==> [];\n", "line 2, column 1: refused 5: no rule");
    refused("", "line 1, column 1: refused 5: no rule");
    refused("# nothing", "line 1, column 10: refused 5: no rule");
}

#[test]
fn values() {
    refused(
        "\"a\" ==> [65];\nelse ==> [x0,\n    x0 + 1, x0 * 1];",
        &format!("line 3, column 5: {VALUE}"),
    );
    refused(
        "\"a\" ==> [hex(x0, 4)];\nelse ==> [hex(x0, 0), x0,\n  hex(x0, 12), x0 + 1];",
        &format!("line 3, column 16: {VALUE}"),
    );
    refused(
        "\"[0-9],[a-z]\" ==> [x0, 0 - x2 + 200,\n 10 * (x0 - 48) + x2 - 98, 0 - 1];",
        &format!("line 2, column 2: {VALUE}"),
    );
}

/// A character as it stands in a pattern: a control character by its picture.
fn plain(character: u8) -> String {
    match character {
        0..=31 => String::from_utf16_lossy(&[0x2400 + u16::from(character)]),
        _ => format!("\\{}", char::from(character)),
    }
}

/// 32 rules of a length, one a line: every second character first from one on,
/// then any.
fn crowd(first: u8, length: usize) -> String {
    let any = "[\u{2400}-\u{ffff}]".repeat(length - 1);
    let firsts = (first..).step_by(2).take(32);
    { firsts.map(|first| format!("\"{}{any}\" ==> [];\n", plain(first))) }.collect()
}

#[test]
fn classes_and_states() {
    let place = "first with rule 31; direct conversion accepts the table";
    refused(
        &crowd(1, 1),
        &format!("line 32, column 1: refused 8: a 65th class\n{place}"),
    );
    refused(
        &crowd(0, 8),
        &format!("line 32, column 1: refused 9: a 257th state\n{place}"),
    );
}

/// A file of its own for a test.
fn file(name: &str) -> PathBuf {
    Path::new(env!("CARGO_TARGET_TMPDIR")).join(name)
}

/// What the program does with two files.
fn run(from: &Path, to: &Path) -> Output {
    let mut program = Command::new(env!("CARGO_BIN_EXE_build_table"));
    program.args([from, to]).output().expect("it runs")
}

#[test]
fn the_program_names_the_file() {
    let (from, to) = (file("wrong.txt"), file("wrong.tab"));
    fs::write(&from, "\"a\" ==> [1];\nelse ==> [x0 + 1];\n").expect("a file");
    let output = run(&from, &to);
    assert_eq!(output.status.code(), Some(1));
    let said = format!(
        "build_table: {}: line 2, column 11: {VALUE}\n",
        from.display()
    );
    assert_eq!(String::from_utf8_lossy(&output.stderr), said);
    assert!(!to.exists());
}

#[test]
fn the_program_names_a_missing_file() {
    let (from, to) = (file("missing.txt"), file("missing.tab"));
    let output = run(&from, &to);
    assert_eq!(output.status.code(), Some(1));
    let said = String::from_utf8_lossy(&output.stderr).into_owned();
    let named = format!("build_table: {}: No such file", from.display());
    assert!(said.starts_with(&named), "{said}");

    fs::write(&from, "\"a\" ==> [1];").expect("a file");
    let nowhere = file("no folder").join("missing.tab");
    let said = String::from_utf8_lossy(&run(&from, &nowhere).stderr).into_owned();
    let named = format!("build_table: {}: No such file", nowhere.display());
    assert!(said.starts_with(&named), "{said}");
    fs::remove_file(from).expect("the file");
}
