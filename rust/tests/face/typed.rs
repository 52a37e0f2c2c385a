//! Typed rules: document 01's tables as text, each refusal in its order, and the
//! lent buffer.

use crate::tables::{t1, t2, t3, t3_with, units};
use cobbletwill::{check, raw, Machine, Refusal, Table, TABLE_SIZE};

/// T1, with a sum for its second rule.
fn t1_typed(sum: &str) -> String {
    format!(
        "\"&#00;\" ==> [38, 35, 48, 48, 59];\n\
         \"&#[0-9][0-9];\" ==> [{sum}];\n\
         \"&#$\" ==> [38, 35];\n\
         else ==> [x0];\n"
    )
}

/// T3, with a sum for its default.
fn t3_typed(sum: &str) -> String {
    format!("\"ab\"==>[49]; \"aba\"==>[50]; else==>[{sum}];")
}

#[test]
fn the_tables_of_document_01() {
    let typed = |text: &str| Table::from_text(&units(text)).map(Table::into_bytes);
    assert_eq!(typed(&t1_typed("10*x2 + x3 - 528")), Ok(t1()));
    assert_eq!(typed(&t1_typed("10*(x2 - 48) + (x3 - 48)")), Ok(t1()));
    assert_eq!(typed("\"a$\" ==> [88]; \"a\" ==> [89];"), Ok(t2()));
    assert_eq!(typed(&t3_typed("x0")), Ok(t3()));
    assert_eq!(typed(&t3_typed("65535 - x0")), Ok(t3_with(65535, -1)));
    assert_eq!(typed(&t1_typed("10*x2 + x3 - 529")), Err(Refusal::Value));
    assert_eq!(typed(&t3_typed("x0 + 1")), Err(Refusal::Value));
}

/// A text is refused so, into a buffer of any length, which is left as found.
fn refused(text: &str, refusal: Refusal) {
    assert_eq!(Table::from_text(&units(text)), Err(refusal), "{text}");
    for room in [0, TABLE_SIZE] {
        let (mut table, mut length) = (vec![7; room], 19);
        let answer = raw::from_text(&units(text), &mut table, &mut length);
        assert_eq!((answer, length), (refusal.number(), 19), "{text}");
        assert!(table.iter().all(|&byte| byte == 7), "{text}");
    }
}

/// Each has something that stands behind its refusal in the order.
#[test]
fn texts_by_each_refusal() {
    refused("\"a\" ==> [x0 * x0]; \"b\" => [];", Refusal::Grammar);
    refused(
        "\"[b-a]\" ==> []; \"a\" ==> [x0 * x0];",
        Refusal::Expression,
    );
    refused("\"[b-a]\" ==> []; \"[ba]\" ==> [];", Refusal::Field);
    refused("\"[ba]\" ==> []; \"[b-a]\" ==> [];", Refusal::Place);
    refused("\"[acegi]\" ==> [0 - 1];", Refusal::TooMany);
    refused("else ==> [x0 + 1];", Refusal::NoRule);
    refused("\"a\" ==> [0 - 1];", Refusal::Value);
    refused("", Refusal::NoRule);
    refused(&"\"a\" ==> [];".repeat(33), Refusal::TooMany);
}

/// Records go to the start of a buffer that has room, whose rest is as found.
#[test]
fn buffers_by_15() {
    let text = units(&t1_typed("10*x2 + x3 - 528"));
    for room in [0, 1, t1().len() - 1, t1().len(), t1().len() + 3] {
        let (mut table, mut length) = (vec![7; room], 19);
        let answer = raw::from_text(&text, &mut table, &mut length);
        let mut expected = vec![7; room];
        match expected.get_mut(..t1().len()) {
            Some(records) => {
                records.copy_from_slice(&t1());
                assert_eq!((answer, length), (raw::OK, 28 * 8));
            }
            None => assert_eq!((answer, length), (15, 19)),
        }
        assert_eq!(table, expected);
    }
}

#[test]
fn the_longest_table() {
    let pattern = "[a-bd-eg-hj-k]".repeat(8);
    let sum = "x0+x1+x2+x3+x4+x5+x6+x7";
    let rule = format!("\"{pattern}\"==>[{}];", [sum; 8].join(","));
    let text = rule.repeat(32) + &format!("else==>[{}];", ["x0"; 8].join(","));
    let table = Table::from_text(&units(&text)).expect("accepted");
    assert_eq!((table.len(), check(&table)), (TABLE_SIZE, Ok(())));
    assert!(Machine::compile(&table).is_ok());
}
