//! Request [4]: rules typed at the station.

use reference::refusal::Refusal;
use reference::typed::cases::{cases, Case};
use reference::typed::from_text;

/// What a buffer holds before a text is read.
const FILL: u8 = 0xa5;
/// More bytes than the records of any stored text have.
const ROOM: usize = 1024;

/// What reading a text into a buffer of a length answers, and the buffer after it.
fn read(text: &[u16], room: usize) -> (Result<usize, u8>, Vec<u8>) {
    let mut buffer = vec![FILL; room];
    let answer = from_text(text, &mut buffer);
    (answer.map_err(Refusal::number), buffer)
}

#[test]
fn stored_texts_come_to_what_is_stored_with_them() {
    for Case { text, answer } in cases() {
        let records = answer.clone().unwrap_or_default();
        let mut expected = vec![FILL; ROOM];
        expected[..records.len()].copy_from_slice(&records);
        let length = answer.map(|records| records.len());
        let shown = String::from_utf16_lossy(&text);
        assert_eq!(read(&text, ROOM), (length, expected), "{shown}");
    }
}

#[test]
fn refusal_15_for_a_buffer_that_is_too_short_comes_last() {
    for case in cases() {
        match &case.answer {
            Ok(records) => {
                let length = records.len();
                assert_eq!(read(&case.text, length), (Ok(length), records.clone()));
                for room in [0, length / 2, length - 1] {
                    assert_eq!(read(&case.text, room), (Err(15), vec![FILL; room]));
                }
            }
            Err(number) => assert_eq!(read(&case.text, 0), (Err(*number), Vec::new())),
        }
    }
}

#[test]
fn every_answer_that_a_text_may_have_is_stored() {
    let mut numbers: Vec<u8> = cases().into_iter().filter_map(|c| c.answer.err()).collect();
    numbers.sort_unstable();
    numbers.dedup();
    assert_eq!(numbers, [2, 3, 5, 6, 7, 16, 17]);
}
