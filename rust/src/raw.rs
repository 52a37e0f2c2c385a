//! The functions of `include/cobbletwill.h` as they are, safe to call, and the
//! session and the input as C holds them: answers are numbers, and words and sessions
//! may have any content. This module has the package's only unsafe code, and stands on
//! none of the others.

#![allow(unsafe_code)]

use std::mem::offset_of;

/// The bytes of a buffer for every table that is accepted: 3,377 records of 8.
pub const TABLE_SIZE: usize = 27_016;
/// The machine words of a table: 19,961 of 16 bits.
pub const WORDS_SIZE: usize = 19_961;
/// The characters of an input that shows a rule: those of the longest pattern, and one
/// more.
pub const INPUT_SIZE: usize = 9;

/// The characters that a session can hold.
pub const HELD_SIZE: usize = 8;
/// The counts of uses in a session: a rule's at its number, the default's, and that of
/// pairs.
pub const USES_SIZE: usize = 34;
/// The place of the default's count, of its uses on one unit.
pub const USES_DEFAULT: usize = 32;
/// The place of the count of pairs, which a marked default lets through.
pub const USES_PAIRS: usize = 33;

/// The most output characters of a group, so that so many times the input is room enough
/// under every table.
pub const MAX_EXPANSION: usize = 8;
/// The most characters that a session receives and that direct conversion takes.
pub const MAX_CHARACTERS: u64 = 1_099_511_627_776;

/// The answer for a table or a typed text that is accepted, for a table that is
/// compiled, for a rule that is live, and for a conversion or a session that closed.
pub const OK: u32 = 0;
/// The answer for a conversion or a session that stopped.
pub const STOPPED: u32 = 64;
/// The answer for a session that waits for more.
pub const OPEN: u32 = 65;
/// The answer for a rule that is dead.
pub const DEAD: u32 = 66;

/// What a session has counted, as the header's `cobbletwill_tally`.
#[repr(C)]
#[derive(Clone, Copy, Debug, PartialEq, Eq)]
pub struct Tally {
    /// Characters written.
    pub produced: u64,
    /// Steps of the machine.
    pub steps: u64,
}

/// What is kept between calls, as the header's `cobbletwill_session`. The fields
/// may have any values; a call on a session that is not sound is refused by 12.
#[repr(C)]
#[derive(Clone, Copy, Debug, PartialEq, Eq)]
pub struct Session {
    /// Characters received; when stopped, those consumed.
    pub received: u64,
    /// What was counted.
    pub tally: Tally,
    /// 0 open, 1 closed, 2 stopped.
    pub status: u32,
    /// The number of the machine's state.
    pub state: u16,
    /// How many characters are held.
    pub held_count: u16,
    /// The characters held; places from `held_count` on are 0.
    pub held: [u16; HELD_SIZE],
    /// How often each rule was used, at its number, the default on one unit, at
    /// [`USES_DEFAULT`], and on a pair, at [`USES_PAIRS`].
    pub uses: [u64; USES_SIZE],
}

impl Session {
    /// "Fresh: open, all 0."
    pub const FRESH: Session = Session {
        received: 0,
        tally: Tally {
            produced: 0,
            steps: 0,
        },
        status: 0,
        state: 0,
        held_count: 0,
        held: [0; HELD_SIZE],
        uses: [0; USES_SIZE],
    };
}

/// An input that shows a rule, as the header's `cobbletwill_input`.
#[repr(C)]
#[derive(Clone, Copy, Debug, PartialEq, Eq)]
pub struct Input {
    /// How many characters it has; 0 where no input shows the rule.
    pub length: u16,
    /// The characters; places from `length` on are 0.
    pub characters: [u16; INPUT_SIZE],
}

// The header's layout, which has no padding.
const _: () = {
    assert!(size_of::<Input>() == 20 && align_of::<Input>() == 2);
    assert!(offset_of!(Input, length) == 0);
    assert!(offset_of!(Input, characters) == 2);
    assert!(size_of::<Tally>() == 16 && align_of::<Tally>() == 8);
    assert!(size_of::<Session>() == 320 && align_of::<Session>() == 8);
    assert!(offset_of!(Tally, produced) == 0);
    assert!(offset_of!(Tally, steps) == 8);
    assert!(offset_of!(Session, received) == 0);
    assert!(offset_of!(Session, tally) == 8);
    assert!(offset_of!(Session, status) == 24);
    assert!(offset_of!(Session, state) == 28);
    assert!(offset_of!(Session, held_count) == 30);
    assert!(offset_of!(Session, held) == 32);
    assert!(offset_of!(Session, uses) == 48);
};

/// The declarations, as C has them.
mod c {
    use super::{Input, Session, USES_SIZE};

    extern "C" {
        pub fn cobbletwill_version() -> u32;

        pub fn cobbletwill_check(table: *const u8, table_length: usize) -> u32;

        pub fn cobbletwill_convert(
            table: *const u8,
            table_length: usize,
            input: *const u16,
            input_length: usize,
            output: *mut u16,
            output_length: usize,
            place: *mut u64,
            written: *mut u64,
        ) -> u32;

        pub fn cobbletwill_from_text(
            text: *const u16,
            text_length: usize,
            table: *mut u8,
            table_length: usize,
            length: *mut u64,
        ) -> u32;

        pub fn cobbletwill_compile(
            table: *const u8,
            table_length: usize,
            words: *mut u16,
            words_length: usize,
        ) -> u32;

        pub fn cobbletwill_witness(
            table: *const u8,
            table_length: usize,
            words: *mut u16,
            words_length: usize,
            rule: u32,
            input: *mut Input,
        ) -> u32;

        pub fn cobbletwill_is_sound(words: *const u16, words_length: usize) -> u32;

        pub fn cobbletwill_feed_parts(
            words: *const u16,
            words_length: usize,
            session: *mut Session,
            uses: *mut [u64; USES_SIZE],
            piece: *const u16,
            piece_length: usize,
            output: *mut u16,
            output_length: usize,
            written: *mut u64,
        ) -> u32;

        pub fn cobbletwill_finish_parts(
            words: *const u16,
            words_length: usize,
            session: *mut Session,
            uses: *mut [u64; USES_SIZE],
            output: *mut u16,
            output_length: usize,
            written: *mut u64,
        ) -> u32;

        pub fn cobbletwill_preview_parts(
            words: *const u16,
            words_length: usize,
            session: *const Session,
            uses: *const [u64; USES_SIZE],
            piece: *const u16,
            piece_length: usize,
            later: *mut Session,
            later_uses: *mut [u64; USES_SIZE],
            written: *mut u64,
        ) -> u32;

        pub fn cobbletwill_chain_feed_parts(
            first_words: *const u16,
            first_words_length: usize,
            first: *mut Session,
            first_uses: *mut [u64; USES_SIZE],
            second_words: *const u16,
            second_words_length: usize,
            second: *mut Session,
            second_uses: *mut [u64; USES_SIZE],
            piece: *const u16,
            piece_length: usize,
            middle: *mut u16,
            middle_length: usize,
            output: *mut u16,
            output_length: usize,
            written: *mut u64,
            first_status: *mut u32,
        ) -> u32;

        pub fn cobbletwill_chain_finish_parts(
            first_words: *const u16,
            first_words_length: usize,
            first: *mut Session,
            first_uses: *mut [u64; USES_SIZE],
            second_words: *const u16,
            second_words_length: usize,
            second: *mut Session,
            second_uses: *mut [u64; USES_SIZE],
            middle: *mut u16,
            middle_length: usize,
            output: *mut u16,
            output_length: usize,
            written: *mut u64,
            first_status: *mut u32,
        ) -> u32;
    }
}

/// The version of the library that is linked: 65,536 times the first of its three numbers,
/// 256 times the second, and the third, so that 0.11.0 is 2,816.
pub fn version() -> u32 {
    // SAFETY: the function takes nothing.
    unsafe { c::cobbletwill_version() }
}

/// The table check: 0, or the number of a refusal.
pub fn check(table: &[u8]) -> u32 {
    // SAFETY: the pointer and the length are those of a slice, which the
    // function only reads.
    unsafe { c::cobbletwill_check(table.as_ptr(), table.len()) }
}

/// Direct conversion: 0 for closed or 64 for stopped, with the place and the
/// number of characters written set, or the number of a refusal.
pub fn convert(
    table: &[u8],
    input: &[u16],
    output: &mut [u16],
    place: &mut u64,
    written: &mut u64,
) -> u32 {
    // SAFETY: each pointer and length are those of a slice, and what is written
    // is borrowed for this call alone.
    unsafe {
        c::cobbletwill_convert(
            table.as_ptr(),
            table.len(),
            input.as_ptr(),
            input.len(),
            output.as_mut_ptr(),
            output.len(),
            place,
            written,
        )
    }
}

/// The records of a typed text: 0 with their length in bytes set, or the number of
/// a refusal.
pub fn from_text(text: &[u16], table: &mut [u8], length: &mut u64) -> u32 {
    // SAFETY: each pointer and length are those of a slice, and what is written
    // is borrowed for this call alone.
    unsafe {
        c::cobbletwill_from_text(
            text.as_ptr(),
            text.len(),
            table.as_mut_ptr(),
            table.len(),
            length,
        )
    }
}

/// Compiling: 0 with the words of the table, or the number of a refusal.
pub fn compile(table: &[u8], words: &mut [u16]) -> u32 {
    // SAFETY: each pointer and length are those of a slice, and what is written
    // is borrowed for this call alone.
    unsafe { c::cobbletwill_compile(table.as_ptr(), table.len(), words.as_mut_ptr(), words.len()) }
}

/// Whether a rule can be chosen: 0 for a live rule, with an input set on which it is the
/// first choice, or 66 for a dead one, a number that no rule has included, with the
/// input of no characters set; else the number of a refusal of [`compile`], which leaves
/// the input as found. The words are those that [`compile`] leaves.
pub fn witness(table: &[u8], words: &mut [u16], rule: u32, input: &mut Input) -> u32 {
    // SAFETY: each pointer and length are those of a slice, the input has the layout of
    // the header's, and what is written is borrowed for this call alone.
    unsafe {
        c::cobbletwill_witness(
            table.as_ptr(),
            table.len(),
            words.as_mut_ptr(),
            words.len(),
            rule,
            input,
        )
    }
}

/// The test of words: 1 for sound words, else 0.
pub fn is_sound(words: &[u16]) -> u32 {
    // SAFETY: the pointer and the length are those of a slice, which the
    // function only reads.
    unsafe { c::cobbletwill_is_sound(words.as_ptr(), words.len()) }
}

/// A feed: 65 for open or 64 for stopped, with the number of characters written
/// set, or the number of a refusal.
pub fn feed(
    words: &[u16],
    session: &mut Session,
    piece: &[u16],
    output: &mut [u16],
    written: &mut u64,
) -> u32 {
    let (session, uses) = parts(session);
    // SAFETY: each pointer and length are those of a slice, the session has the
    // layout of the header's, of which the function touches but the part before
    // the counts, and what is written is borrowed for this call alone.
    unsafe {
        c::cobbletwill_feed_parts(
            words.as_ptr(),
            words.len(),
            session,
            uses,
            piece.as_ptr(),
            piece.len(),
            output.as_mut_ptr(),
            output.len(),
            written,
        )
    }
}

/// A finish: 0 for closed or 64 for stopped, else as [`feed`].
pub fn finish(words: &[u16], session: &mut Session, output: &mut [u16], written: &mut u64) -> u32 {
    let (session, uses) = parts(session);
    // SAFETY: as for a feed.
    unsafe {
        c::cobbletwill_finish_parts(
            words.as_ptr(),
            words.len(),
            session,
            uses,
            output.as_mut_ptr(),
            output.len(),
            written,
        )
    }
}

/// A preview: what [`feed`] answers with enough output, with the later session and
/// the number of characters that it would write set, or the number of a refusal,
/// which is never 15.
pub fn preview(
    words: &[u16],
    session: &Session,
    piece: &[u16],
    later: &mut Session,
    written: &mut u64,
) -> u32 {
    let (later, later_uses) = parts(later);
    // SAFETY: each pointer and length are those of a slice, the sessions have the
    // layout of the header's, of which the function touches but the part before
    // the counts, and what is written is borrowed for this call alone.
    unsafe {
        c::cobbletwill_preview_parts(
            words.as_ptr(),
            words.len(),
            session,
            &session.uses,
            piece.as_ptr(),
            piece.len(),
            later,
            later_uses,
            written,
        )
    }
}

/// A feed of a chain, which feeds the first's text to the second: the second's status,
/// 65 for open or 64 for stopped, with the number of characters that the second wrote
/// and the first's status by the same numbers set; else the number of a refusal. The
/// first's text is left in the middle buffer.
#[allow(
    clippy::too_many_arguments,
    reason = "what the header's function is lent"
)]
pub fn chain_feed(
    first_words: &[u16],
    first: &mut Session,
    second_words: &[u16],
    second: &mut Session,
    piece: &[u16],
    middle: &mut [u16],
    output: &mut [u16],
    written: &mut u64,
    first_status: &mut u32,
) -> u32 {
    let ((first, first_uses), (second, second_uses)) = (parts(first), parts(second));
    // SAFETY: each pointer and length are those of a slice, the sessions have the
    // layout of the header's, of which the function touches but the part before
    // the counts, and what is written is borrowed for this call alone.
    unsafe {
        c::cobbletwill_chain_feed_parts(
            first_words.as_ptr(),
            first_words.len(),
            first,
            first_uses,
            second_words.as_ptr(),
            second_words.len(),
            second,
            second_uses,
            piece.as_ptr(),
            piece.len(),
            middle.as_mut_ptr(),
            middle.len(),
            output.as_mut_ptr(),
            output.len(),
            written,
            first_status,
        )
    }
}

/// A finish of a chain, of the first and, where the first closed, of the second: 0 for
/// closed, 64 for stopped, or 65 where the first stopped and the second is still open;
/// else as [`chain_feed`].
#[allow(
    clippy::too_many_arguments,
    reason = "what the header's function is lent"
)]
pub fn chain_finish(
    first_words: &[u16],
    first: &mut Session,
    second_words: &[u16],
    second: &mut Session,
    middle: &mut [u16],
    output: &mut [u16],
    written: &mut u64,
    first_status: &mut u32,
) -> u32 {
    let ((first, first_uses), (second, second_uses)) = (parts(first), parts(second));
    // SAFETY: as for a feed.
    unsafe {
        c::cobbletwill_chain_finish_parts(
            first_words.as_ptr(),
            first_words.len(),
            first,
            first_uses,
            second_words.as_ptr(),
            second_words.len(),
            second,
            second_uses,
            middle.as_mut_ptr(),
            middle.len(),
            output.as_mut_ptr(),
            output.len(),
            written,
            first_status,
        )
    }
}

/// A session and its counts, the two parts that it is lent in.
fn parts(session: &mut Session) -> (*mut Session, *mut [u64; USES_SIZE]) {
    let session: *mut Session = session;
    // SAFETY: the pointer is that of a session.
    (session, unsafe { &raw mut (*session).uses })
}

/// "With the number 0 the pointer is not used and may be null."
#[cfg(test)]
mod tests {
    use std::ptr::{null, null_mut};

    use super::{c, parts, Input, Session, WORDS_SIZE};

    /// One rule without output, which takes `a`.
    const TABLE: [u8; 16] = [1, 1, 0, 0, 0, 0, 0, 0, 2, 0, 0, 0, 97, 0, 97, 0];

    #[test]
    fn an_empty_table_or_no_words() {
        let found = Input {
            length: 17,
            characters: [19; 9],
        };
        let (mut words, mut input) = (vec![7; WORDS_SIZE], found);
        let (room, to) = (words.as_mut_ptr(), &mut input);
        // SAFETY: with the length 0 a pointer is not used; the others are those of the
        // words and of an input borrowed for this call alone.
        unsafe {
            assert_eq!(c::cobbletwill_check(null(), 0), 5);
            assert_eq!(c::cobbletwill_compile(null(), 0, null_mut(), 0), 10);
            assert_eq!(c::cobbletwill_witness(null(), 0, null_mut(), 0, 0, to), 10);
            assert_eq!(
                c::cobbletwill_witness(null(), 0, room, WORDS_SIZE, 0, to),
                5
            );
            assert_eq!(c::cobbletwill_is_sound(null(), 0), 0);
        }
        assert_eq!(input, found);
        assert!(words.iter().all(|&word| word == 0));
    }

    #[test]
    fn empty_inputs_and_outputs_of_a_conversion() {
        let (table, length) = (TABLE.as_ptr(), TABLE.len());
        let (mut place, mut written) = (17, 19);
        // SAFETY: with the length 0 a pointer is not used; the others are those
        // of a slice and of numbers that are borrowed for this call alone.
        let mut convert = |table, length| unsafe {
            let output = null_mut();
            c::cobbletwill_convert(
                table,
                length,
                null(),
                0,
                output,
                0,
                &mut place,
                &mut written,
            )
        };
        assert_eq!(convert(null(), 0), 5);
        assert_eq!(convert(table, length), 0);
        assert_eq!((place, written), (0, 0));
    }

    #[test]
    fn empty_texts_and_tables_of_typed_rules() {
        let text: Vec<u16> = "\"a\"==>[];".encode_utf16().collect();
        let mut length = 17;
        // SAFETY: with the length 0 a pointer is not used; the others are those
        // of a slice and of a number that is borrowed for this call alone.
        let mut from_text = |text, count| unsafe {
            c::cobbletwill_from_text(text, count, null_mut(), 0, &mut length)
        };
        assert_eq!(from_text(null(), 0), 5);
        assert_eq!(from_text(text.as_ptr(), text.len()), 15);
        assert_eq!(length, 17);
    }

    #[test]
    fn empty_pieces_and_outputs_of_a_session() {
        let mut words = vec![0; WORDS_SIZE];
        assert_eq!(super::compile(&TABLE, &mut words), 0);
        let (words, length) = (words.as_ptr(), words.len());
        let (mut session, mut later, mut written) = (Session::FRESH, Session::FRESH, 19);
        // SAFETY: with the length 0 a pointer is not used; the others are those
        // of the words, of sessions and of a number borrowed for this call alone.
        unsafe {
            let ((at, uses), out, n) = (parts(&mut session), null_mut(), &mut written);
            let (to, counts) = parts(&mut later);
            let seen =
                c::cobbletwill_preview_parts(words, length, at, uses, null(), 0, to, counts, n);
            assert_eq!((seen, *n), (65, 0));
            let fed = c::cobbletwill_feed_parts(words, length, at, uses, null(), 0, out, 0, n);
            assert_eq!((fed, *n), (65, 0));
            let refused = c::cobbletwill_finish_parts(null(), 0, at, uses, out, 0, n);
            assert_eq!(refused, 11);
            let closed = c::cobbletwill_finish_parts(words, length, at, uses, out, 0, n);
            assert_eq!((closed, *n), (0, 0));
        }
    }

    #[test]
    fn empty_pieces_and_buffers_of_a_chain() {
        let mut words = vec![0; WORDS_SIZE];
        assert_eq!(super::compile(&TABLE, &mut words), 0);
        let (words, length) = (words.as_ptr(), words.len());
        let (mut first, mut second) = (Session::FRESH, Session::FRESH);
        let (mut written, mut first_status) = (19, 17);
        // SAFETY: with the length 0 a pointer is not used; the others are those
        // of the words, of sessions and of numbers borrowed for this call alone.
        unsafe {
            let ((one, counts), (two, uses)) = (parts(&mut first), parts(&mut second));
            let (out, n, of_first) = (null_mut(), &mut written, &mut first_status);
            let refused = c::cobbletwill_chain_finish_parts(
                words,
                length,
                one,
                counts,
                null(),
                0,
                two,
                uses,
                out,
                0,
                out,
                0,
                n,
                of_first,
            );
            assert_eq!((refused, *n, *of_first), (11, 19, 17));
            let fed = c::cobbletwill_chain_feed_parts(
                words,
                length,
                one,
                counts,
                words,
                length,
                two,
                uses,
                null(),
                0,
                out,
                0,
                out,
                0,
                n,
                of_first,
            );
            assert_eq!((fed, *n, *of_first), (65, 0, 65));
            let closed = c::cobbletwill_chain_finish_parts(
                words, length, one, counts, words, length, two, uses, out, 0, out, 0, n, of_first,
            );
            assert_eq!((closed, *n, *of_first), (0, 0, 0));
        }
    }
}
