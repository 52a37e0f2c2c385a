//! Two machines in a row. Texts, statuses and counts are worked out by hand: the first
//! table's text of the input by Definition 7, then the second's of that text.

use crate::tables::{plain, splits, t1, t2, t3, units};
use cobbletwill::raw::{self, USES_DEFAULT};
use cobbletwill::{Chain, ChainProgress, Machine, Refusal, Session, Status, MAX_CHARACTERS};

use Status::{Closed, Open, Stopped};

fn compile(table: &[u8]) -> Machine {
    Machine::compile(table).expect("compiles")
}

/// Rules that each take one text and write another, and no default.
fn rules(rules: &[(&str, &str)]) -> Machine {
    let rules = rules
        .iter()
        .map(|(pattern, text)| plain(pattern, false, text));
    compile(&rules.collect::<Vec<_>>().concat().concat())
}

/// A feed with just the output that is needed. Beyond what was written the output is as
/// found.
fn feed(chain: &mut Chain, piece: &[u16], text: &mut Vec<u16>) -> ChainProgress {
    let mut output = vec![7; chain.feed_room(piece.len())];
    let fed = chain.feed(piece, &mut output).expect("accepted");
    assert!(output[fed.written..].iter().all(|&unit| unit == 7));
    text.extend(&output[..fed.written]);
    fed
}

fn finish(chain: &mut Chain, text: &mut Vec<u16>) -> ChainProgress {
    let mut output = vec![7; chain.finish_room()];
    let finished = chain.finish(&mut output).expect("accepted");
    text.extend(&output[..finished.written]);
    finished
}

/// The joined output of pieces and, unless one of them ends the chain, a finish; and both
/// statuses at the end. Whatever is called then is refused by 13.
fn run(chain: &mut Chain, pieces: &[&[u16]]) -> (Vec<u16>, Status, Status) {
    let mut text = Vec::new();
    let mut fed = pieces.iter().map(|piece| feed(chain, piece, &mut text));
    let ended = fed.find(|fed| fed.first != Open || fed.second != Open);
    let last = ended.unwrap_or_else(|| finish(chain, &mut text));
    let found = (*chain.first(), *chain.second());
    assert_eq!(chain.feed(&[97], &mut [7; 99]), Err(Refusal::Ended));
    assert_eq!(chain.finish(&mut [7; 99]), Err(Refusal::Ended));
    assert_eq!((*chain.first(), *chain.second()), found);
    (text, last.first, last.second)
}

/// However the input is cut, the chain writes a text and ends so.
fn expect(first: &Machine, second: &Machine, input: &str, text: &str, ends: (Status, Status)) {
    let (input, text) = (units(input), units(text));
    for pieces in splits(&input) {
        let mut chain = Chain::new(first, second);
        let ended = run(&mut chain, &pieces);
        assert_eq!(ended, (text.clone(), ends.0, ends.1), "{pieces:?}");
    }
}

/// T1 undoes references, T3 writes 1 for `ab`, and T2 writes X for the last `a` and Y for
/// another: it closes on a text of `a` alone, and its X shows that it was finished.
#[test]
fn both_close() {
    let (t1, t2, t3) = (compile(&t1()), compile(&t2()), compile(&t3()));
    let closed = (Closed, Closed);
    expect(&t1, &t3, "&#97;b&#97;", "1a", closed);
    expect(&t1, &t2, "&#97;a&#97;", "YYX", closed);
    expect(&t2, &t3, "aa", "YX", closed);
    expect(&t1, &t2, "", "", closed);
    // T1 holds the last `&#` until the finish, and T3 is fed it there.
    expect(&t1, &t3, "a&#98;&#", "1&#", closed);
    // The first writes nothing, and the second is finished on nothing.
    expect(&rules(&[("0", "")]), &t2, "00", "", closed);
}

/// A text that was escaped twice, by one machine that is lent twice.
#[test]
fn the_same_machine_twice() {
    let t1 = compile(&t1());
    expect(&t1, &t1, "&#38;#38;", "&", (Closed, Closed));
    expect(&t1, &t1, "&#38;#38;#38;", "&#38;", (Closed, Closed));
}

/// "Otherwise a stop of the first ends it, the second isn't finished": T1 holds `&#`, which
/// a finish would write, and T2 an `a`.
#[test]
fn the_first_stops() {
    let (t1, t2) = (compile(&t1()), compile(&t2()));
    let references = rules(&[("a", "x&#"), ("bc", "y")]);
    let ended = (Stopped, Open);
    // In a feed, and at the finish, where `b` may have been the start of `bc`.
    expect(&references, &t1, "az", "x", ended);
    expect(&references, &t1, "ab", "x", ended);
    expect(&references, &t1, "z", "", ended);
    expect(&rules(&[("b", "a")]), &t2, "bbz", "Y", ended);

    // What it would have written, the second session still has.
    let mut chain = Chain::new(&references, &t1);
    run(&mut chain, &[&units("az")]);
    let (mut second, mut text) = (*chain.second(), [7; 10]);
    let finished = second.finish(&t1, &mut text).expect("accepted");
    assert_eq!((finished.status, &text[..3]), (Closed, &[38, 35, 7][..]));
}

/// "A stop of the second ends the chain as such", whatever the first did.
#[test]
fn the_second_stops() {
    let (t1, t2) = (compile(&t1()), compile(&t2()));
    // In the feed that brings the `b`, by itself or as `&#98;`.
    expect(&t1, &t2, "ab", "Y", (Open, Stopped));
    expect(&t1, &t2, "a&#97;&#98;", "YY", (Open, Stopped));
    // At the finish, where the first closes with `&#`.
    expect(&t1, &t2, "a&#", "Y", (Closed, Stopped));
    // The first stops too, at the `z`, once its text has the `b`.
    let first = rules(&[("a", "ab")]);
    let ended = run(&mut Chain::new(&first, &t2), &[&units("az")]);
    assert_eq!(ended, (units("Y"), Stopped, Stopped));
}

/// "A chain of two compiled machines feeds the first one's output to the second": after
/// each piece both sessions are those of two feeds by hand. T1 uses rule 1 twice and the default once, and T3 on
/// `aba` rule 0 and the default.
#[test]
fn the_sessions_are_those_of_each_machine_by_itself() {
    let (t1, t3) = (compile(&t1()), compile(&t3()));
    let input = units("&#97;b&#97;");
    for pieces in splits(&input) {
        let (mut first, mut second) = (Session::fresh(), Session::fresh());
        let mut chain = Chain::new(&t1, &t3);
        for piece in pieces {
            feed(&mut chain, piece, &mut Vec::new());
            let mut middle = vec![0; first.feed_room(&t1, piece.len())];
            let passed = first.feed(&t1, piece, &mut middle).expect("accepted");
            let mut output = vec![0; second.feed_room(&t3, passed.written)];
            let fed = second.feed(&t3, &middle[..passed.written], &mut output);
            assert_eq!(fed.map(|fed| fed.status), Ok(Open));
            assert_eq!((*chain.first(), *chain.second()), (first, second));
        }
        finish(&mut chain, &mut Vec::new());
        let (first, second) = (chain.first(), chain.second());
        assert_eq!((first.received, second.received), (11, 3));
        assert_eq!((first.uses(1), first.default_uses()), (2, 1));
        assert_eq!((second.uses(0), second.default_uses()), (1, 1));
    }
}

/// Sessions that were kept go on in another chain.
#[test]
fn a_chain_goes_on_from_kept_sessions() {
    let t1 = compile(&t1());
    let input = units("&#38;#38;&#38;#&#51;8;");
    for place in 0..=input.len() {
        let (mut chain, mut text) = (Chain::new(&t1, &t1), Vec::new());
        feed(&mut chain, &input[..place], &mut text);
        let (first, second) = (*chain.first(), *chain.second());
        let mut later = Chain::resume(&t1, first, &t1, second);
        let (rest, ..) = run(&mut later, &[&input[place..]]);
        assert_eq!([text, rest].concat(), units("&&"), "{place}");
    }
}

/// T1 twice, each of which has an E of 5, with so many characters held by each: the first
/// holds what may be a reference, and the second what the first has passed on.
const HELD: [(&str, usize, usize); 6] = [
    ("", 0, 0),
    ("&#3", 3, 0),
    ("&#38;", 0, 1),
    ("&#38;&", 1, 1),
    ("&#38;#3", 0, 3),
    ("&#38;#38&#00", 4, 4),
];

fn held<'a>(t1: &'a Machine, text: &str) -> Chain<'a> {
    let mut chain = Chain::new(t1, t1);
    feed(&mut chain, &units(text), &mut Vec::new());
    chain
}

/// "15 asks the second's E times the sum of its held and that least middle length."
#[test]
fn a_call_with_just_that_room_is_accepted() {
    let t1 = compile(&t1());
    for (text, first, second) in HELD {
        let chain = held(&t1, text);
        let counts = (chain.first().held_count, chain.second().held_count);
        assert_eq!(counts, (first as u16, second as u16), "{text}");
        let room = 5 * (second + 5 * first);
        assert_eq!(chain.finish_room(), room, "{text}");
        if room > 0 {
            let short = chain.clone().finish(&mut vec![0; room - 1]);
            assert_eq!(short, Err(Refusal::ShortOutput), "{text}");
        }
        assert!(chain.clone().finish(&mut vec![0; room]).is_ok(), "{text}");
        for length in 1..9 {
            let (room, piece) = (5 * (second + 5 * (first + length)), vec![48; length]);
            assert_eq!(chain.feed_room(length), room, "{text}");
            let short = chain.clone().feed(&piece, &mut vec![0; room - 1]);
            assert_eq!(short, Err(Refusal::ShortOutput), "{text}");
            let fed = chain.clone().feed(&piece, &mut vec![0; room]);
            assert!(fed.is_ok(), "{text}");
        }
    }
}

#[test]
fn the_longest_piece_is_accepted_and_no_longer_one() {
    let t1 = compile(&t1());
    for (text, first, second) in HELD {
        let chain = held(&t1, text);
        for room in 0..300 {
            let length = chain.longest_piece(room);
            let feed = |length| {
                let mut chain = chain.clone();
                chain.feed(&vec![48; length], &mut vec![0; room]).err()
            };
            let short = Some(Refusal::ShortOutput);
            assert_eq!(feed(length + 1), short, "{text} {room}");
            let none = room < 5 * (second + 5 * first);
            assert_eq!(feed(length), short.filter(|_| none), "{text} {room}");
            assert!(!none || length == 0);
        }
    }
}

/// A session of T1 that has received so many characters, all by the default.
fn received(characters: u64) -> Session {
    let mut session = Session::fresh();
    session.received = characters;
    session.uses[USES_DEFAULT] = characters;
    session
}

/// "Refusal 14 tests both sessions, the second with the least middle length as its piece":
/// 5 times the characters that the first holds and those of the piece.
#[test]
fn near_the_limit_of_characters() {
    let (t1, fresh) = (compile(&t1()), Session::fresh());
    let near = |left| received(MAX_CHARACTERS - left);
    let feed = |first, second, length: usize| {
        let mut chain = Chain::resume(&t1, first, &t1, second);
        chain.feed(&vec![48; length], &mut [0; 999]).err()
    };
    let long = Some(Refusal::TooLong);
    assert_eq!(feed(near(3), fresh, 3), None);
    assert_eq!(feed(near(3), fresh, 4), long);
    assert_eq!(feed(fresh, near(15), 3), None);
    assert_eq!(feed(fresh, near(14), 3), long);
    let chain = |first, second| Chain::resume(&t1, first, &t1, second);
    assert_eq!(chain(near(3), fresh).longest_piece(999), 3);
    assert_eq!(chain(fresh, near(15)).longest_piece(999), 3);
    assert_eq!(chain(fresh, near(14)).longest_piece(999), 2);

    // A finish passes on 5 times the one character held at most.
    let mut holding = fresh;
    holding.feed(&t1, &[38], &mut [0; 5]).expect("accepted");
    let finish = |second| chain(holding, second).finish(&mut [0; 999]).err();
    assert_eq!(finish(near(5)), None);
    assert_eq!(finish(near(4)), long);
}

/// Sessions that can't be sound: "0 for a session that can't be sound", and the call says
/// why not.
#[test]
fn sessions_that_are_not_sound_need_no_room() {
    let (t1, fresh) = (compile(&t1()), Session::fresh());
    let mut unsound = fresh;
    unsound.held_count = 9;
    for (first, second) in [(unsound, fresh), (fresh, unsound), (unsound, unsound)] {
        let mut chain = Chain::resume(&t1, first, &t1, second);
        assert_eq!(chain.longest_piece(99), 0);
        assert_eq!((chain.feed_room(7), chain.finish_room()), (0, 0));
        assert_eq!(chain.feed(&[97], &mut []), Err(Refusal::UnsoundSession));
        assert_eq!(chain.finish(&mut []), Err(Refusal::UnsoundSession));
        assert_eq!((*chain.first(), *chain.second()), (first, second));
    }
    assert_eq!(Chain::new(&t1, &t1).feed_room(usize::MAX), usize::MAX);
}

/// A call of the header on a chain of T1 and T1, with one thing or several wrong.
struct Call {
    first_words: Vec<u16>,
    first: Session,
    second_words: Vec<u16>,
    second: Session,
    middle: Vec<u16>,
    output: Vec<u16>,
}

impl Call {
    /// Sessions after `&#38;&#`, of which the first holds two characters and the second one:
    /// a feed of one character has a least middle length of 15 and needs an output of 80, a
    /// finish 10 and 55.
    fn new() -> Call {
        let t1 = compile(&t1());
        let chain = held(&t1, "&#38;&#");
        Call {
            first_words: t1.words().to_vec(),
            first: *chain.first(),
            second_words: t1.words().to_vec(),
            second: *chain.second(),
            middle: vec![7; 15],
            output: vec![7; 80],
        }
    }

    /// What a feed of `3` and a finish answer, each on what was found.
    fn answers(&self) -> (u32, u32) {
        let made = |finish: bool| {
            let (mut first, mut second) = (self.first, self.second);
            let (mut middle, mut output) = (self.middle.clone(), self.output.clone());
            let (mut written, mut first_status) = (17, 19);
            let answer = if finish {
                raw::chain_finish(
                    &self.first_words,
                    &mut first,
                    &self.second_words,
                    &mut second,
                    &mut middle,
                    &mut output,
                    &mut written,
                    &mut first_status,
                )
            } else {
                raw::chain_feed(
                    &self.first_words,
                    &mut first,
                    &self.second_words,
                    &mut second,
                    &[51],
                    &mut middle,
                    &mut output,
                    &mut written,
                    &mut first_status,
                )
            };
            if Refusal::from_number(answer).is_some() {
                assert_eq!((first, second), (self.first, self.second));
                assert_eq!((middle, output), (self.middle.clone(), self.output.clone()));
                assert_eq!((written, first_status), (17, 19));
            }
            answer
        };
        (made(false), made(true))
    }
}

/// A session that ended where it stood, with what it held given back.
fn ended(mut session: Session) -> Session {
    session.received = session.consumed();
    (session.state, session.held_count, session.held) = (0, 0, [0; 8]);
    session.status = 1;
    session
}

/// A session that has received so many characters less than the limit, those added by the
/// default.
fn fill(session: &mut Session, left: u64) {
    let added = MAX_CHARACTERS - left - session.received;
    session.received += added;
    session.uses[USES_DEFAULT] += added;
}

/// "Each of 11 to 14 is tested for the first, then the second", 18 "after 14 and before
/// 15". A call has all faults from one in this order on, and is refused by that one's number.
#[test]
fn refusals_in_their_order() {
    type Fault = (fn(&mut Call), u32);
    let faults: [Fault; 10] = [
        (|call| call.first_words.truncate(19_960), 11),
        (|call| call.second_words[0] = 0, 11),
        (|call| call.first.status = 3, 12),
        (|call| call.second.held[7] = 1, 12),
        (|call| call.first = ended(call.first), 13),
        (|call| call.second = ended(call.second), 13),
        (|call| fill(&mut call.first, 0), 14),
        (|call| fill(&mut call.second, 9), 14),
        (|call| call.middle.truncate(9), 18),
        (|call| call.output.truncate(54), 15),
    ];
    assert_eq!(Call::new().answers(), (65, 0));
    for from in 0..faults.len() {
        let mut call = Call::new();
        for (fault, _) in faults[from..].iter().rev() {
            fault(&mut call);
        }
        let number = faults[from].1;
        assert_eq!(call.answers(), (number, number), "fault {from}");
    }
}

/// 18 by one character: "the first's E times (held + piece), at finish E times its held".
/// 15 likewise.
#[test]
fn the_least_lengths_by_one() {
    for (length, answers) in [(15, (65, 0)), (14, (18, 0)), (10, (18, 0)), (9, (18, 18))] {
        let mut call = Call::new();
        call.middle.truncate(length);
        assert_eq!(call.answers(), answers, "{length}");
    }
    for (length, answers) in [(80, (65, 0)), (79, (15, 0)), (55, (15, 0)), (54, (15, 15))] {
        let mut call = Call::new();
        call.output.truncate(length);
        assert_eq!(call.answers(), answers, "{length}");
    }
}

/// Of `a&#98;c&#` T1 passes on `abc`, for which T3 writes `1c`, and at the finish `&#`.
#[test]
fn buffers_begin_with_the_texts_and_end_as_found() {
    let (t1, t3) = (compile(&t1()), compile(&t3()));
    let (mut first, mut second) = (Session::fresh(), Session::fresh());
    let (mut written, mut first_status) = (17, 19);
    let (mut middle, mut output) = ([7; 45], [8; 45]);
    let answer = raw::chain_feed(
        t1.words(),
        &mut first,
        t3.words(),
        &mut second,
        &units("a&#98;c&#"),
        &mut middle,
        &mut output,
        &mut written,
        &mut first_status,
    );
    assert_eq!((answer, first_status, written), (raw::OPEN, raw::OPEN, 2));
    assert_eq!(middle[..3], units("abc"));
    assert_eq!(output[..2], units("1c"));
    assert_eq!((&middle[3..], &output[2..]), (&[7; 42][..], &[8; 43][..]));

    let (mut middle, mut output) = ([7; 12], [8; 12]);
    let answer = raw::chain_finish(
        t1.words(),
        &mut first,
        t3.words(),
        &mut second,
        &mut middle,
        &mut output,
        &mut written,
        &mut first_status,
    );
    assert_eq!((answer, first_status, written), (raw::OK, raw::OK, 2));
    assert_eq!((&middle[..2], &output[..2]), (&[38, 35][..], &[38, 35][..]));
    assert_eq!((&middle[2..], &output[2..]), (&[7; 10][..], &[8; 10][..]));
}
