//! Request \[8\] against the independent version: tables with marked defaults, directly
//! and by lists of calls cut at every place, words and sessions that are damaged where
//! the request has them.

use std::collections::BTreeMap;

use compare::both;
use compare::calls::{compare, fed, random_call, roomy_feed, ROOMY_FINISH};
use compare::cases::Case;
use compare::face::{self, Session, OK, OPEN, USES_PAIRS};
use compare::lists::{assert_used, Called, Compiled};
use compare::pairs::{has_target, holding, marked_tables, moved, with_word, Feature};
use compare::uses::used_more;
use reference::builder::encode;
use reference::compile::compiled;
use reference::meaning::Choice;
use reference::pairs::{begins_with_pair, is_first_unit};
use reference::random::Random;
use reference::samples::{random_input, units};
use reference::words::WORDS;

/// The seed of the random tables.
const SEED: u64 = 2781;
/// How many tables are compared.
const TABLES: usize = 50_000;
/// The characters of an input that is cut at every place.
const CUT: usize = 8;
/// How many machines have their words and sessions damaged.
const BASES: usize = 3_000;
/// The places of E and of the default's mode in the header.
const MOST_OUTPUTS: usize = 3;
const MODE: usize = 5;

/// Each table directly and by a list of 2 to 16 calls, with previews. Two thirds of the
/// inputs' parts are words of rules, a third are units, of which three of five are
/// pairs; a tenth of the pieces and more ends in a first unit. Of the tables one in a
/// hundred writes nothing at all, and the rest of the features are more common. The
/// guards are a third of that or less.
#[test]
fn random_tables_directly_and_by_lists_of_calls() {
    let mut random = Random::new(SEED + 1);
    let mut had: BTreeMap<Feature, usize> = BTreeMap::new();
    let mut codes: BTreeMap<u32, usize> = BTreeMap::new();
    let (mut waits, mut pairs, mut compiled) = (0, 0, 0);
    for table in marked_tables(SEED).take(TABLES) {
        for sort in Feature::ALL {
            *had.entry(sort).or_default() += usize::from(sort.is_of(&table));
        }
        let bytes = encode(&table);
        let converted = both::convert(&Case::under(&mut random, bytes.clone(), &table));
        *codes.entry(converted.code).or_default() += 1;
        let Some(machine) = Compiled::of(table) else {
            continue;
        };
        assert!(both::compile(&bytes, WORDS).1 == machine.words);
        compiled += 1;
        let calls = random.between(2, 16);
        let called = Called::random(&mut random, &machine, calls, |_, _, left| {
            let session = &left.session;
            waits += usize::from(session.state == 0 && session.held_count == 1);
        });
        called.assert_reckoned(&machine);
        pairs += usize::from(called.session.uses[USES_PAIRS] > 0);
    }
    println!("{had:?} {codes:?}, {compiled} compiled, {waits} waits, {pairs} with pairs");
    assert!(
        had.values().all(|&tables| tables >= TABLES / 300),
        "{had:?}"
    );
    assert_eq!(codes.keys().copied().collect::<Vec<_>>(), [OK, 15]);
    assert!(
        codes.values().all(|&cases| cases >= TABLES / 10),
        "{codes:?}"
    );
    assert!(compiled >= TABLES / 2, "{compiled}");
    assert!(waits >= TABLES / 10, "{waits}");
    assert!(pairs >= TABLES / 3, "{pairs}");
}

/// Feeds the two parts of an input with an empty piece between, and finishes; each call
/// is compared. Answers the session, the text and whether a first unit waited.
fn cut(words: &[u16], input: &[u16], place: usize) -> (Session, Vec<u16>, bool) {
    let (mut session, mut text, mut waited) = (Session::FRESH, Vec::new(), false);
    let pieces = [&input[..place], &[], &input[place..]];
    for call in pieces.map(roomy_feed).into_iter().chain([ROOMY_FINISH]) {
        let left = compare(words, session, &call);
        text.extend(left.text());
        session = left.session;
        waited |= session.state == 0 && session.held_count == 1;
    }
    assert_used(words, &session);
    (session, text, waited)
}

/// Each table over an input that is cut at every place, between the units of a pair
/// among them: the text and the session are those of the whole.
#[test]
fn inputs_cut_at_every_place() {
    let mut random = Random::new(SEED + 3);
    let (mut waits, mut between) = (0, 0);
    for machine in marked_tables(SEED + 2)
        .filter_map(Compiled::of)
        .take(TABLES)
    {
        let input = random_input(&mut random, &machine.automaton.table, CUT);
        let whole = fed(&machine.words, [&input[..]].into_iter());
        for place in 0..=CUT {
            let (session, text, waited) = cut(&machine.words, &input, place);
            assert_eq!((session, text), whole, "{input:x?} at {place}");
            waits += usize::from(waited);
            between += usize::from(place > 0 && begins_with_pair(&input[place - 1..]));
        }
    }
    println!("{waits} waits, {between} cuts between two units");
    assert!(waits >= TABLES / 3, "{waits}");
    assert!(between >= TABLES / 3, "{between}");
}

/// The inputs of the rows that the independent version has by hand, and more, under a
/// table in which some first units have a target: every cut, with an empty feed.
#[test]
fn rows_cut_at_every_place() {
    let words = compiled(&units()).unwrap();
    let rows: [&[u16]; 8] = [
        &[0xD800, 0xDC00],
        &[0xD800],
        &[97, 0xD800, 0xDC00],
        &[0xD800, 0xD800, 0xDC00],
        &[0xD801, 0xDC00, 0xD801],
        &[0xD801, 98, 0xD801, 0xD801, 98],
        &[0xDBFF, 0xDFFF, 0xDFFF, 0xDBFF],
        &[97, 0xDBFF, 97, 98, 0xDC00, 0xD7FF, 0xE000, 0xD800],
    ];
    for row in rows {
        let whole = fed(&words, [row].into_iter());
        for place in 0..=row.len() {
            let (session, text, _) = cut(&words, row, place);
            assert_eq!((session, text), whole, "{row:x?} at {place}");
        }
        let mut output = vec![0; 8 * row.len()];
        let direct = face::converted(&units(), row, &mut output).unwrap();
        assert_eq!(whole.1, output[..direct.count], "{row:x?}");
    }
}

/// Marked machines, each with a sound session that has used every group and holds
/// nothing.
fn bases(seed: u64) -> impl Iterator<Item = (Compiled, Session)> {
    let mut random = Random::new(seed + 1);
    let machines = marked_tables(seed).filter_map(Compiled::of).take(BASES);
    machines.map(move |machine| {
        let session = used_more(&mut random, &machine.words, &Session::FRESH);
        (machine, session)
    })
}

/// Compares a feed and a finish of a session; answers whether it is sound under the
/// words, which are.
fn is_sound(words: &[u16], session: Session) -> bool {
    let codes =
        [roomy_feed(&[0xDC00]), ROOMY_FINISH].map(|call| compare(words, session, &call).code);
    let refused = codes.map(|code| code == 12);
    assert_eq!(refused[0], refused[1], "{codes:?} {session:?}");
    !refused[0]
}

/// "The mark is set, the unit is a first unit and state 0 has no target for it." About
/// half of the tables have a rule that begins with one of the first units tried.
#[test]
fn sessions_that_hold_characters_at_state_0() {
    let mut random = Random::new(SEED + 5);
    let (mut sound, mut with_target) = (0, 0);
    for (machine, base) in bases(SEED + 6) {
        let words = &machine.words;
        let units = [
            0xD800,
            0xD801,
            0xDBFF,
            random.between(0xD800, 0xDBFF) as u16,
        ];
        let others = [0, 97, 0xD7FF, 0xDC00, 0xDFFF, 0xE000, random.character()];
        for unit in units.into_iter().chain(others) {
            let waits = is_first_unit(unit) && !has_target(words, unit);
            assert_eq!(is_sound(words, holding(&base, &[unit])), waits, "{unit:x}");
            sound += usize::from(waits);
            with_target += usize::from(is_first_unit(unit) && !waits);
        }
        for held in [&[0xD800, 0xDC00][..], &[0xD800, 0xD800], &[0xDBFF; 8]] {
            assert!(!is_sound(words, holding(&base, held)), "{held:x?}");
        }
    }
    assert!(
        sound >= BASES && with_target >= BASES / 3,
        "{sound} {with_target}"
    );
}

/// The step of a waiting unit: its back. A fresh session that holds one may have made
/// one step, and none that has two.
#[test]
fn steps_of_a_waiting_unit() {
    let words = compiled(&units()).unwrap();
    for (steps, sound) in [(0, true), (1, true), (2, false), (u64::MAX, false)] {
        let mut session = holding(&Session::FRESH, &[0xD800]);
        session.tally.steps = steps;
        assert_eq!(is_sound(&words, session), sound, "{steps}");
    }
}

/// Under the words of the unmarked table no unit waits, and pairs were not used; under
/// those of no default neither, nor was the default.
#[test]
fn sessions_whose_mark_is_taken_away() {
    for (machine, base) in bases(SEED + 8) {
        let [single, absent] = [1, 0].map(|mode| with_word(&machine.words, MODE, mode));
        assert!(is_sound(&machine.words, base));
        assert!(!is_sound(&single, base) && !is_sound(&absent, base));
        let pairs = base.uses[USES_PAIRS];
        let without = moved(&base, Choice::Pair, Choice::Default, pairs, 2);
        assert!(is_sound(&single, without) && !is_sound(&absent, without));
        let unit = holding(&without, &[0xDBFF]);
        let waits = !has_target(&machine.words, 0xDBFF);
        assert_eq!(is_sound(&machine.words, unit), waits);
        assert!(!is_sound(&single, unit));
    }
}

/// Pair counts moved: one more, one less, one over to the default; two of the default's
/// for one pair are not told apart.
#[test]
fn counts_of_pairs_that_are_moved() {
    for (machine, base) in bases(SEED + 10) {
        for (uses, sound) in [(1, false), (2u64.pow(63), false), (0, true)] {
            let mut more = base;
            more.uses[USES_PAIRS] += uses;
            assert_eq!(is_sound(&machine.words, more), sound);
        }
        let mut less = base;
        less.uses[USES_PAIRS] -= 1;
        assert!(!is_sound(&machine.words, less));
        let to_default = |each| moved(&base, Choice::Pair, Choice::Default, 1, each);
        assert!(!is_sound(&machine.words, to_default(1)));
        assert!(is_sound(&machine.words, to_default(2)));
        let from_default = moved(&base, Choice::Default, Choice::Pair, 1, 1);
        assert!(!is_sound(&machine.words, from_default));
    }
}

/// Word 5 is 0, 1 or 2, and with 2 word 3 is at least 1. Calls are refused by 11
/// otherwise. Of the tables one in a hundred has no group that writes anything, so that
/// its E is 1 by the mark alone, and without the mark 0 would do; no other has words of
/// E = 0 that are sound.
#[test]
fn words_of_every_mode() {
    let mut random = Random::new(SEED + 12);
    let mut silent = 0;
    for (machine, base) in bases(SEED + 13) {
        let words = &machine.words;
        let call = random_call(&mut random, words, &base, &mut &[0xD800, 0xDC00][..]);
        let assert_mode = |most: u16, mode: u16, sound: bool| {
            let changed = with_word(&with_word(words, MOST_OUTPUTS, most), MODE, mode);
            assert_eq!(both::is_sound(&changed), sound, "{most} {mode}");
            let code = compare(&changed, base, &call).code;
            assert_eq!(code == 11, !sound, "{most} {mode}");
        };
        let most = words[MOST_OUTPUTS];
        assert_eq!(words[MODE], 2);
        for mode in 0..=2 {
            assert_mode(most, mode, true);
        }
        for mode in [
            3,
            4,
            255,
            256,
            258,
            32768,
            65535,
            random.between(3, 65535) as u16,
        ] {
            assert_mode(most, mode, false);
        }
        assert_mode(0, 2, false);
        let is_silent = Feature::AllSilent.is_of(&machine.automaton.table);
        assert!(most == 1 || !is_silent);
        assert_mode(0, 1, is_silent);
        silent += usize::from(is_silent);
    }
    assert!(silent >= BASES / 300, "{silent}");
}

/// The default's block is looked at where word 5 is not 0.
#[test]
fn blocks_of_the_default_in_every_mode() {
    // Block 32: its K, which is 1, and whether it is anchored, which it is not.
    let block = 17222 + 83 * 32;
    for (machine, _) in bases(SEED + 15) {
        for (place, word) in [(block, 0), (block, 2), (block + 1, 1), (block + 2, 9)] {
            let damaged = with_word(&machine.words, place, word);
            for mode in 0..=2 {
                let sound = both::is_sound(&with_word(&damaged, MODE, mode));
                assert_eq!(sound, mode == 0, "{place} {word}");
            }
        }
    }
}

/// A marked record of kind 5 and every other byte 1, through the table check, direct
/// conversion and compiling.
#[test]
fn every_byte_1_of_a_default_record() {
    let mut table = units();
    let at = table.len() - 23;
    assert_eq!(table[at - 1..=at], [5, 1]);
    for byte in 0..=u8::MAX {
        table[at] = byte;
        let expected = if byte <= 1 { OK } else { 2 };
        assert_eq!(both::compile(&table, WORDS).0, expected, "{byte}");
        let case = Case {
            table: table.clone(),
            input: vec![0xD800, 0xDC00, 97],
            output: vec![7; 3],
        };
        assert_eq!(both::convert(&case).code, expected, "{byte}");
    }
}

/// Without the mark the same tables make no pairs, and nothing waits.
#[test]
fn the_same_tables_without_the_mark() {
    let mut random = Random::new(SEED + 17);
    let mut open = 0;
    for mut table in marked_tables(SEED).take(BASES) {
        let input = random_input(&mut random, &table, 40);
        table.marked = false;
        let Some(machine) = Compiled::of(table) else {
            continue;
        };
        let left = compare(&machine.words, Session::FRESH, &roomy_feed(&input));
        assert_eq!(left.session.uses[USES_PAIRS], 0);
        assert!(left.session.state != 0 || left.session.held_count == 0);
        open += usize::from(left.code == OPEN);
    }
    assert!(open >= BASES / 2, "{open}");
}
