//! The machine words: the layout by hand, compiled words are sound and agree
//! with the table, and each clause of "Sound words" is looked at.

use reference::automaton::{Automaton, TableAutomaton};
use reference::builder::{encode, TableBuilder};
use reference::compile::compiled;
use reference::machine::Status;
use reference::meaning::Choice;
use reference::random::Random;
use reference::refusal::Refusal;
use reference::samples::{
    digits_and_sums, lookahead, random_input, random_table, random_word, two_digits,
};
use reference::session::{feed, finish, Answer, Session};
use reference::states::StateNo;
use reference::table::{Group, RuleNo};
use reference::words::{Words, WORDS};

// The places of document 01's layout, with request [1]'s blocks, written out.
const STATE_COUNT: usize = 0;
const CLASS_COUNT: usize = 1;
const LONGEST: usize = 2;
const MOST_OUTPUTS: usize = 3;
const RULE_COUNT: usize = 4;
const DEFAULT: usize = 5;

fn start(class: usize) -> usize {
    6 + class
}
fn depth(state: usize) -> usize {
    70 + 3 * state
}
fn end(state: usize) -> usize {
    70 + 3 * state + 1
}
fn go(state: usize) -> usize {
    70 + 3 * state + 2
}
fn target(state: usize, class: usize) -> usize {
    838 + 64 * state + class
}
fn length(block: usize) -> usize {
    17222 + 83 * block
}
fn anchored(block: usize) -> usize {
    17222 + 83 * block + 1
}
fn outputs(block: usize) -> usize {
    17222 + 83 * block + 2
}
fn sort(block: usize, output: usize) -> usize {
    17222 + 83 * block + 3 + 10 * output
}
fn constant(block: usize, output: usize) -> usize {
    sort(block, output) + 1
}
fn coefficient(block: usize, output: usize, position: usize) -> usize {
    sort(block, output) + 2 + position
}

/// Words that are 0 but for some.
fn words_with(values: &[(usize, u16)]) -> Vec<u16> {
    changed(vec![0; WORDS], values)
}

/// The words with some of them changed.
fn changed(mut words: Vec<u16>, values: &[(usize, u16)]) -> Vec<u16> {
    for &(place, value) in values {
        words[place] = value;
    }
    words
}

/// The words of the table `lookahead`, by hand. Its characters are `a` and `b`,
/// so the classes start at 0, `a`, `b` and `c`. State 1 is reached by `a` with
/// all three rules, of which anchored rule 0 is whole; state 2 by `aa` with rule
/// 1, state 3 by `ab` with anchored rule 2.
fn by_hand() -> Vec<u16> {
    words_with(&[
        (STATE_COUNT, 4),
        (CLASS_COUNT, 4),
        (LONGEST, 2),
        (MOST_OUTPUTS, 1),
        (RULE_COUNT, 3),
        (DEFAULT, 1),
        (start(1), 97),
        (start(2), 98),
        (start(3), 99),
        (depth(1), 1),
        (end(1), 1),
        (depth(2), 2),
        (end(2), 2),
        (go(2), 2),
        (depth(3), 2),
        (end(3), 3),
        (target(0, 1), 1),
        (target(1, 1), 2),
        (target(1, 2), 3),
        (length(0), 1),
        (anchored(0), 1),
        (outputs(0), 1),
        (constant(0, 0), 88),
        (length(1), 2),
        (outputs(1), 1),
        (constant(1, 0), 89),
        (length(2), 2),
        (anchored(2), 1),
        (outputs(2), 1),
        (constant(2, 0), 90),
        (length(32), 1),
        (outputs(32), 1),
        (coefficient(32, 0, 0), 1),
    ])
}

/// Whether feed and finish take the words for sound; refused, they change
/// nothing.
fn are_sound(words: &[u16]) -> bool {
    let mut session = Session::FRESH;
    let mut output = [7; 8];
    let by_feed = feed(words, &mut session, &[], &mut output);
    let by_finish = finish(words, &mut session.clone(), &mut output);
    assert_eq!(by_feed.is_ok(), by_finish.is_ok());
    if by_feed.is_err() {
        assert_eq!(by_feed, Err(Refusal::UnsoundWords));
        assert_eq!(by_finish, Err(Refusal::UnsoundWords));
        assert_eq!(session, Session::FRESH);
    }
    assert_eq!(output, [7; 8]);
    by_feed.is_ok()
}

/// The words of the table `digits_and_sums` but for its blocks, by hand. The
/// classes start at 0, `a`, `b` and `c`. Both rules begin with `a`: state 1, where
/// anchored rule 1 is whole; any character leads to state 2 and `b` to state 3,
/// where rule 0 is.
fn states_by_hand() -> Vec<u16> {
    words_with(&[
        (STATE_COUNT, 4),
        (CLASS_COUNT, 4),
        (LONGEST, 3),
        (MOST_OUTPUTS, 3),
        (RULE_COUNT, 2),
        (DEFAULT, 1),
        (start(1), 97),
        (start(2), 98),
        (start(3), 99),
        (depth(1), 1),
        (end(1), 2),
        (depth(2), 2),
        (depth(3), 3),
        (end(3), 1),
        (go(3), 1),
        (target(0, 1), 1),
        (target(1, 0), 2),
        (target(1, 1), 2),
        (target(1, 2), 2),
        (target(1, 3), 2),
        (target(2, 2), 3),
    ])
}

/// The words of the table `digits_and_sums`, by hand.
fn digits_by_hand() -> Vec<u16> {
    let blocks = [
        // `%`, and the second and the lowest digit of position 1.
        (length(0), 3),
        (outputs(0), 3),
        (constant(0, 0), 37),
        (sort(0, 1), 1),
        (constant(0, 1), 4),
        (coefficient(0, 1, 1), 1),
        (sort(0, 2), 1),
        (coefficient(0, 2, 1), 1),
        // The lowest digit of position 0.
        (length(1), 1),
        (anchored(1), 1),
        (outputs(1), 1),
        (sort(1, 0), 1),
        (coefficient(1, 0, 0), 1),
        // The highest digit of position 0, and 65535 - x0.
        (length(32), 1),
        (outputs(32), 2),
        (sort(32, 0), 1),
        (constant(32, 0), 12),
        (coefficient(32, 0, 0), 1),
        (constant(32, 1), 65535),
        (coefficient(32, 1, 0), 65535),
    ];
    changed(states_by_hand(), &blocks)
}

/// Asserts that the words by hand are sound with the first changes made, and no
/// longer with the last one too.
fn assert_breaks(prepared: &[(usize, u16)], breaking: (usize, u16)) {
    assert_breaks_in(by_hand(), prepared, breaking);
}

/// The same of the words with digits.
fn assert_breaks_digits(prepared: &[(usize, u16)], breaking: (usize, u16)) {
    assert_breaks_in(digits_by_hand(), prepared, breaking);
}

/// The same of any words.
fn assert_breaks_in(words: Vec<u16>, prepared: &[(usize, u16)], breaking: (usize, u16)) {
    let prepared = changed(words, prepared);
    assert!(are_sound(&prepared));
    assert!(!are_sound(&changed(prepared, &[breaking])), "{breaking:?}");
}

#[test]
fn the_layout_by_hand_is_what_compiling_gives() {
    assert_eq!(compiled(&lookahead()).unwrap(), by_hand());
    assert_eq!(compiled(&digits_and_sums()).unwrap(), digits_by_hand());
}

#[test]
fn the_two_digit_encoder_by_hand() {
    // One rule, whose classes start at 0 and 256: 13 words of its block are used.
    let words = words_with(&[
        (STATE_COUNT, 2),
        (CLASS_COUNT, 2),
        (LONGEST, 1),
        (MOST_OUTPUTS, 2),
        (RULE_COUNT, 1),
        (start(1), 256),
        (depth(1), 1),
        (end(1), 1),
        (go(1), 1),
        (target(0, 0), 1),
        (17222, 1),
        (17224, 2),
        (17225, 1),
        (17226, 4),
        (17227, 1),
        (17235, 1),
        (17237, 1),
    ]);
    assert_eq!(compiled(&two_digits()).unwrap(), words);
    // 0x9a and 0xaf.
    let [(_, _, output), _] = given(&words, &[0x9a, 0xaf]);
    assert_eq!(output[..4], [57, 65, 65, 70]);
}

#[test]
fn digits_of_the_last_blocks_are_laid_out_by_position() {
    // Rule 31 writes a digit of each of its positions, of shifts 0, 4, 8 and 12
    // in turn; the default's last entry is a digit of shift 12.
    let rules = (0..31).fold(TableBuilder::new(), |table, _| {
        table.rule(1).spelled(0, "a")
    });
    let table = (0..8).fold(rules.rule(8), |table, position| {
        table.range(position, 98, 65535)
    });
    let table = (0..8).fold(table, |table, p| table.digit(p, 4 * (p as u16 % 4)));
    let table = (0..7).fold(table.default_group(), TableBuilder::output);
    let words = compiled(&table.digit(0, 12).bytes()).unwrap();
    for output in 0..8 {
        assert_eq!(words[sort(31, output)], 1);
        assert_eq!(words[constant(31, output)], 4 * (output as u16 % 4));
        assert!((0..8).all(|p| words[coefficient(31, output, p)] == u16::from(p == output)));
    }
    assert_eq!(words[WORDS - 10..], [1, 12, 1, 0, 0, 0, 0, 0, 0, 0]);
    let word = [
        0x123a, 0x12b3, 0x1c23, 0xd123, 0x123e, 0x12f3, 0x1923, 0x8123,
    ];
    let [(_, _, output), _] = given(&words, &word);
    assert_eq!(output[..8], [65, 66, 67, 68, 69, 70, 57, 56]);
}

#[test]
fn the_last_blocks_are_laid_out_whole_and_modulo_65536() {
    // Rule 31 is `bbbbbbbb` with eight output characters, each adding 1, 2, … 8
    // times the positions' characters: 36 × 98 = 3528, which its constant takes
    // away again; -3528 is kept as 62008. The default writes 65535 - x0 eight times.
    let rules = (0..31).fold(TableBuilder::new(), |table, _| {
        table.rule(1).spelled(0, "a")
    });
    let table = rules.rule(8).spelled(0, "bbbbbbbb");
    let table = (0..8).fold(table, |table, output| {
        let table = table.output(output - 3528);
        (0..8).fold(table, |table, position| {
            table.term(position, position as i16 + 1)
        })
    });
    let table = (0..8).fold(table.default_group(), |table, _| {
        table.output(65535).term(0, -1)
    });
    let words = compiled(&table.bytes()).unwrap();
    assert_eq!(coefficient(32, 7, 7), WORDS - 1);
    for output in 0..8 {
        assert_eq!(words[constant(31, output)], 62008 + output as u16);
        assert_eq!(words[constant(32, output)], 65535);
        assert_eq!(words[coefficient(32, output, 0)], 65535);
        assert!((0..8).all(|p| words[coefficient(31, output, p)] == p as u16 + 1));
        assert!((1..8).all(|p| words[coefficient(32, output, p)] == 0));
    }
    let [_, (_, _, output)] = given(&words, &[98; 8]);
    assert_eq!(output[..8], [0, 1, 2, 3, 4, 5, 6, 7]);
}

#[test]
fn compiled_words_are_sound() {
    let mut random = Random::new(41);
    let mut compiled_tables = 0;
    for _ in 0..3000 {
        if let Ok(words) = compiled(&encode(&random_table(&mut random))) {
            assert!(Words::sound(&words).is_ok());
            compiled_tables += 1;
        }
    }
    assert!(compiled_tables > 2500, "{compiled_tables}");
    assert!(are_sound(&digits_by_hand()));
}

/// Asserts that a group writes the same in both automata, on words that fit it.
fn assert_same_output(
    random: &mut Random,
    table: &TableAutomaton,
    words: &Words,
    choice: Choice,
    group: &Group,
) {
    for _ in 0..4 {
        let word = random_word(random, group);
        let (mut exact, mut wrapped) = (Vec::new(), Vec::new());
        table.write(choice, &word, &mut exact);
        words.write(choice, &word, &mut wrapped);
        assert_eq!(exact, wrapped);
        assert_eq!(exact.len(), group.outputs.len());
    }
}

#[test]
fn the_automaton_of_the_words_agrees_with_that_of_the_table() {
    let mut random = Random::new(42);
    let (mut states_seen, mut targets_seen) = (0, 0);
    for _ in 0..2000 {
        let table = random_table(&mut random);
        let bytes = encode(&table);
        let Ok(automaton) = TableAutomaton::of(table) else {
            continue;
        };
        let lent = compiled(&bytes).unwrap();
        let words = Words::sound(&lent).unwrap();
        assert_eq!(words.starts(), automaton.classes.starts());
        assert_eq!(words.mode(), automaton.mode());
        let starts = words.starts();
        let mut characters: Vec<u16> = starts.iter().map(|start| start.wrapping_sub(1)).collect();
        characters.extend(starts);
        characters.push(random.character());
        for number in 0..automaton.states.list().len() as u16 {
            let state = StateNo(number);
            assert_eq!(words.accept(state), automaton.accept(state));
            assert_eq!(words.accept_at_end(state), automaton.accept_at_end(state));
            assert_eq!(
                usize::from(words.depth(state)),
                automaton.states.get(state).depth
            );
            for &character in &characters {
                let target = automaton.target(state, character);
                assert_eq!(words.target(state, character), target);
                targets_seen += usize::from(target.is_some());
            }
            states_seen += 1;
        }
        let table = &automaton.table;
        for (rule, group) in (0..).map(RuleNo).zip(&table.rules) {
            assert_same_output(&mut random, &automaton, &words, Choice::Rule(rule), group);
        }
        if let Some(group) = &table.default {
            assert_same_output(&mut random, &automaton, &words, Choice::Default, group);
        }
    }
    assert!(states_seen > 10_000, "{states_seen}");
    assert!(targets_seen > 20_000, "{targets_seen}");
}

#[test]
fn sound_words_are_at_least_19961() {
    assert_eq!(WORDS, 19_961);
    let mut words = by_hand();
    assert!(!are_sound(&words[..19_960]));
    words.extend([1, 2, 3]);
    assert!(are_sound(&words));
}

#[test]
fn sound_state_count_is_1_to_256() {
    assert_breaks(&[], (STATE_COUNT, 0));
    // All 256 states, those that nothing leads to at depth 1. A 257th has no
    // place in the layout.
    let depths: Vec<(usize, u16)> = (4..256).map(|state| (depth(state), 1)).collect();
    let filled = changed(by_hand(), &depths);
    assert!(are_sound(&changed(filled.clone(), &[(STATE_COUNT, 256)])));
    assert!(!are_sound(&changed(filled.clone(), &[(STATE_COUNT, 257)])));
    assert!(!are_sound(&changed(filled, &[(STATE_COUNT, 65535)])));
}

#[test]
fn sound_class_count_is_1_to_64() {
    assert_breaks(&[], (CLASS_COUNT, 0));
    // All 64 class starts. A 65th has no place in the layout.
    let starts: Vec<(usize, u16)> = (4..64)
        .map(|class| (start(class), 100 + class as u16))
        .collect();
    let filled = changed(by_hand(), &starts);
    assert!(are_sound(&changed(filled.clone(), &[(CLASS_COUNT, 64)])));
    assert!(!are_sound(&changed(filled.clone(), &[(CLASS_COUNT, 65)])));
    assert!(!are_sound(&changed(filled, &[(CLASS_COUNT, 65535)])));
}

#[test]
fn sound_longest_is_1_to_8() {
    assert_breaks(&[(LONGEST, 8)], (LONGEST, 9));
    // With 0 no rule could have its K of 1 to L either.
    assert_breaks(&[], (LONGEST, 0));
}

#[test]
fn sound_most_outputs_is_at_most_8() {
    assert_breaks(&[(MOST_OUTPUTS, 8)], (MOST_OUTPUTS, 9));
    let none = [(outputs(0), 0), (outputs(1), 0), (outputs(2), 0)];
    let none = changed(by_hand(), &none);
    let none = changed(none, &[(outputs(32), 0), (MOST_OUTPUTS, 0)]);
    assert!(are_sound(&none));
}

#[test]
fn sound_rule_count_is_1_to_32() {
    // 32 rules with K of 1; block 32, the default's, could pass for a 33rd.
    let lengths: Vec<(usize, u16)> = (3..32).map(|rule| (length(rule), 1)).collect();
    let filled = changed(by_hand(), &lengths);
    let count = |count| changed(filled.clone(), &[(RULE_COUNT, count)]);
    assert!(are_sound(&count(32)));
    assert!(!are_sound(&count(33)));
    // No rule, and no state that names one.
    let unnamed = [(end(1), 0), (end(2), 0), (go(2), 0), (end(3), 0)];
    assert_breaks(&unnamed, (RULE_COUNT, 0));
}

#[test]
fn sound_default_is_0_to_2() {
    for default in 0..=2 {
        assert!(are_sound(&changed(by_hand(), &[(DEFAULT, default)])));
        assert_breaks(&[(DEFAULT, default)], (DEFAULT, 3));
        assert_breaks(&[(DEFAULT, default)], (DEFAULT, 65535));
    }
}

#[test]
fn sound_most_outputs_is_at_least_1_under_the_mark() {
    // The words of the table by hand, no group of which writes anything.
    let none = [0, 1, 2, 32].map(|block| (outputs(block), 0));
    let none = changed(by_hand(), &none);
    for most in 0..=8 {
        let unmarked = changed(none.clone(), &[(MOST_OUTPUTS, most)]);
        assert!(are_sound(&unmarked));
        let marked = changed(unmarked, &[(DEFAULT, 2)]);
        assert_eq!(are_sound(&marked), most > 0);
    }
}

#[test]
fn sound_default_is_looked_at_where_it_is_there() {
    for breaking in [(length(32), 2), (anchored(32), 1), (sort(32, 0), 2)] {
        let words = changed(by_hand(), &[breaking]);
        for default in 0..=2 {
            let sound = are_sound(&changed(words.clone(), &[(DEFAULT, default)]));
            assert_eq!(sound, default == 0, "{breaking:?}");
        }
    }
}

#[test]
fn sound_class_starts_begin_at_0() {
    assert_breaks(&[], (start(0), 1));
}

#[test]
fn sound_class_starts_rise_strictly() {
    assert_breaks(&[], (start(2), 97));
    assert_breaks(&[], (start(2), 96));
    assert_breaks(&[], (start(1), 0));
}

#[test]
fn sound_state_0_has_depth_0() {
    // Without targets, so that none of them fails to lie one deeper.
    assert_breaks(&[(target(0, 1), 0)], (depth(0), 1));
}

#[test]
fn sound_other_states_have_depth_1_to_l() {
    // A state that nothing leads to, and that names no rule.
    let alone = [(target(1, 2), 0), (end(3), 0)];
    assert_breaks(&alone, (depth(3), 0));
    assert_breaks(&alone, (depth(3), 3));
    // A depth of 3 is sound where L is.
    let deeper = [(target(1, 2), 0), (end(3), 0), (depth(3), 3), (LONGEST, 3)];
    assert!(are_sound(&changed(by_hand(), &deeper)));
}

#[test]
fn sound_end_names_a_rule_below_the_count() {
    // Rule 3 would be of the right length, were there one.
    assert_breaks(&[(length(3), 2)], (end(3), 4));
    assert_breaks(&[], (end(3), 65535));
    let counted = [(length(3), 2), (RULE_COUNT, 4), (end(3), 4)];
    assert!(are_sound(&changed(by_hand(), &counted)));
}

#[test]
fn sound_end_names_a_rule_whose_k_is_the_depth() {
    assert_breaks(&[], (end(1), 2));
    assert_breaks(&[], (end(3), 1));
    assert_breaks(&[], (end(0), 1));
}

#[test]
fn sound_go_names_a_rule_below_the_count() {
    assert_breaks(&[(length(3), 2)], (go(2), 4));
    assert_breaks(&[], (go(2), 65535));
    let counted = [(length(3), 2), (RULE_COUNT, 4), (go(2), 4)];
    assert!(are_sound(&changed(by_hand(), &counted)));
}

#[test]
fn sound_go_names_a_rule_whose_k_is_the_depth() {
    // State 1 without targets; rule 1 is unanchored and of length 2.
    let no_targets = [(target(1, 1), 0), (target(1, 2), 0)];
    assert_breaks(&no_targets, (go(1), 2));
}

#[test]
fn sound_go_names_an_unanchored_rule() {
    assert_breaks(&[], (go(2), 3));
}

#[test]
fn sound_go_comes_with_an_end() {
    assert_breaks(&[], (end(2), 0));
}

#[test]
fn sound_targets_exceed_their_states_number() {
    // States 1 and 3 change places: state 3 at depth 1 leads to state 2, and
    // then to state 1 at depth 2.
    let exchanged = [
        (depth(1), 2),
        (end(1), 0),
        (depth(3), 1),
        (end(3), 0),
        (target(0, 1), 3),
        (target(1, 1), 0),
        (target(1, 2), 0),
    ];
    assert_breaks(&exchanged, (target(3, 2), 1));
    assert_breaks(&exchanged, (target(3, 1), 2));
}

#[test]
fn sound_targets_are_below_the_state_count() {
    // State 4 would lie one deeper, were there one.
    assert_breaks(&[(depth(4), 2)], (target(1, 3), 4));
    assert_breaks(&[], (target(1, 3), 65535));
    let counted = [(depth(4), 2), (STATE_COUNT, 5), (target(1, 3), 4)];
    assert!(are_sound(&changed(by_hand(), &counted)));
}

#[test]
fn sound_targets_lie_one_deeper() {
    assert_breaks(&[], (target(0, 2), 2));
    // State 2 leads nowhere and has no go; state 3 is as deep as it.
    assert_breaks(&[(go(2), 0)], (target(2, 0), 3));
}

#[test]
fn sound_states_with_a_go_have_no_targets() {
    // Rule 0 is unanchored now and could be state 1's go.
    assert_breaks(&[(anchored(0), 0)], (go(1), 1));
    let no_targets = [(anchored(0), 0), (target(1, 1), 0), (target(1, 2), 0)];
    assert!(are_sound(&changed(
        changed(by_hand(), &no_targets),
        &[(go(1), 1)]
    )));
}

#[test]
fn sound_blocks_have_k_of_1_to_l() {
    // Rule 3, which no state names.
    let fourth = [(RULE_COUNT, 4), (length(3), 1)];
    assert_breaks(&fourth, (length(3), 0));
    assert_breaks(&fourth, (length(3), 3));
}

#[test]
fn sound_default_has_k_of_1() {
    assert_breaks(&[], (length(32), 0));
    assert_breaks(&[], (length(32), 2));
}

#[test]
fn sound_blocks_have_anchored_0_or_1() {
    assert_breaks(&[], (anchored(0), 2));
    assert_breaks(&[], (anchored(2), 65535));
}

#[test]
fn sound_default_is_not_anchored() {
    assert_breaks(&[], (anchored(32), 1));
}

#[test]
fn sound_output_counts_are_at_most_e() {
    assert_breaks(&[], (outputs(1), 2));
    assert_breaks(&[], (outputs(32), 2));
}

#[test]
fn sound_entries_have_a_known_sort() {
    for block in [0, 2, 32] {
        assert_breaks(&[], (sort(block, 0), 2));
        assert_breaks(&[], (sort(block, 0), 65535));
    }
    assert_breaks_digits(&[], (sort(0, 1), 2));
    assert_breaks_digits(&[], (sort(32, 0), 256));
    assert_breaks_digits(&[], (sort(32, 1), 2));
    // A digit's words do for a sum, and of a sum of this kind those for a digit.
    let exchanged = [
        (sort(0, 1), 0),
        (constant(0, 0), 8),
        (coefficient(0, 0, 2), 1),
    ];
    let exchanged = changed(digits_by_hand(), &exchanged);
    assert!(are_sound(&changed(exchanged, &[(sort(0, 0), 1)])));
}

#[test]
fn sound_digits_have_one_of_the_four_shifts() {
    for shift in (0..=17).chain([32, 256, 65532, 65535]) {
        let changes = [(constant(0, 2), shift), (constant(32, 0), shift)];
        for change in changes {
            if [0, 4, 8, 12].contains(&shift) {
                assert!(are_sound(&changed(digits_by_hand(), &[change])));
            } else {
                assert_breaks_digits(&[], change);
            }
        }
    }
    // A sum has any constant.
    assert!(are_sound(&changed(
        digits_by_hand(),
        &[(constant(0, 0), 5)]
    )));
}

#[test]
fn sound_digits_have_just_one_coefficient_of_1_below_k() {
    // A second one.
    for value in [1, 2, 65535] {
        assert_breaks_digits(&[], (coefficient(0, 1, 0), value));
        assert_breaks_digits(&[], (coefficient(0, 1, 2), value));
    }
    // Another than 1.
    for value in [2, 3, 256, 65535] {
        assert_breaks_digits(&[], (coefficient(0, 1, 1), value));
        assert_breaks_digits(&[], (coefficient(1, 0, 0), value));
        assert_breaks_digits(&[], (coefficient(32, 0, 0), value));
    }
    // None, whatever stands from K on.
    assert_breaks_digits(&[], (coefficient(0, 1, 1), 0));
    assert_breaks_digits(&[(coefficient(0, 1, 3), 1)], (coefficient(0, 1, 1), 0));
    assert_breaks_digits(&[(coefficient(1, 0, 1), 1)], (coefficient(1, 0, 0), 0));
    assert_breaks_digits(&[(coefficient(32, 0, 7), 1)], (coefficient(32, 0, 0), 0));
    // Another position below K is as good; two that add up to 1 modulo 65536 are
    // not.
    let moved = [(coefficient(0, 1, 1), 0), (coefficient(0, 1, 2), 1)];
    assert!(are_sound(&changed(digits_by_hand(), &moved)));
    let halves = [(coefficient(0, 1, 1), 32768), (coefficient(0, 1, 2), 32769)];
    assert!(!are_sound(&changed(digits_by_hand(), &halves)));
}

#[test]
fn sound_entries_are_looked_at_as_far_as_they_are_used() {
    // Entries from the count on, coefficients from K on, and the blocks of rules
    // and of a default that are not there.
    let unused = [
        (sort(0, 3), 2),
        (sort(1, 1), 1),
        (constant(1, 1), 5),
        (sort(32, 2), 65535),
        (coefficient(0, 1, 3), 1),
        (coefficient(1, 0, 1), 2),
        (coefficient(32, 0, 1), 65535),
        (sort(2, 0), 9),
    ];
    let words = changed(digits_by_hand(), &unused);
    assert!(are_sound(&words));
    // They count as soon as the count, K, the rule or the default is there.
    assert!(!are_sound(&changed(words.clone(), &[(outputs(1), 2)])));
    assert!(!are_sound(&changed(words, &[(outputs(32), 3)])));
    let no_default = [(DEFAULT, 0), (sort(32, 0), 2)];
    assert!(are_sound(&changed(digits_by_hand(), &no_default)));
    assert_breaks_digits(&no_default, (DEFAULT, 1));
    // Rule 2, which no state names, with a digit of position 1: K has to be 2.
    let third = [
        (RULE_COUNT, 3),
        (length(2), 2),
        (outputs(2), 1),
        (sort(2, 0), 1),
        (coefficient(2, 0, 1), 1),
    ];
    assert_breaks_digits(&third, (length(2), 1));
}

/// Which words the header and the blocks say are in use.
fn used(words: &[u16]) -> Vec<bool> {
    let count = |place: usize| usize::from(words[place]);
    let mut used = vec![false; WORDS];
    used[..6].fill(true);
    used[6..][..count(CLASS_COUNT)].fill(true);
    used[70..][..3 * count(STATE_COUNT)].fill(true);
    for state in 0..count(STATE_COUNT) {
        used[target(state, 0)..][..count(CLASS_COUNT)].fill(true);
    }
    let default = (count(DEFAULT) != 0).then_some(32);
    for block in (0..count(RULE_COUNT)).chain(default) {
        used[length(block)..][..3].fill(true);
        for output in 0..count(outputs(block)) {
            used[sort(block, output)..][..2 + count(length(block))].fill(true);
        }
    }
    used
}

/// What a feed and a finish of the words give.
type Given = [(Result<Answer, Refusal>, Session, Vec<u16>); 2];

/// Feeds the input whole and finishes, with buffers that are long enough.
fn given(words: &[u16], input: &[u16]) -> Given {
    let mut session = Session::FRESH;
    let mut output = vec![0; 8 * (input.len() + 8)];
    let fed = feed(words, &mut session, input, &mut output);
    let first = (fed, session, output.clone());
    let finished = finish(words, &mut session, &mut output);
    [first, (finished, session, output)]
}

#[test]
fn damage_in_unused_words_changes_nothing() {
    let mut random = Random::new(43);
    let mut damaged_words = 0;
    for _ in 0..300 {
        let table = random_table(&mut random);
        let Ok(words) = compiled(&encode(&table)) else {
            continue;
        };
        let mut damaged = words.clone();
        for (word, used) in damaged.iter_mut().zip(used(&words)) {
            if !used {
                assert_eq!(*word, 0);
                *word = random.character();
                damaged_words += 1;
            }
        }
        let input = random_input(&mut random, &table, 40);
        assert_eq!(given(&words, &input), given(&damaged, &input));
        damaged.push(0);
        assert_eq!(given(&words, &input), given(&damaged, &input));
    }
    assert!(damaged_words > 1_000_000, "{damaged_words}");
}

#[test]
fn damage_in_used_words_is_refused_by_11_or_leaves_a_machine_that_keeps_its_promises() {
    let mut random = Random::new(44);
    let (mut refused, mut accepted) = (0, 0);
    for _ in 0..300 {
        let table = random_table(&mut random);
        let Ok(words) = compiled(&encode(&table)) else {
            continue;
        };
        let used = used(&words);
        let places: Vec<usize> = (0..WORDS).filter(|&place| used[place]).collect();
        for _ in 0..20 {
            let mut damaged = words.clone();
            let place = *random.pick(&places);
            let near = words[place].wrapping_add(random.between(-2, 2) as u16);
            let any = random.character();
            damaged[place] = *random.pick(&[near, near, any]);
            let input = random_input(&mut random, &table, 24);
            let [(fed, session, _), (finished, last, _)] = given(&damaged, &input);
            let Ok(sound) = Words::sound(&damaged) else {
                assert_eq!(fed, Err(Refusal::UnsoundWords));
                assert_eq!(finished, Err(Refusal::UnsoundWords));
                refused += 1;
                continue;
            };
            accepted += 1;
            assert!(fed.is_ok());
            assert!(session.sound_held(&sound).is_ok());
            assert!(last.sound_held(&sound).is_ok());
            assert_ne!(last.status, Status::Open);
        }
    }
    assert!(refused > 1000, "{refused}");
    assert!(accepted > 1000, "{accepted}");
}
