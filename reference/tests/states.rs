//! Classes and states against their definitions, word by word.

use std::collections::{BTreeMap, BTreeSet};

use reference::automaton::{Automaton, TableAutomaton};
use reference::random::Random;
use reference::samples::{random_input, random_table, t1, t2};
use reference::states::StateNo;
use reference::table::{Group, Table};

/// A state as defined: its depth and its rules.
type Pair = (usize, Vec<usize>);

/// The rules with K at least the word's length that fit it in their first
/// positions.
fn rules_for(table: &Table, word: &[u16]) -> Vec<usize> {
    let fits = |rule: &Group| {
        rule.positions.len() >= word.len()
            && rule.positions.iter().zip(word).all(|(ranges, &character)| {
                ranges
                    .iter()
                    .any(|range| range.low <= character && character <= range.high)
            })
    };
    (0..table.rules.len())
        .filter(|&rule| fits(&table.rules[rule]))
        .collect()
}

/// The lowest rule of a pair that is whole at its depth, of the unanchored or of
/// all.
fn whole(table: &Table, (depth, rules): &Pair, unanchored: bool) -> Option<u16> {
    let is_whole = |&&rule: &&usize| {
        let group = &table.rules[rule];
        group.positions.len() == *depth && !(unanchored && group.anchored)
    };
    rules.iter().find(is_whole).map(|&rule| rule as u16)
}

/// The pair that a state stands for.
fn pair(automaton: &TableAutomaton, state: StateNo) -> Pair {
    let state = automaton.states.get(state);
    let rules = state.rules.rules().map(|rule| rule.index()).collect();
    (state.depth, rules)
}

/// Random tables that have an automaton.
fn automata(seed: u64, count: usize) -> impl Iterator<Item = TableAutomaton> {
    let mut random = Random::new(seed);
    (0..count).filter_map(move |_| TableAutomaton::of(random_table(&mut random)).ok())
}

/// The words over some characters that lead somewhere from state 0: no shorter
/// beginning has a go, and some rule fits.
fn reaching_words(table: &Table, characters: &[u16]) -> Vec<Vec<u16>> {
    let mut reaching = vec![Vec::new()];
    let mut next = 0;
    while next < reaching.len() {
        let word = reaching[next].clone();
        next += 1;
        let here = (word.len(), rules_for(table, &word));
        if whole(table, &here, true).is_some() {
            continue;
        }
        let longer = characters.iter().map(|&c| [&word[..], &[c]].concat());
        reaching.extend(longer.filter(|word| !rules_for(table, word).is_empty()));
    }
    reaching
}

#[test]
fn the_states_are_those_of_the_definition() {
    let mut checked = 0;
    for automaton in automata(51, 1500) {
        let table = &automaton.table;
        let starts = automaton.classes.starts();
        if starts.len().pow(table.longest() as u32) > 3000 {
            continue;
        }
        let words = reaching_words(table, starts);
        let defined: BTreeSet<Pair> = words
            .iter()
            .map(|word| (word.len(), rules_for(table, word)))
            .collect();
        let count = automaton.states.list().len();
        let built: BTreeSet<Pair> = (0..count as u16)
            .map(|state| pair(&automaton, StateNo(state)))
            .collect();
        assert_eq!(built.len(), count, "a pair has one number");
        assert_eq!(built, defined);
        checked += 1;
    }
    assert!(checked > 500, "{checked}");
}

#[test]
fn each_word_leads_to_its_state_with_its_go_and_end() {
    let mut random = Random::new(52);
    let mut read = 0;
    for automaton in automata(53, 2000) {
        let table = &automaton.table;
        let word = random_input(&mut random, table, 9);
        let mut state = StateNo::START;
        for length in 0..word.len() {
            let here = (length, rules_for(table, &word[..length]));
            assert_eq!(pair(&automaton, state), here);
            let (go, end) = (whole(table, &here, true), whole(table, &here, false));
            assert_eq!(automaton.accept(state).map(|rule| rule.0), go);
            assert_eq!(automaton.accept_at_end(state).map(|rule| rule.0), end);
            let goes_on = go.is_none() && !rules_for(table, &word[..length + 1]).is_empty();
            let target = automaton.target(state, word[length]);
            assert_eq!(target.is_some(), goes_on);
            match target {
                Some(target) => state = target,
                None => break,
            }
            read += 1;
        }
    }
    assert!(read > 3000, "{read}");
}

#[test]
fn states_are_numbered_by_depth_then_lowest_parent_then_lowest_class() {
    let mut numbered = 0;
    for automaton in automata(54, 1500) {
        let mut keys = BTreeMap::new();
        for (number, state) in automaton.states.list().iter().enumerate() {
            for (class, target) in state.targets.iter().enumerate() {
                if let Some(target) = target {
                    keys.entry(target.0).or_insert((number, class));
                }
            }
        }
        // Parents and classes were seen rising, so each entry has the lowest.
        let count = automaton.states.list().len();
        assert!(keys.keys().copied().eq(1..count as u16));
        let keys = keys.iter().map(|(&state, &(parent, class))| {
            (automaton.states.get(StateNo(state)).depth, parent, class)
        });
        assert!(keys.is_sorted_by(|key, next| key < next));
        numbered += count;
    }
    assert!(numbered > 8000, "{numbered}");
}

#[test]
fn class_starts_are_where_some_range_begins_or_has_ended() {
    for automaton in automata(55, 500) {
        let ranges: Vec<_> = automaton
            .table
            .rules
            .iter()
            .flat_map(|rule| rule.positions.iter().flatten())
            .collect();
        let is_start = |character: u16| {
            character == 0
                || ranges.iter().any(|range| {
                    character == range.low || u32::from(character) == u32::from(range.high) + 1
                })
        };
        let starts: Vec<u16> = (0..=u16::MAX).filter(|&c| is_start(c)).collect();
        assert_eq!(automaton.classes.starts(), starts);
    }
}

#[test]
fn a_characters_class_is_that_of_the_last_start_not_above_it() {
    for automaton in automata(56, 20) {
        let starts = automaton.classes.starts();
        let mut class = 0;
        for character in 0..=u16::MAX {
            if starts.get(class + 1) == Some(&character) {
                class += 1;
            }
            assert_eq!(automaton.classes.class(character).index(), class);
        }
    }
}

#[test]
fn the_states_of_t1_are_those_counted_by_hand() {
    let automaton = TableAutomaton::of(Table::read(&t1()).unwrap()).unwrap();
    // `&`, `&#` with all rules; a zero keeps rule 0, another digit doesn't; the
    // same again for the second digit, whose parents are both; then `;`.
    let states: [Pair; 9] = [
        (0, vec![0, 1, 2]),
        (1, vec![0, 1, 2]),
        (2, vec![0, 1, 2]),
        (3, vec![0, 1]),
        (3, vec![1]),
        (4, vec![0, 1]),
        (4, vec![1]),
        (5, vec![0, 1]),
        (5, vec![1]),
    ];
    for (number, state) in states.iter().enumerate() {
        assert_eq!(&pair(&automaton, StateNo(number as u16)), state);
    }
    let starts = [0, 0x23, 0x24, 0x26, 0x27, 0x30, 0x31, 0x3a, 0x3b, 0x3c];
    assert_eq!(automaton.classes.starts(), starts);
}

#[test]
fn the_go_and_the_end_of_t2_differ() {
    let automaton = TableAutomaton::of(Table::read(&t2()).unwrap()).unwrap();
    let state = automaton.target(StateNo::START, 97).unwrap();
    assert_eq!(automaton.accept(state).map(|rule| rule.0), Some(1));
    assert_eq!(automaton.accept_at_end(state).map(|rule| rule.0), Some(0));
    assert_eq!(automaton.target(state, 97), None);
}
