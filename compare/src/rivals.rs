//! Tables whose rules stand in each other's way, so that some can never be chosen and
//! others only where the input goes on, or only where it ends.

use reference::random::Random;
use reference::table::{Group, Table, MAX_RULES};

use crate::cases::sound_tables;

/// The tables that a seed gives, without end: those of [`sound_tables`] with up to four
/// rivals of their rules.
pub fn rival_tables(seed: u64) -> impl Iterator<Item = Table> {
    let mut random = Random::new(seed);
    sound_tables(seed.wrapping_add(1)).map(move |mut table| {
        for _ in 0..random.between(1, 4) {
            if table.rules.len() < MAX_RULES {
                add_rival(&mut random, &mut table.rules);
            }
        }
        table
    })
}

/// Adds a rival of one of the rules.
fn add_rival(random: &mut Random, rules: &mut Vec<Group>) {
    let place = random.below(rules.len());
    let rule = Group {
        outputs: Vec::new(),
        ..rules[place].clone()
    };
    let (at, rival) = match random.below(5) {
        // Before it one for the input's end, so that the rule needs an input that goes on.
        0 | 1 => (place, anchored(rule, true)),
        // Behind it the same rule, or the same for the input's end.
        2 => (rules.len(), anchored(rule, random.one_in(2))),
        // Anywhere its beginning, which is shorter.
        3 => (random.below(rules.len() + 1), beginning(random, rule)),
        // Before it one that takes part of its words.
        _ => (place, part(random, rule)),
    };
    rules.insert(at, rival);
}

/// The rule, anchored or not.
fn anchored(rule: Group, anchored: bool) -> Group {
    Group { anchored, ..rule }
}

/// The first positions of a rule.
fn beginning(random: &mut Random, mut rule: Group) -> Group {
    rule.positions.truncate(random.below(rule.length()) + 1);
    rule
}

/// The rule with one character fewer at a position that has more than one.
fn part(random: &mut Random, mut rule: Group) -> Group {
    let place = random.below(rule.length());
    let ranges = &mut rule.positions[place];
    let last = ranges.len() - 1;
    if ranges[last].low < ranges[last].high {
        ranges[last].high -= 1;
    } else if last > 0 {
        ranges.pop();
    }
    rule
}
