//! Counts of uses against the independent version: lists of calls from sound
//! sessions that have used every rule, and damage to each of the 34 counts.

use std::collections::BTreeMap;

use compare::calls::{compare, random_call, roomy_feed, Left, ROOMY_FINISH};
use compare::face::{compile, Session, OK, OPEN, STOPPED, USES_DEFAULT, USES_PAIRS, USES_SIZE};
use compare::lists::{assert_used, Called, Compiled};
use compare::uses::{tables, taken, used_more, Damage};
use reference::builder::{characters, TableBuilder};
use reference::random::Random;
use reference::words::WORDS;

/// The seed of the random tables.
const SEED: u64 = 33;
/// How many machines have each of their counts damaged in each way.
const MACHINES: usize = 1_200;
/// How many machines have a list of calls.
const LISTS: usize = 20_000;

/// A random sound session of a machine, in which every group was used.
fn session(random: &mut Random, machine: &Compiled) -> Session {
    let calls = random.between(0, 4);
    let session = Called::random(random, machine, calls, |_, _, _| ()).session;
    used_more(random, &machine.words, &session)
}

/// "After any list of feeds and finishes of one machine from a sound session." Of a
/// list's 4 calls in the mean, sessions that have ended and short buffers leave
/// one accepted feed or more, of 9 characters: two words, each of one rule in 32.
/// Every second machine has all rules. So the last of them is used LISTS / 32
/// times, and pairs, which every third machine and a third of its words have, more
/// often; the guard is a third of that or less.
#[test]
fn lists_of_calls_from_sound_sessions() {
    let mut random = Random::new(SEED + 1);
    let mut gained = [0; USES_SIZE];
    for machine in tables(SEED).filter_map(Compiled::of).take(LISTS) {
        let (words, input) = (&machine.words, machine.input(&mut random));
        let (mut session, mut unread) = (session(&mut random, &machine), &input[..]);
        assert_used(words, &session);
        for _ in 0..random.between(1, 7) {
            let call = random_call(&mut random, words, &session, &mut unread);
            let later = compare(words, session, &call).session;
            assert_used(words, &later);
            let counts = session.uses.iter().zip(later.uses);
            for (gained, (before, after)) in gained.iter_mut().zip(counts) {
                *gained += usize::from(*before < after);
            }
            session = later;
        }
    }
    println!("{gained:?}");
    assert!(
        gained.iter().all(|&times| times >= LISTS / 100),
        "{gained:?}"
    );
}

/// Every count of the 34 with every way to damage it.
fn damages() -> impl Iterator<Item = (Damage, usize)> {
    (0..USES_SIZE).flat_map(|place| Damage::ALL.map(|damage| (damage, place)))
}

#[test]
fn damaged_counts() {
    let mut random = Random::new(SEED + 3);
    let mut made: BTreeMap<(Damage, usize), usize> = BTreeMap::new();
    let mut answers: BTreeMap<u32, usize> = BTreeMap::new();
    for machine in tables(SEED + 2).filter_map(Compiled::of).take(MACHINES) {
        let (words, input) = (&machine.words, machine.input(&mut random));
        let sound = session(&mut random, &machine);
        let call = random_call(&mut random, words, &sound, &mut &input[..]);
        let undamaged = compare(words, sound, &call);
        *answers.entry(undamaged.code).or_default() += 1;
        for (damage, place) in damages() {
            if let Some(damaged) = damage.of(&mut random, words, &sound, place) {
                let left = compare(words, damaged, &call);
                assert_damaged(damage, words, &damaged, &left, &undamaged);
                *made.entry((damage, place)).or_default() += 1;
            }
        }
    }
    println!("{} damaged: {made:?}", made.values().sum::<usize>());
    assert_each_way(&made);
    // Sessions that are open, or have ended, and short buffers.
    for code in [OK, 13, 15, STOPPED, OPEN] {
        assert!(answers[&code] >= MACHINES / 100, "{answers:?}");
    }
}

/// Every machine has a group or lacks it, for each of the 34 counts. Half of the
/// machines have all 32 rules, of the others one in 32 has each number of them; a third
/// has no default, another a marked one, which has pairs too. So a group is there at
/// least every third time, and rule p is lacking p times in 64. Of 32 rules there is nearly always one of the same K
/// as another, or as the default, and half have an even K. The guards are a third
/// of that or less.
fn assert_each_way(made: &BTreeMap<(Damage, usize), usize>) {
    let times = |damage, place| made.get(&(damage, place)).copied().unwrap_or(0);
    for (damage, place) in damages() {
        let least = match (damage, place) {
            (Damage::More | Damage::Less, _) => MACHINES - times(Damage::Lacking, place),
            (Damage::Lacking | Damage::MovedToLacking, USES_DEFAULT | USES_PAIRS) => MACHINES / 9,
            (Damage::Lacking | Damage::MovedToLacking, rule) => rule * MACHINES / 192,
            (Damage::Wrapping, USES_DEFAULT) => 0,
            _ => MACHINES / 12,
        };
        let times = times(damage, place);
        assert!(times >= least, "{damage:?} at {place}: {times}");
    }
}

/// A session with a damaged count is refused by 12, whether it has ended or not;
/// but uses that went over to a rule of the same K are not told apart: the call
/// does what it does without.
fn assert_damaged(damage: Damage, words: &[u16], damaged: &Session, left: &Left, undamaged: &Left) {
    let (taken, consumed) = (taken(words, damaged), u128::from(damaged.consumed()));
    match damage {
        Damage::MovedAlike => {
            assert_eq!(left.code, undamaged.code, "{damaged:?}");
            assert_eq!(left.text(), undamaged.text(), "{damaged:?}");
            assert_eq!(taken, consumed);
        }
        Damage::Lacking => {
            assert_eq!(left.code, 12, "{damaged:?}");
            assert_eq!(taken, consumed);
        }
        Damage::Wrapping | Damage::WrappingBeside => {
            assert_eq!(left.code, 12, "{damaged:?}");
            assert_ne!(taken, consumed);
            assert_eq!(taken % (1 << 64), consumed);
        }
        Damage::More | Damage::Less | Damage::MovedUnlike | Damage::MovedToLacking => {
            assert_eq!(left.code, 12, "{damage:?} {damaged:?}");
            assert_ne!(taken, consumed);
        }
    }
}

/// 2^61 uses of a rule with K = 8 add 2^64 characters, which is 0 modulo 2^64.
#[test]
fn two_to_the_61_uses_of_a_rule_of_eight() {
    let table = TableBuilder::new().rule(8).spelled(0, "abcdefgh").text("X");
    let mut words = vec![0; WORDS];
    assert_eq!(compile(&table.copying_default().bytes(), &mut words), OK);
    let mut session = Session::FRESH;
    session.uses[0] = 1 << 61;
    for call in [roomy_feed(&characters("abcdefgh")), ROOMY_FINISH] {
        assert_eq!(compare(&words, session, &call).code, 12);
    }
    session.uses[0] = 0;
    let fed = compare(&words, session, &roomy_feed(&characters("abcdefghabc")));
    assert_eq!(
        (
            fed.code,
            fed.session.uses[0],
            fed.session.uses[USES_DEFAULT]
        ),
        (OPEN, 1, 0)
    );
    let closed = compare(&words, fed.session, &ROOMY_FINISH);
    assert_eq!(
        (
            closed.code,
            closed.session.uses[0],
            closed.session.uses[USES_DEFAULT]
        ),
        (OK, 1, 3)
    );
}
