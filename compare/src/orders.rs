//! Machine words whose states are numbered in another order than the compiler's. The
//! places are those of document 01's layout, written out.

use reference::random::Random;

/// A state's targets by the classes in use.
pub fn targets(words: &[u16], state: usize) -> &[u16] {
    &words[838 + 64 * state..][..usize::from(words[1])]
}

/// The same machine with its states numbered as they stand in `order`, in which each
/// state stands once, behind every state that it is a target of. Words that are not in
/// use stay as they are.
pub fn renumbered(words: &[u16], order: &[usize]) -> Vec<u16> {
    // State 0 comes first, so that 0, no target, stays 0.
    let mut numbers = vec![0; order.len()];
    let mut renumbered = words.to_vec();
    for (number, &state) in order.iter().enumerate() {
        numbers[state] = number as u16;
        let facts = &words[70 + 3 * state..][..3];
        renumbered[70 + 3 * number..][..3].copy_from_slice(facts);
    }
    for (number, &state) in order.iter().enumerate() {
        let places = renumbered[838 + 64 * number..].iter_mut();
        for (place, &target) in places.zip(targets(words, state)) {
            *place = numbers[usize::from(target)];
        }
    }
    renumbered
}

/// An order of the states of compiled words in which each stands behind those that it is
/// a target of, and else anywhere.
pub fn random_order(random: &mut Random, words: &[u16]) -> Vec<usize> {
    let states = usize::from(words[0]);
    let ready = |order: &[usize], state: usize| {
        let leads = |&parent: &usize| targets(words, parent).contains(&(state as u16));
        (0..states)
            .filter(leads)
            .all(|parent| order.contains(&parent))
    };
    let mut order = vec![0];
    while order.len() < states {
        let left = (1..states).filter(|state| !order.contains(state));
        let next: Vec<usize> = left.filter(|&state| ready(&order, state)).collect();
        order.push(*random.pick(&next));
    }
    order
}

/// Whether some state is less deep than the one before it, which never is so in compiled
/// words.
pub fn depths_fall(words: &[u16]) -> bool {
    let depth = |state: usize| words[70 + 3 * state];
    (1..usize::from(words[0])).any(|state| depth(state) < depth(state - 1))
}
