//! Every short text of a few characters, for trials.

use std::iter::successors;
use std::ops::RangeInclusive;

/// Every text made of the characters, of which there is one at least, whose length is one
/// of the lengths, the shortest first.
pub fn texts(
    characters: &[u16],
    lengths: RangeInclusive<usize>,
) -> impl Iterator<Item = Vec<u16>> + '_ {
    let all_digits = lengths.flat_map(|length| {
        let first = Some(vec![0; length]);
        successors(first, |digits| counted_on(digits.clone(), characters.len()))
    });
    all_digits.map(|digits| digits.iter().map(|&digit| characters[digit]).collect())
}

/// How many texts there are of so many characters, by their lengths.
pub fn text_count(characters: usize, lengths: RangeInclusive<usize>) -> usize {
    let of_length = |length: usize| characters.saturating_pow(length as u32);
    lengths.map(of_length).fold(0, usize::saturating_add)
}

/// The next digits in a base, unless these are the last.
fn counted_on(mut digits: Vec<usize>, base: usize) -> Option<Vec<usize>> {
    for digit in &mut digits {
        *digit += 1;
        if *digit < base {
            return Some(digits);
        }
        *digit = 0;
    }
    None
}
