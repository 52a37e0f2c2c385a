//! Writing the records of a table, 8 bytes each.

/// "Records of 8 bytes."
pub const BYTES: usize = 8;

/// A record's bytes.
pub type Record = [u8; BYTES];

/// Kind 1: a rule of a length, anchored or not.
pub const fn rule(length: u8, anchored: bool) -> Record {
    [1, length, anchored as u8, 0, 0, 0, 0, 0]
}

/// Kind 2: a range of a position, from the lowest to the highest character.
pub const fn range(position: u8, lowest: u16, highest: u16) -> Record {
    let ([l0, l1], [h0, h1]) = (lowest.to_le_bytes(), highest.to_le_bytes());
    [2, position, 0, 0, l0, l1, h0, h1]
}

/// Kind 3: an output character with its constant.
pub const fn output(constant: i32) -> Record {
    let [c0, c1, c2, c3] = constant.to_le_bytes();
    [3, 0, 0, 0, c0, c1, c2, c3]
}

/// Kind 4: a term, a coefficient for the character at a position. Those of an output
/// character stand in any order, each of another position.
pub const fn term(position: u8, coefficient: i16) -> Record {
    let [c0, c1] = coefficient.to_le_bytes();
    [4, position, 0, 0, c0, c1, 0, 0]
}

/// Kind 5: the default, which takes one unit.
pub const DEFAULT: Record = [5, 0, 0, 0, 0, 0, 0, 0];

/// Kind 5: the marked default, which lets a pair outside the basic plane through whole
/// and takes one of all other units.
pub const MARKED_DEFAULT: Record = [5, 1, 0, 0, 0, 0, 0, 0];

/// Kind 6: an output character that is a hexadecimal digit of the character at a
/// position, the one that stands above so many bits: 0, 4, 8 or 12.
pub const fn digit(position: u8, shift: u8) -> Record {
    [6, position, shift, 0, 0, 0, 0, 0]
}
