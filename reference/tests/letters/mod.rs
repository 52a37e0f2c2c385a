//! Characters of the tests of pairs, as numbers that request \[8\] and ASCII have.

/// The first and the last first unit, and the first and the last second unit.
pub const HIGH: u16 = 0xD800;
pub const LAST_HIGH: u16 = 0xDBFF;
pub const LOW: u16 = 0xDC00;
pub const LAST_LOW: u16 = 0xDFFF;
/// `a` and `b`.
pub const A: u16 = 97;
pub const B: u16 = 98;
