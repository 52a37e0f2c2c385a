//! Characters of 16 bits.

/// The characters of a text.
pub fn units(text: &str) -> Vec<u16> {
    text.encode_utf16().collect()
}

/// Whether a character is among those of a text in ASCII.
pub fn is_among(unit: u16, text: &str) -> bool {
    text.bytes().any(|byte| u16::from(byte) == unit)
}

/// Whether a character is a blank or a line end, which "count for nothing between
/// symbols".
pub fn is_blank(unit: u16) -> bool {
    is_among(unit, " \n\r")
}

/// The first place from one on that is no blank or line end.
pub fn symbol_from(text: &[u16], place: usize) -> usize {
    let blanks = text[place..].iter().take_while(|&&unit| is_blank(unit));
    place + blanks.count()
}

/// The control picture, ␀ to ␡, of a character that has one and doesn't show.
pub fn picture_of(unit: u16) -> Option<u16> {
    match unit {
        0..=0x1f => Some(0x2400 + unit),
        0x7f => Some(0x2421),
        _ => None,
    }
}

/// The character that a control picture, ␀ to ␡, names.
pub fn pictured(unit: u16) -> Option<u16> {
    match unit {
        0x2400..=0x2420 => Some(unit - 0x2400),
        0x2421 => Some(0x7f),
        _ => None,
    }
}
