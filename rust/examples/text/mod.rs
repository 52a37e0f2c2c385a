//! What the examples share: text from standard input and to standard output, one
//! character a byte.

use std::error::Error;
use std::io::{self, Read, Write};

/// Reads a piece of at most so many characters; an empty one at the end.
pub fn read_piece(most: usize) -> io::Result<Vec<u16>> {
    let mut bytes = vec![0; most];
    let length = io::stdin().read(&mut bytes)?;
    Ok(bytes[..length].iter().copied().map(u16::from).collect())
}

/// Prints characters; none above 255 is printed as another.
pub fn print_text(text: &[u16]) -> Result<(), Box<dyn Error>> {
    let bytes: Result<Vec<u8>, _> = text.iter().copied().map(u8::try_from).collect();
    let bytes = bytes.map_err(|_| "an output character above 255")?;
    let mut out = io::stdout().lock();
    out.write_all(&bytes)?;
    Ok(out.flush()?)
}
