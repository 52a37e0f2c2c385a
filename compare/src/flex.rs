//! T1's rules as scanners that flex generates out of `flex/t1.l`.

/// The declarations, as C has them.
mod c {
    extern "C" {
        pub fn t1_scan_usual(
            input: *const u8,
            length: usize,
            piece: usize,
            output: *mut u16,
        ) -> usize;
        pub fn t1_scan_fastest(
            input: *const u8,
            length: usize,
            piece: usize,
            output: *mut u16,
        ) -> usize;
    }
}

/// The tables that flex generates.
#[derive(Clone, Copy)]
pub enum Tables {
    /// As without an option: `-Cem`.
    Usual,
    /// As with `-Cfa`.
    Fastest,
}

/// Converts bytes, which the scanner gets so many at a time; the number of
/// characters written.
///
/// # Panics
///
/// If the pieces are empty or the output is shorter than 5 times the input.
pub fn scan(tables: Tables, input: &[u8], piece: usize, output: &mut [u16]) -> usize {
    assert!(piece > 0, "a piece");
    assert!(output.len() >= 5 * input.len(), "a long output");
    let scan = match tables {
        Tables::Usual => c::t1_scan_usual,
        Tables::Fastest => c::t1_scan_fastest,
    };
    // SAFETY: the pointers and the length are those of slices; the scanner writes
    // at most 5 characters for a byte, for which there is room.
    unsafe { scan(input.as_ptr(), input.len(), piece, output.as_mut_ptr()) }
}
