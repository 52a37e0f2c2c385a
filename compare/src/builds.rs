//! The library as it is now and that of an earlier commit, both in one program, to time
//! them beside each other: the functions of `include/cobbletwill.h`, safe to call, each
//! by a pointer. `build.rs` links both, under names that begin with the build's.

use std::sync::atomic::{AtomicUsize, Ordering};

use crate::face::{Input, Session, USES_SIZE};

/// How many copies of a build there are, each at another place.
pub const COPIES: usize = 4;

/// The copy that is called, of every build.
static COPY: AtomicUsize = AtomicUsize::new(0);

/// From now on this copy is called, of every build.
pub fn call_copy(copy: usize) {
    COPY.store(copy % COPIES, Ordering::Relaxed);
}

/// Declares functions of copies of builds: the struct of them, and a constant for each
/// build, of those of its copies.
macro_rules! functions {
    (
        $(#[$struct_doc:meta])*
        $name:ident $functions:tt
        $($(#[$doc:meta])* $build:ident: $($prefix:literal)*;)*
    ) => {
        gathered!($(#[$struct_doc])* $name $functions);
        $($(#[$doc])* const $build: [$name; COPIES] = copies!($name $functions $($prefix)*);)*
    };
}

/// The struct of functions.
macro_rules! gathered {
    (
        $(#[$doc:meta])*
        $struct:ident {$(fn $name:ident($($argument:ident: $type:ty),* $(,)?);)*}
    ) => {
        $(#[$doc])*
        struct $struct {
            $($name: unsafe extern "C" fn($($argument: $type),*) -> u32,)*
        }
    };
}

/// The functions of copies whose names begin so.
macro_rules! copies {
    ($struct:ident $functions:tt $($prefix:literal)*) => {
        [$(copy!($prefix $struct $functions)),*]
    };
}

/// The functions of a copy.
macro_rules! copy {
    ($prefix:literal $struct:ident {$(fn $name:ident($($argument:ident: $type:ty),* $(,)?);)*}) => {{
        extern "C" {
            $(
                #[link_name = concat!($prefix, "_cobbletwill_", stringify!($name))]
                fn $name($($argument: $type),*) -> u32;
            )*
        }
        $struct { $($name),* }
    }};
}

functions! {
    /// The functions of a copy of a build, as C has them.
    Functions {
        fn convert(
            table: *const u8,
            table_length: usize,
            input: *const u16,
            input_length: usize,
            output: *mut u16,
            output_length: usize,
            place: *mut u64,
            written: *mut u64,
        );

        fn from_text(
            text: *const u16,
            text_length: usize,
            table: *mut u8,
            table_length: usize,
            length: *mut u64,
        );

        fn compile(table: *const u8, table_length: usize, words: *mut u16, words_length: usize);

        fn witness(
            table: *const u8,
            table_length: usize,
            words: *mut u16,
            words_length: usize,
            rule: u32,
            input: *mut Input,
        );

        fn is_sound(words: *const u16, words_length: usize);

        fn feed_parts(
            words: *const u16,
            words_length: usize,
            session: *mut Session,
            uses: *mut [u64; USES_SIZE],
            piece: *const u16,
            piece_length: usize,
            output: *mut u16,
            output_length: usize,
            written: *mut u64,
        );

        fn finish_parts(
            words: *const u16,
            words_length: usize,
            session: *mut Session,
            uses: *mut [u64; USES_SIZE],
            output: *mut u16,
            output_length: usize,
            written: *mut u64,
        );

        fn preview_parts(
            words: *const u16,
            words_length: usize,
            session: *const Session,
            uses: *const [u64; USES_SIZE],
            piece: *const u16,
            piece_length: usize,
            later: *mut Session,
            later_uses: *mut [u64; USES_SIZE],
            written: *mut u64,
        );
    }

    /// Of the library as it is now.
    NOW_COPIES: "now0" "now1" "now2" "now3";

    /// Of the build before.
    BEFORE_COPIES: "before0" "before1" "before2" "before3";
}

functions! {
    /// The functions of chains, as C has them, which no build from before request [10] has.
    ChainFunctions {
        fn chain_feed_parts(
            first_words: *const u16,
            first_words_length: usize,
            first: *mut Session,
            first_uses: *mut [u64; USES_SIZE],
            second_words: *const u16,
            second_words_length: usize,
            second: *mut Session,
            second_uses: *mut [u64; USES_SIZE],
            piece: *const u16,
            piece_length: usize,
            middle: *mut u16,
            middle_length: usize,
            output: *mut u16,
            output_length: usize,
            written: *mut u64,
            first_status: *mut u32,
        );

        fn chain_finish_parts(
            first_words: *const u16,
            first_words_length: usize,
            first: *mut Session,
            first_uses: *mut [u64; USES_SIZE],
            second_words: *const u16,
            second_words_length: usize,
            second: *mut Session,
            second_uses: *mut [u64; USES_SIZE],
            middle: *mut u16,
            middle_length: usize,
            output: *mut u16,
            output_length: usize,
            written: *mut u64,
            first_status: *mut u32,
        );
    }

    /// Of the library as it is now.
    CHAIN_COPIES: "now0" "now1" "now2" "now3";
}

/// A build of the library. Its methods answer as the functions of [`crate::face`].
pub struct Build {
    /// What it is called.
    pub name: &'static str,
    copies: [Functions; COPIES],
}

/// The library as it is now.
pub static NOW: Build = Build {
    name: "now",
    copies: NOW_COPIES,
};

/// The library as it was before.
pub static BEFORE: Build = Build {
    name: "before",
    copies: BEFORE_COPIES,
};

/// The chains of the library as it is now. The methods answer as the functions of
/// [`crate::face`].
pub struct Chains {
    copies: [ChainFunctions; COPIES],
}

/// The chains of the library as it is now.
pub static CHAINS: Chains = Chains {
    copies: CHAIN_COPIES,
};

/// A machine of a chain, as a call is lent it.
pub struct Link<'l> {
    /// The machine words.
    pub words: &'l [u16],
    /// The session.
    pub session: &'l mut Session,
}

// SAFETY, for each call: the functions are those of the header. Each pointer and length
// are those of a slice, sessions and inputs have the header's layout, and what is written
// is borrowed for the call alone. Of a session that is lent in two parts a function
// touches but the part before the counts, and the counts by their own pointer.
// A build from before request [8] has one count less, and so leaves the last, that of
// pairs, as it is.
impl Build {
    /// The functions of the copy that is called.
    #[inline]
    fn functions(&self) -> &Functions {
        &self.copies[COPY.load(Ordering::Relaxed)]
    }

    /// Direct conversion.
    #[inline]
    pub fn convert(
        &self,
        table: &[u8],
        input: &[u16],
        output: &mut [u16],
        place: &mut u64,
        written: &mut u64,
    ) -> u32 {
        // SAFETY: as above.
        unsafe {
            (self.functions().convert)(
                table.as_ptr(),
                table.len(),
                input.as_ptr(),
                input.len(),
                output.as_mut_ptr(),
                output.len(),
                place,
                written,
            )
        }
    }

    /// The records of a typed text.
    #[inline]
    pub fn from_text(&self, text: &[u16], table: &mut [u8], length: &mut u64) -> u32 {
        // SAFETY: as above.
        unsafe {
            (self.functions().from_text)(
                text.as_ptr(),
                text.len(),
                table.as_mut_ptr(),
                table.len(),
                length,
            )
        }
    }

    /// Compiling.
    #[inline]
    pub fn compile(&self, table: &[u8], words: &mut [u16]) -> u32 {
        // SAFETY: as above.
        unsafe {
            (self.functions().compile)(table.as_ptr(), table.len(), words.as_mut_ptr(), words.len())
        }
    }

    /// Whether a rule can be chosen.
    #[inline]
    pub fn witness(&self, table: &[u8], words: &mut [u16], rule: u32, input: &mut Input) -> u32 {
        // SAFETY: as above.
        unsafe {
            (self.functions().witness)(
                table.as_ptr(),
                table.len(),
                words.as_mut_ptr(),
                words.len(),
                rule,
                input,
            )
        }
    }

    /// The test of words.
    #[inline]
    pub fn is_sound(&self, words: &[u16]) -> u32 {
        // SAFETY: as above.
        unsafe { (self.functions().is_sound)(words.as_ptr(), words.len()) }
    }

    /// A feed.
    #[inline]
    pub fn feed(
        &self,
        words: &[u16],
        session: &mut Session,
        piece: &[u16],
        output: &mut [u16],
        written: &mut u64,
    ) -> u32 {
        let session: *mut Session = session;
        // SAFETY: as above.
        unsafe {
            (self.functions().feed_parts)(
                words.as_ptr(),
                words.len(),
                session,
                &raw mut (*session).uses,
                piece.as_ptr(),
                piece.len(),
                output.as_mut_ptr(),
                output.len(),
                written,
            )
        }
    }

    /// A finish.
    #[inline]
    pub fn finish(
        &self,
        words: &[u16],
        session: &mut Session,
        output: &mut [u16],
        written: &mut u64,
    ) -> u32 {
        let session: *mut Session = session;
        // SAFETY: as above.
        unsafe {
            (self.functions().finish_parts)(
                words.as_ptr(),
                words.len(),
                session,
                &raw mut (*session).uses,
                output.as_mut_ptr(),
                output.len(),
                written,
            )
        }
    }

    /// A preview.
    #[inline]
    pub fn preview(
        &self,
        words: &[u16],
        session: &Session,
        piece: &[u16],
        later: &mut Session,
        written: &mut u64,
    ) -> u32 {
        let later: *mut Session = later;
        // SAFETY: as above.
        unsafe {
            (self.functions().preview_parts)(
                words.as_ptr(),
                words.len(),
                session,
                &session.uses,
                piece.as_ptr(),
                piece.len(),
                later,
                &raw mut (*later).uses,
                written,
            )
        }
    }
}

impl Chains {
    /// The functions of the copy that is called.
    #[inline]
    fn functions(&self) -> &ChainFunctions {
        &self.copies[COPY.load(Ordering::Relaxed)]
    }

    /// A feed.
    #[inline]
    pub fn feed(
        &self,
        [first, second]: [Link; 2],
        piece: &[u16],
        middle: &mut [u16],
        output: &mut [u16],
        written: &mut u64,
        first_status: &mut u32,
    ) -> u32 {
        let (first_session, second_session): (*mut Session, *mut Session) =
            (first.session, second.session);
        // SAFETY: as above.
        unsafe {
            (self.functions().chain_feed_parts)(
                first.words.as_ptr(),
                first.words.len(),
                first_session,
                &raw mut (*first_session).uses,
                second.words.as_ptr(),
                second.words.len(),
                second_session,
                &raw mut (*second_session).uses,
                piece.as_ptr(),
                piece.len(),
                middle.as_mut_ptr(),
                middle.len(),
                output.as_mut_ptr(),
                output.len(),
                written,
                first_status,
            )
        }
    }

    /// A finish.
    #[inline]
    pub fn finish(
        &self,
        [first, second]: [Link; 2],
        middle: &mut [u16],
        output: &mut [u16],
        written: &mut u64,
        first_status: &mut u32,
    ) -> u32 {
        let (first_session, second_session): (*mut Session, *mut Session) =
            (first.session, second.session);
        // SAFETY: as above.
        unsafe {
            (self.functions().chain_finish_parts)(
                first.words.as_ptr(),
                first.words.len(),
                first_session,
                &raw mut (*first_session).uses,
                second.words.as_ptr(),
                second.words.len(),
                second_session,
                &raw mut (*second_session).uses,
                middle.as_mut_ptr(),
                middle.len(),
                output.as_mut_ptr(),
                output.len(),
                written,
                first_status,
            )
        }
    }
}
