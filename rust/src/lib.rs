//! The proved rollback converter for Rust callers, over the C face of
//! `include/cobbletwill.h`. Document 01 says what tables, machine words, sessions
//! and refusals are, request \[4\] of document 02 what can be typed, request \[5\]
//! what a preview is, request \[6\] which rules are live and which are dead, request
//! \[8\] what a marked default makes of pairs outside the basic plane, request \[10\]
//! what a chain is.
//!
//! ```
//! use cobbletwill::record::{output, range, rule, term, DEFAULT};
//! use cobbletwill::{Machine, Session, Status, Table};
//!
//! // One rule: `+` is written as a blank. The default writes what it took.
//! let typed: Vec<u16> = "\"+\" ==> [32]; else ==> [x0];".encode_utf16().collect();
//! let table = Table::from_text(&typed)?;
//! let plus = [rule(1, false), range(0, 43, 43), output(32)];
//! let default = [DEFAULT, output(0), term(0, 1)];
//! assert_eq!(*table, [plus, default].concat().concat());
//!
//! let machine = Machine::compile(&table)?;
//! let mut session = Session::fresh();
//! let mut text = [0; 5];
//! let piece: Vec<u16> = "0+214".encode_utf16().collect();
//! let seen = session.preview(&machine, &piece)?;
//! assert_eq!((seen.status, seen.written), (Status::Open, 5));
//! let fed = session.feed(&machine, &piece, &mut text)?;
//! assert_eq!((fed.status, fed.written), (Status::Open, 5));
//! assert_eq!(session, seen.session);
//! assert_eq!(String::from_utf16_lossy(&text), "0 214");
//! assert_eq!(session.finish(&machine, &mut [])?.status, Status::Closed);
//! assert_eq!((session.uses(0), session.default_uses()), (1, 4));
//! # Ok::<(), cobbletwill::Refusal>(())
//! ```
//!
//! - [`check`], [`convert`]: the table check and direct conversion
//! - [`Table::from_text`]: tables of rules that are typed as text
//! - [`Machine`]: compiled tables
//! - [`witness`]: an input that has a rule chosen, or that the rule is dead
//! - [`Session`]: feed, finish and preview, and how often each rule was used; [`run`]
//!   makes all calls
//! - [`Chain`]: two machines in a row, the first's text being fed to the second
//! - [`Refusal`]: the numbered refusals
//! - [`record`]: writing a table's records
//! - [`version`]: the version of the library that is linked
//! - [`raw`]: the functions of the header as they are, on any words and sessions

#![deny(unsafe_code)]
#![warn(missing_docs)]

mod chain;
mod direct;
mod machine;
pub mod raw;
pub mod record;
mod refusal;
mod session;
mod typed;

pub use chain::{Chain, ChainProgress};
pub use direct::{check, convert, Conversion, Ending};
pub use machine::{witness, Machine};
pub use raw::{
    version, Session, Tally, HELD_SIZE, INPUT_SIZE, MAX_CHARACTERS, MAX_EXPANSION, TABLE_SIZE,
    WORDS_SIZE,
};
pub use refusal::Refusal;
pub use session::{run, Preview, Progress, Status};
pub use typed::Table;
