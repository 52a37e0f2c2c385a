//! The proved library, called through its C face, beside the independent
//! version in `reference`, and for its speed beside two more.
//!
//! - [`face`]: the functions of `include/cobbletwill.h`, safe to call
//! - [`cases`]: random tables, sound and damaged, with inputs and buffers
//! - [`digits`]: tables with digits, and damage to their records and entries
//! - [`terms`]: terms in any order and by position, and damage to their records
//! - [`typed`]: typed texts, of random tables and others, and damage to them
//! - [`rivals`]: tables whose rules stand in each other's way
//! - [`both`]: direct conversion, compiling, live and dead rules, the test of words
//!   and the reading of typed texts by both
//! - [`calls`]: feeds and finishes by both, and random ones
//! - [`lists`]: lists of calls by both, beside the reckoning
//! - [`chain`]: chains of two machines by both, and lists of their calls
//! - [`damage`]: damaged machine words and sessions
//! - [`orders`]: words whose states are numbered in another order
//! - [`pairs`]: tables with marked defaults over units of pairs
//! - [`needs`]: sessions with what they were fed, and words that wait without need
//! - [`uses`]: sessions with uses of many rules, and damage to their counts
//! - [`fast`]: the rollback machine written for speed
//! - `flex`: T1's rules as a scanner that flex generates (feature `flex`)
//! - `builds`: the library now and as it was before, in one program (feature `before`)
//!
//! `tests/` compares them; the program `bench` times them.

#![deny(unsafe_op_in_unsafe_fn)]
#![warn(missing_docs)]

pub mod both;
#[cfg(feature = "before")]
pub mod builds;
pub mod calls;
pub mod cases;
pub mod chain;
pub mod damage;
pub mod digits;
pub mod face;
pub mod fast;
#[cfg(feature = "flex")]
pub mod flex;
pub mod lists;
pub mod needs;
pub mod orders;
pub mod pairs;
pub mod rivals;
pub mod terms;
pub mod typed;
pub mod uses;
