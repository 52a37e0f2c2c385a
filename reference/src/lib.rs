//! An independent version of the rollback converter, written from document 01
//! and requests \[1\] to \[10\] of document 02 alone, for comparison with the
//! definitions and the code of the project.
//!
//! The modules in document 01's order:
//!
//! - [`table`]: records, and the reader that refuses by 1 to 7
//! - [`pairs`]: characters of two units
//! - [`meaning`]: exact values, and Definition 7
//! - [`classes`], [`states`]: what a machine is made of
//! - [`automaton`]: the interface between the machine and where its states are kept
//! - [`words`]: the layout of the machine words and their soundness
//! - [`machine`]: the plain machine, one counted step at a time
//! - [`uses`]: how often each rule, the default and pairs were used
//! - [`session`]: sessions, feed, finish and preview
//! - [`chain`]: two machines in a row
//! - [`reckoning`]: what a list of calls must give, from the table and the calls alone
//! - [`direct`], [`compile`]: direct conversion and compiling
//! - [`witness`]: rules that can never be chosen, and inputs for the others
//! - [`needs`]: ways for an input to go on under which Definition 7 chooses differently
//! - [`typed`]: the records of rules typed as text
//! - [`refusal`], [`lengths`]: the refusals, and the two that look at lengths alone
//!
//! For tests and comparisons: [`builder`] writes tables, [`random`] draws
//! numbers from a seed, [`samples`] has the example tables, refused and random ones,
//! [`trial`] every short text.

#![forbid(unsafe_code)]
#![warn(missing_docs)]

pub mod automaton;
pub mod builder;
pub mod chain;
pub mod classes;
pub mod compile;
pub mod direct;
pub mod lengths;
pub mod machine;
pub mod meaning;
pub mod needs;
pub mod pairs;
pub mod random;
pub mod reckoning;
pub mod refusal;
pub mod samples;
pub mod session;
pub mod states;
pub mod table;
pub mod trial;
pub mod typed;
pub mod uses;
pub mod witness;
pub mod words;
