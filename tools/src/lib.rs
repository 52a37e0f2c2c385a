//! For those who write tables: [`source`] makes a table from a readable text,
//! [`build`] says where one is refused, [`listing`] prints a table's records in
//! words, [`typed`] writes a table as rules that can be typed.
//!
//! What typed rules mean, and whether a table is accepted, is decided by the proved
//! library alone.

#![forbid(unsafe_code)]
#![warn(missing_docs)]

pub mod build;
mod digit;
mod fault;
pub mod listing;
mod mark;
mod place;
mod refused;
pub mod source;
pub mod typed;
mod units;
