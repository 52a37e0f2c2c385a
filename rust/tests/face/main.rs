//! The safe interface: document 01's examples and refusals, those of digits, those of
//! typed rules, live and dead rules, pairs outside the basic plane, two machines in a row,
//! and the output that calls need.

mod chain;
mod examples;
mod pairs;
mod refusals;
mod rooms;
mod tables;
mod typed;
mod witness;
