//! Runs a script of calls over implementations of the tracker, and compares what they answer with a stored output.
//!
//! A line of a script is a word and its numbers; words.rs is the table of all words.
#![forbid(unsafe_code)]

pub mod answer;
pub mod compare;
pub mod help;
pub mod line;
pub mod numbers;
pub mod session;
pub mod side;
pub mod tracker;
pub mod typed;
pub mod words;

#[cfg(test)]
mod tests;
