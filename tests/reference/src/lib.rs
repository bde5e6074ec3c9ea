//! The second, independent implementation of document 01, as document 02 amends it: M-100 to M-107.
//!
//! Written from the papers alone, to be compared with the real one byte for
//! byte. Plain and slow on purpose: every function is named after the papers'
//! own words and cites the section or the request it follows.

#![forbid(unsafe_code)]

pub mod calls;
pub mod closing;
mod colour_examples;
pub mod colours;
pub mod drain;
pub mod drain_cases;
pub mod drain_examples;
pub mod drain_requests;
pub mod drain_ways;
pub mod examples;
pub mod fair;
pub mod generate;
pub mod journal;
pub mod machine;
pub mod map_cases;
pub mod maps;
pub mod masks;
pub mod near;
pub mod near_cases;
pub mod note_cases;
pub mod note_examples;
pub mod notes;
pub mod order;
pub mod program;
pub mod reason_cases;
pub mod reason_examples;
pub mod reason_orders;
pub mod reason_ways;
pub mod reasons;
pub mod record;
pub mod text;

#[cfg(test)]
mod identity;
#[cfg(test)]
mod matching;
#[cfg(test)]
mod refusals;
