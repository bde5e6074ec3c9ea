//! The proved library and program timed beside a careful Rust implementation of the same rules.

#![deny(unsafe_code)]

pub mod boards;
pub mod colours;
pub mod drain;
pub mod fast;
mod free;
mod hints;
pub mod journal;
pub mod journals;
pub mod list;
mod machine;
mod maps;
mod masks;
pub mod near;
pub mod questions;
pub mod reasons;
mod record;
pub mod rows;
pub mod search;
pub mod ways;
pub mod works;
