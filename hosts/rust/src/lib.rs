//! The proved memory placer for Rust hosts.
//!
//! A thin, safe layer over libspirerivet.a. Tables are lent as slices, laid
//! out as document 01 says, with a count of free pages for each node and a map
//! for each job; every call gives its answer or one numbered refusal, and a
//! refused call changes nothing that it was lent.

#![deny(unsafe_code)]

mod answer;
mod calls;
mod ffi;
mod list;
mod node;
mod reason;

pub use answer::{Answer, Order, Refusal};
pub use calls::{
    clear, drain, fresh, install, journal, keep_nodes, name, near, note_places, read_nodes, reasons, rebind, release,
    replay, request, set_map, write_nodes, write_note,
};
pub use list::{answer_of, words_of, Call, CALL_WORDS, MOST_CALL_PLACES};
pub use node::{identity_maps, AppNode, SysNode, MAP_BYTES, MAP_END};
pub use reason::Reason;

/// The words of a job in the job table.
pub const JOB_WORDS: usize = 6;

/// The modes that `install` knows.
pub mod mode {
    pub const DEFAULT: u64 = 0;
    pub const PREFERRED: u64 = 1;
    pub const BIND: u64 = 2;
    pub const INTERLEAVE: u64 = 3;
    pub const LIST: u64 = 4;
    pub const RING: u64 = 5;
    pub const EARLY: u64 = 6;
}

/// The most places of a list, and the most names of a note's.
pub const MOST_PLACES: usize = 16;

/// The lists of a note.
pub mod which {
    pub const TEXT: u64 = 0;
    pub const DATA: u64 = 1;
}

/// The flags that `install` knows.
pub mod flag {
    pub const NONE: u64 = 0;
    pub const STATIC: u64 = 1;
    pub const RELATIVE: u64 = 2;
}
