//! The linked library beside the second implementation: the same calls on the same tables.

#![forbid(unsafe_code)]

mod both;
mod counts;
mod drain;
mod journal;
mod lent;
mod list;
mod near;
mod notes;
mod reasons;
mod text;

use std::ops::Range;

pub use both::{library_call, library_replay, Both, Seen};
pub use counts::Shown;
pub use drain::{drain_by_both, library_drain};
pub use journal::journal_by_both;
pub use lent::{Lent, LentTables};
pub use list::{answer_word, install_in, list_refusal, map_call_in, packed, words, RUBBISH};
pub use near::near_by_both;
pub use notes::{name_by_both, places_by_both, write_note_by_both};
pub use reasons::{library_reasons, reasons_by_both};
pub use text::{read_by_both, write_by_both};

/// The numbers from 0, for no refusal, to the highest refusal.
pub const NUMBERS: usize = spirerivet::Refusal::ALL.len() + 1;

/// Seeds from 0; the environment variable HOSTS_TIMES makes a run so many times longer.
pub fn seeds(how_many: u64) -> Range<u64> {
    let times = std::env::var("HOSTS_TIMES").ok().and_then(|times| times.parse().ok()).unwrap_or(1);
    0..how_many * times
}
