//! The four ways to run the same calls.

use std::time::{Duration, Instant};

use reference::calls::{Call, Tables};
use spirerivet::{Answer, AppNode, SysNode};

use crate::drain::drain;
use crate::fast::{self, Out};
use crate::list;

/// Who runs the calls, and how.
#[derive(Clone, Copy, Debug, PartialEq, Eq)]
pub enum Way {
    LibraryCalls,
    FastCalls,
    LibraryReplay,
    FastReplay,
}

pub const WAYS: [Way; 4] = [Way::LibraryCalls, Way::FastCalls, Way::LibraryReplay, Way::FastReplay];

/// The words of a call for replay.
pub fn words_of(call: &Call) -> [u64; 16] {
    let wide = |number: &usize| *number as u64;
    spirerivet::words_of(&match call {
        Call::Request { job, cpu } => spirerivet::Call::Request { job: wide(job), cpu: wide(cpu) },
        Call::Release { job, page } => spirerivet::Call::Release { job: wide(job), page: wide(page) },
        Call::Rebind { job, allowed } => spirerivet::Call::Rebind { job: wide(job), allowed: *allowed },
        Call::Install { job, mode, flag, mask, places } => {
            let (job, places) = (wide(job), AppNode::list(places));
            spirerivet::Call::Install { job, mode: *mode, flag: *flag, mask: *mask, places }
        }
        Call::Clear { job } => spirerivet::Call::Clear { job: wide(job) },
        Call::Fresh => spirerivet::Call::Fresh,
        Call::KeepNodes { job, kept } => spirerivet::Call::KeepNodes { job: wide(job), kept: AppNode::list(kept) },
        Call::SetMap { job, list } => spirerivet::Call::SetMap { job: wide(job), list: SysNode::list(list) },
        Call::Drain { node, room } => spirerivet::Call::Drain { node: wide(node), room: wide(room) },
    })
}

/// The library's answer as a word.
fn word_of(answer: Answer) -> u64 {
    let out = match answer {
        Answer::Granted { node, page } => Out { refusal: 0, node: node.0, page },
        Answer::Released { node, page } => Out { refusal: 0, node: node.map_or(255, |node| node.0), page },
        Answer::Drained { moves } => Out { refusal: 0, node: 255, page: moves },
        Answer::Done => Out { refusal: 0, node: 255, page: u32::MAX },
        Answer::Refused(refusal) => Out { refusal: refusal.number(), node: 255, page: u32::MAX },
    };
    out.word()
}

/// One call by the library.
fn library_call(nodes: usize, tables: &mut Tables, call: &Call) -> u64 {
    let Tables { counts, cpus, distances, pages, jobs, free, maps } = tables;
    word_of(match call {
        Call::Request { job, cpu } => spirerivet::request(counts, cpus, distances, pages, jobs, free, maps, *job, *cpu),
        Call::Release { job, page } => spirerivet::release(counts, pages, jobs, free, maps, *job, *page),
        Call::Install { job, mode, flag, mask, places } => {
            spirerivet::install(nodes, jobs, maps, *job, *mode, *flag, *mask, AppNode::list(places))
        }
        Call::Rebind { job, allowed } => spirerivet::rebind(nodes, jobs, *job, *allowed),
        Call::Clear { job } => spirerivet::clear(nodes, jobs, *job),
        Call::Fresh => spirerivet::fresh(counts, pages, free),
        Call::KeepNodes { job, kept } => spirerivet::keep_nodes(nodes, jobs, maps, *job, AppNode::list(kept)),
        Call::SetMap { job, list } => spirerivet::set_map(nodes, jobs, maps, *job, SysNode::list(list)),
        Call::Drain { node, room } => {
            let mut moves = vec![0; (*room).min(2 * pages.len())];
            match spirerivet::drain(counts, distances, pages, jobs, free, maps, *node, &mut moves) {
                Ok(moves) => Answer::Drained { moves: moves as u32 },
                Err(refusal) => Answer::Refused(refusal),
            }
        }
    })
}

/// One call by the fast implementation.
pub fn fast_call(nodes: usize, tables: &mut Tables, call: &Call) -> u64 {
    let Tables { counts, cpus, distances, pages, jobs, free, maps } = tables;
    let out = match call {
        Call::Request { job, cpu } => fast::request(counts, cpus, distances, pages, jobs, free, maps, *job, *cpu),
        Call::Release { job, page } => fast::release(counts, pages, jobs, free, maps, *job, *page),
        Call::Install { job, mode, flag, mask, places } => {
            fast::install(nodes, jobs, maps, *job, *mode, *flag, *mask, places)
        }
        Call::Rebind { job, allowed } => fast::rebind(nodes, jobs, *job, *allowed),
        Call::Clear { job } => fast::clear(nodes, jobs, *job),
        Call::Fresh => fast::fresh(counts, pages, free),
        Call::KeepNodes { job, kept } => fast::keep_nodes(nodes, jobs, maps, *job, kept),
        Call::SetMap { job, list } => fast::set_map(nodes, jobs, maps, *job, list),
        Call::Drain { node, room } => {
            let mut moves = vec![0; (*room).min(2 * pages.len())];
            match drain(counts, distances, pages, jobs, free, maps, *node, &mut moves) {
                Ok(moves) => Out { refusal: 0, node: 255, page: moves as u32 },
                Err(number) => fast::refused(number),
            }
        }
    };
    out.word()
}

/// Runs all calls in one way and gives the time; the answers and the tables are left to be compared.
pub fn run(way: Way, tables: &mut Tables, calls: &[Call], words: &[u64], answers: &mut [u64]) -> Duration {
    let nodes = tables.counts.len();
    let begin = Instant::now();
    match way {
        Way::LibraryCalls => {
            for (call, answer) in calls.iter().zip(answers) {
                *answer = library_call(nodes, tables, call);
            }
        }
        Way::FastCalls => {
            for (call, answer) in calls.iter().zip(answers) {
                *answer = fast_call(nodes, tables, call);
            }
        }
        Way::LibraryReplay => {
            let Tables { counts, cpus, distances, pages, jobs, free, maps } = tables;
            spirerivet::replay(counts, cpus, distances, pages, jobs, free, maps, words, answers).expect("a good list");
        }
        Way::FastReplay => {
            let Tables { counts, cpus, distances, pages, jobs, free, maps } = tables;
            list::replay(counts, cpus, distances, pages, jobs, free, maps, words, answers).expect("a good list");
        }
    }
    begin.elapsed()
}
