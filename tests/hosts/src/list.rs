//! Calls as the words that `replay` reads, and what it must answer.

use reference::calls::{Answer, Call, Tables};
use reference::generate::Dice;
use reference::machine::{free_fits, request_tables_fit};
use reference::maps::maps_fit;
use spirerivet::{AppNode, SysNode};

/// What stands in answer cells that nothing may write.
pub const RUBBISH: u64 = 0xA5A5_A5A5_A5A5_A5A5;

/// The words of a call.
pub fn words(call: &Call) -> [u64; spirerivet::CALL_WORDS] {
    let wide = |number: &usize| *number as u64;
    spirerivet::words_of(&match call {
        Call::Request { job, cpu } => spirerivet::Call::Request { job: wide(job), cpu: wide(cpu) },
        Call::Release { job, page } => spirerivet::Call::Release { job: wide(job), page: wide(page) },
        Call::Rebind { job, allowed } => spirerivet::Call::Rebind { job: wide(job), allowed: *allowed },
        Call::Install { job, mode, flag, mask, places } => {
            let (job, places) = (wide(job), AppNode::list(places));
            spirerivet::Call::Install { job, mode: *mode, flag: *flag, mask: *mask, places }
        }
        Call::Clear { job } => spirerivet::Call::Clear { job: wide(job) },
        Call::Fresh => spirerivet::Call::Fresh,
        Call::KeepNodes { job, kept } => spirerivet::Call::KeepNodes { job: wide(job), kept: AppNode::list(kept) },
        Call::SetMap { job, list } => spirerivet::Call::SetMap { job: wide(job), list: SysNode::list(list) },
        Call::Drain { node, room } => spirerivet::Call::Drain { node: wide(node), room: wide(room) },
    })
}

/// The words before the eighth that a kind uses.
fn used(call: &Call) -> &'static [usize] {
    match call {
        Call::Request { .. } | Call::Release { .. } | Call::Rebind { .. } | Call::Drain { .. } => &[0, 1, 2],
        Call::Install { .. } => &[0, 1, 2, 3, 4, 5],
        Call::Clear { .. } => &[0, 1],
        Call::Fresh => &[0],
        Call::KeepNodes { .. } | Call::SetMap { .. } => &[0, 1, 5],
    }
}

/// The places or nodes that a kind has in its words from the eighth on.
fn list_of(call: &Call) -> &[u8] {
    match call {
        Call::Install { places: list, .. } | Call::KeepNodes { kept: list, .. } | Call::SetMap { list, .. } => list,
        _ => &[],
    }
}

/// The words of the calls, one after the other; rubbish in all that is ignored.
pub fn packed(dice: &mut Dice, calls: &[Call]) -> Vec<u64> {
    let mut list = Vec::new();
    for call in calls {
        let mut call_words = words(call);
        for word in (0..8).filter(|word| !used(call).contains(word)) {
            call_words[word] = dice.next();
        }
        for place in list_of(call).len()..64 {
            call_words[8 + place / 8] |= u64::from(dice.byte()) << (8 * (place % 8));
        }
        list.extend(call_words);
    }
    list
}

/// The list in the words of a call: any length may be said, and entries past the 64th are zeros.
fn list_in(call: &[u64]) -> Vec<u8> {
    match call[5] {
        length @ 0..=1_000 => {
            let bytes = call[8..16].iter().flat_map(|word| word.to_le_bytes());
            bytes.chain(std::iter::repeat(0)).take(length as usize).collect()
        }
        // Too long to be built. Of a list of over 64 a call reads only that it is one: so many zeros will do.
        _ => vec![0; 1_000],
    }
}

/// The call in the words of an install.
pub fn install_in(call: &[u64]) -> Call {
    Call::Install { job: call[1] as usize, mode: call[2], flag: call[3], mask: call[4], places: list_in(call) }
}

/// The call in the words of a keep nodes or a set map.
pub fn map_call_in(call: &[u64]) -> Call {
    let (job, list) = (call[1] as usize, list_in(call));
    match call[0] {
        17 => Call::KeepNodes { job, kept: list },
        18 => Call::SetMap { job, list },
        kind => panic!("kind {kind} has no nodes"),
    }
}

/// The word of an answer.
pub fn answer_word(answer: Answer) -> u64 {
    let (refusal, node, page) = match answer {
        Answer::Granted { node, page } => (0, node.0, page),
        Answer::Released { node, page } => (0, node.map_or(255, |node| node.0), page),
        Answer::Drained { moves } => (0, 255, moves),
        Answer::Done => (0, 255, u32::MAX),
        Answer::Refused(number) => (number, 255, u32::MAX),
    };
    u64::from(refusal) + u64::from(node) * 256 + u64::from(page) * 4_294_967_296
}

/// The refusal of a whole list: 1, 13, 11 in this order; 13 is for a list that is cut short and for an unknown kind alone.
pub fn list_refusal(tables: &Tables, list: &[u64], room: usize) -> Option<u8> {
    let Tables { counts, cpus, distances, pages, jobs, free, maps } = tables;
    let tables_fit = request_tables_fit(counts, cpus, distances, pages, jobs);
    if !tables_fit || !free_fits(counts, free) || !maps_fit(jobs, maps) {
        return Some(1);
    }
    if list.len() % 16 != 0 || list.chunks(16).any(|call| !matches!(call[0], 1..=5 | 16..=19)) {
        return Some(13);
    }
    if room < list.len() / 16 {
        return Some(11);
    }
    None
}
