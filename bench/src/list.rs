//! A list of calls of sixteen words each, on tables tested once.

use crate::drain::{drain_at, Move};
use crate::fast::{
    clear_at, fresh_at, install_at, keep_at, rebind_at, refused, release_at, request_at, set_at, Jobs, Out,
};
use crate::free::Kept;
use crate::hints::{Hints, InList};
use crate::machine::Machine;
use crate::maps::{maps_ok, Maps};

/// A drain, which hands out no pairs; what it takes and gives is noted in the hints.
fn drain(
    machine: &Machine,
    pages: &mut [u8],
    jobs: &Jobs,
    free: &mut Kept,
    maps: &Maps,
    hints: &mut InList,
    node: usize,
    room: usize,
) -> Out {
    let starts = machine.starts;
    let note = |one: Move| {
        hints.take(starts, one.node, one.colour, one.new);
        hints.give(starts, node, one.old);
    };
    match free.change(|free| drain_at(machine, pages, jobs, free, maps, node, room, note)) {
        Ok(moves) => Out { refusal: 0, node: 255, page: moves as u32 },
        Err(number) => refused(number),
    }
}

/// The nodes that stand in a call's last words.
fn listed(call: &[u64; 16]) -> [u8; 64] {
    let mut bytes = [0; 64];
    for (eight, word) in bytes.as_chunks_mut().0.iter_mut().zip(&call[8..]) {
        *eight = word.to_le_bytes();
    }
    bytes
}

/// Makes one call.
fn call(
    machine: &Machine,
    pages: &mut [u8],
    jobs: &mut Jobs,
    free: &mut Kept,
    maps: &mut Maps,
    hints: &mut InList,
    call: &[u64; 16],
) -> Out {
    let (job, nodes) = (call[1] as usize, machine.nodes);
    match call[0] {
        1 => return request_at(machine, pages, jobs, free, maps, hints, job, call[2] as usize),
        2 => return release_at(machine.starts, nodes, pages, free, maps, hints, job, call[2] as usize),
        16 => return fresh_at(machine.starts, nodes, pages, free, hints),
        19 => return drain(machine, pages, jobs, free, maps, hints, job, call[2] as usize),
        _ => {}
    }
    let (Some(words), Some(map)) = (jobs.get_mut(job), maps.get_mut(job)) else { return refused(2) };
    match call[0] {
        3 => rebind_at(nodes, words, call[2]),
        4 => {
            let used = if call[5] < 16 { (1 << (8 * call[5])) - 1 } else { u128::MAX };
            let places = u128::from(call[8]) | u128::from(call[9]) << 64;
            install_at(nodes, words, map, call[2], call[3], call[4], call[5], places & used)
        }
        17 | 18 => {
            let bytes = listed(call);
            // A longer list is none of either kind.
            let Some(list) = bytes.get(..call[5] as usize) else { return refused(15) };
            if call[0] == 17 {
                keep_at(nodes, map, list)
            } else {
                set_at(nodes, map, list)
            }
        }
        _ => clear_at(words),
    }
}

/// Runs the list; gives how many calls ran.
pub fn replay(
    counts: &[u32],
    cpus: &[u8],
    distances: &[u8],
    pages: &mut [u8],
    jobs: &mut [u64],
    free: &mut [u32],
    maps: &mut [u8],
    calls: &[u64],
    answers: &mut [u64],
) -> Result<usize, u8> {
    let mut starts = [0; 65];
    let machine = Machine::new(&mut starts, counts, cpus, distances, pages.len(), jobs.len()).ok_or(1)?;
    let mut free = Kept::new(free, counts.len()).ok_or(1)?;
    if !maps_ok(jobs.len(), maps.len()) {
        return Err(1);
    }
    let (calls, rest) = calls.as_chunks();
    let bad = |call: &[u64; 16]| !matches!(call[0], 1..=5 | 16..=19);
    if !rest.is_empty() || calls.iter().any(bad) {
        return Err(13);
    }
    if answers.len() < calls.len() {
        return Err(11);
    }
    let (jobs, maps) = (jobs.as_chunks_mut().0, maps.as_chunks_mut().0);
    let mut hints = InList::of(machine.starts);
    for (words, answer) in calls.iter().zip(answers.iter_mut()) {
        *answer = call(&machine, pages, jobs, &mut free, maps, &mut hints, words).word();
    }
    Ok(calls.len())
}
