//! The rules of document 01, with free counts and maps, written for speed: tables tested once, no order built.
//! The calls named `.._at` are made on tables that are known to be in order.

use crate::free::{Free, Lent};
use crate::hints::{First, Hints};
use crate::machine::{find_starts, jobs_ok, node_of, Machine, Starts};
use crate::maps::{keep, maps_ok, set, JobMap, Maps};
use crate::masks::{below, folded, remapped};
use crate::record::{closes, Record};
use crate::search::COLOURS;

/// Refusal (0 for none), node and page; 255 and 0xFFFFFFFF where there is none.
#[derive(Clone, Copy, Debug, PartialEq, Eq)]
pub struct Out {
    pub refusal: u8,
    pub node: u8,
    pub page: u32,
}

impl Out {
    /// The word of an answer.
    pub fn word(self) -> u64 {
        u64::from(self.refusal) | u64::from(self.node) << 8 | u64::from(self.page) << 32
    }
}

const DONE: Out = refused(0);

/// The six words of each job.
pub type Jobs = [[u64; 6]];

pub const fn refused(refusal: u8) -> Out {
    Out { refusal, node: 255, page: u32::MAX }
}

/// Request.
pub fn request_at<const KEPT: bool>(
    machine: &Machine,
    pages: &mut [u8],
    jobs: &mut Jobs,
    free: &mut Free<KEPT>,
    maps: &Maps,
    hints: &mut impl Hints,
    job: usize,
    cpu: usize,
) -> Out {
    let (Some(words), Some(map)) = (jobs.get_mut(job), maps.get(job)) else { return refused(2) };
    let Some(map) = JobMap::of(machine.nodes, map) else { return refused(15) };
    let Some(home) = machine.cpus.get(cpu) else { return refused(3) };
    let Some(record) = Record::of(machine.nodes, words) else { return refused(4) };
    let Some((node, cursor)) = choose(machine, free, record, map.nodes, usize::from(*home)) else { return refused(8) };
    let colour = job % COLOURS;
    let Some(page) = hints.page(machine.starts, pages, node, colour) else { return refused(14) };
    words[0] = words[0] & !(255 << 24) | cursor << 24;
    pages[page] = job as u8 + 1;
    free.take(node);
    hints.take(machine.starts, node, colour, page);
    Out { refusal: 0, node: map.number(node), page: page as u32 }
}

/// The first node in the search order that is counted above 0, and the cursor after a grant from it.
#[inline(always)]
pub(crate) fn choose<const KEPT: bool>(
    machine: &Machine,
    free: &Free<KEPT>,
    record: Record,
    mapped: u64,
    home: usize,
) -> Option<(usize, u64)> {
    let (limit, effective, cursor) = (record.allowed() & mapped, record.effective(), record.cursor());
    let near = |among, x, cursor| free.near(machine, among, x).map(|node| (node, cursor));
    match record.mode() {
        _ if record.flag() == 1 && effective == 0 => near(limit, home, cursor),
        1 if effective != 0 => near(limit, effective.trailing_zeros() as usize, cursor),
        2 => near(effective & mapped, home, cursor),
        3 => near(limit, record.target(), record.target() as u64 + 1),
        0 | 1 => near(limit, home, cursor),
        mode => {
            let first = if mode == 6 { free.place(record, limit, 0).map(|node| (0, node)) } else { None };
            match first.or_else(|| free.round(record, limit, cursor)) {
                Some((place, node)) => Some((node, if mode == 4 { 0 } else { place + 1 })),
                None if record.closes() => near(limit, home, 0),
                None => None,
            }
        }
    }
}

/// Release.
pub fn release_at<const KEPT: bool>(
    starts: &Starts,
    nodes: usize,
    pages: &mut [u8],
    free: &mut Free<KEPT>,
    maps: &Maps,
    hints: &mut impl Hints,
    job: usize,
    page: usize,
) -> Out {
    let Some(map) = maps.get(job) else { return refused(2) };
    let Some(map) = JobMap::of(nodes, map) else { return refused(15) };
    if page >= starts[nodes] as usize || pages[page] != job as u8 + 1 {
        return refused(10);
    }
    let node = node_of(starts, nodes, page);
    if !free.give(node, starts[node + 1] - starts[node]) {
        return refused(14);
    }
    pages[page] = 0;
    hints.give(starts, node, page);
    Out { refusal: 0, node: map.number(node), page: page as u32 }
}

/// Fresh.
pub fn fresh_at<const KEPT: bool>(
    starts: &Starts,
    nodes: usize,
    pages: &mut [u8],
    free: &mut Free<KEPT>,
    hints: &mut impl Hints,
) -> Out {
    pages[..starts[nodes] as usize].fill(0);
    free.give_all(starts);
    hints.give_all(starts);
    DONE
}

/// Install, with the first sixteen places as one number, zeros past their length.
pub fn install_at(
    nodes: usize,
    words: &mut [u64; 6],
    map: &[u8; 64],
    mode: u64,
    flag: u64,
    mask: u64,
    length: u64,
    places: u128,
) -> Out {
    let Some(map) = JobMap::of(nodes, map) else { return refused(15) };
    let Some(old) = Record::of(nodes, words) else { return refused(4) };
    let masked = (1..=3).contains(&mode);
    if mode > 6 || flag > 2 || (flag != 0 && (!masked || (mode == 1 && mask == 0))) {
        return refused(5);
    }
    let allowed = old.allowed();
    if allowed == 0 {
        return refused(7);
    }
    let user = if flag == 2 { Some(mask) } else { map.mask(mask) };
    let named = length.min(16) - u64::from(closes(mode, length, places));
    let (Some(user), Some(places)) = (user, map.places(named, places)) else { return refused(6) };
    let misses = flag != 2 && user != 0 && user & allowed == 0;
    let empty = mode > 1 && masked && mask == 0;
    let list = if mode > 3 { length == 0 || length > 16 } else { length != 0 };
    if misses || empty || (!masked && mask != 0) || list {
        return refused(6);
    }
    let effective = if flag == 2 { folded(user, allowed) } else { user & allowed };
    let head = mode | flag << 8 | length << 16;
    *words = [head, user, allowed, effective, places as u64, (places >> 64) as u64];
    DONE
}

/// Rebind.
pub fn rebind_at(nodes: usize, words: &mut [u64; 6], allowed: u64) -> Out {
    let Some(old) = Record::of(nodes, words) else { return refused(4) };
    if allowed & !below(nodes) != 0 {
        return refused(6);
    }
    if allowed == 0 {
        return refused(7);
    }
    let effective = match old.flag() {
        _ if old.user() == 0 => 0,
        1 => old.user() & allowed,
        2 => folded(old.user(), allowed),
        _ => remapped(old.effective(), old.allowed(), allowed),
    };
    if effective == 0 && old.flag() != 1 && old.user() != 0 {
        return refused(9);
    }
    words[2] = allowed;
    words[3] = effective;
    DONE
}

/// Clear.
pub fn clear_at(words: &mut [u64; 6]) -> Out {
    *words = [0; 6];
    DONE
}

/// Request.
pub fn request(
    counts: &[u32],
    cpus: &[u8],
    distances: &[u8],
    pages: &mut [u8],
    jobs: &mut [u64],
    free: &mut [u32],
    maps: &[u8],
    job: usize,
    cpu: usize,
) -> Out {
    let mut starts = [0; 65];
    let machine = Machine::new(&mut starts, counts, cpus, distances, pages.len(), jobs.len());
    match (machine, Lent::new(free, counts.len())) {
        (Some(machine), Some(mut free)) if maps_ok(jobs.len(), maps.len()) => {
            let (jobs, maps) = (jobs.as_chunks_mut().0, maps.as_chunks().0);
            request_at(&machine, pages, jobs, &mut free, maps, &mut First, job, cpu)
        }
        _ => refused(1),
    }
}

/// Release.
pub fn release(
    counts: &[u32],
    pages: &mut [u8],
    jobs: &[u64],
    free: &mut [u32],
    maps: &[u8],
    job: usize,
    page: usize,
) -> Out {
    let mut starts = [0; 65];
    let jobs_ok = jobs_ok(jobs.len()) && maps_ok(jobs.len(), maps.len());
    match Lent::new(free, counts.len()) {
        Some(mut free) if find_starts(&mut starts, counts, pages.len()) && jobs_ok => {
            release_at(&starts, counts.len(), pages, &mut free, maps.as_chunks().0, &mut First, job, page)
        }
        _ => refused(1),
    }
}

/// Fresh.
pub fn fresh(counts: &[u32], pages: &mut [u8], free: &mut [u32]) -> Out {
    let mut starts = [0; 65];
    match Lent::new(free, counts.len()) {
        Some(mut free) if find_starts(&mut starts, counts, pages.len()) => {
            fresh_at(&starts, counts.len(), pages, &mut free, &mut First)
        }
        _ => refused(1),
    }
}

/// The words of a job for install, rebind or clear, or refusal 1 or 2.
fn words_of(nodes: usize, jobs: &mut [u64], job: usize) -> Result<&mut [u64; 6], Out> {
    if nodes == 0 || nodes > 64 || !jobs_ok(jobs.len()) {
        return Err(refused(1));
    }
    jobs.as_chunks_mut().0.get_mut(job).ok_or(refused(2))
}

/// Install.
pub fn install(
    nodes: usize,
    jobs: &mut [u64],
    maps: &[u8],
    job: usize,
    mode: u64,
    flag: u64,
    mask: u64,
    places: &[u8],
) -> Out {
    if !maps_ok(jobs.len(), maps.len()) {
        return refused(1);
    }
    let mut bytes = [0; 16];
    for (byte, place) in bytes.iter_mut().zip(places) {
        *byte = *place;
    }
    let (length, places) = (places.len() as u64, u128::from_le_bytes(bytes));
    words_of(nodes, jobs, job).map_or_else(
        |out| out,
        |words| install_at(nodes, words, &maps.as_chunks().0[job], mode, flag, mask, length, places),
    )
}

/// The map of a job for a call that writes it, or refusal 1 or 2.
fn map_of<'a>(nodes: usize, jobs: &[u64], maps: &'a mut [u8], job: usize) -> Result<&'a mut [u8; 64], Out> {
    if nodes == 0 || nodes > 64 || !jobs_ok(jobs.len()) || !maps_ok(jobs.len(), maps.len()) {
        return Err(refused(1));
    }
    maps.as_chunks_mut().0.get_mut(job).ok_or(refused(2))
}

/// Keep nodes, on a map that is known to be there.
pub fn keep_at(nodes: usize, map: &mut [u8; 64], kept: &[u8]) -> Out {
    refused(if keep(nodes, map, kept) { 0 } else { 15 })
}

/// Set map, likewise.
pub fn set_at(nodes: usize, map: &mut [u8; 64], list: &[u8]) -> Out {
    refused(if set(nodes, map, list) { 0 } else { 15 })
}

/// Keep nodes.
pub fn keep_nodes(nodes: usize, jobs: &[u64], maps: &mut [u8], job: usize, kept: &[u8]) -> Out {
    map_of(nodes, jobs, maps, job).map_or_else(|out| out, |map| keep_at(nodes, map, kept))
}

/// Set map.
pub fn set_map(nodes: usize, jobs: &[u64], maps: &mut [u8], job: usize, list: &[u8]) -> Out {
    map_of(nodes, jobs, maps, job).map_or_else(|out| out, |map| set_at(nodes, map, list))
}

/// Rebind.
pub fn rebind(nodes: usize, jobs: &mut [u64], job: usize, allowed: u64) -> Out {
    words_of(nodes, jobs, job).map_or_else(|out| out, |words| rebind_at(nodes, words, allowed))
}

/// Clear.
pub fn clear(nodes: usize, jobs: &mut [u64], job: usize) -> Out {
    words_of(nodes, jobs, job).map_or_else(|out| out, clear_at)
}
