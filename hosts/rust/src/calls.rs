//! The public calls, over slices that the host lends.

use crate::answer::{Answer, Order, Refusal};
use crate::ffi::{self, HostAnswer, HostNumber, HostOrder};
use crate::node::{AppNode, SysNode};

/// Node and page of an answer that names none.
pub const NO_NODE: u8 = 255;
pub const NO_PAGE: u32 = u32::MAX;

/// What was granted: a node by the job's own number.
pub fn granted(node: u8, page: u32) -> Answer {
    Answer::Granted { node: AppNode(node), page }
}

/// What was given back; the node is FF where it is outside the job's map.
pub fn released(node: u8, page: u32) -> Answer {
    Answer::Released { node: (node != NO_NODE).then_some(AppNode(node)), page }
}

/// The refusal of a number that is not 0.
pub fn refusal_of(number: u8) -> Refusal {
    match Refusal::of_number(number) {
        Some(refusal) => refusal,
        None => panic!("the library answered refusal {number}, which the papers do not have"),
    }
}

/// A refusal returns its number alone; what was done is said by `done`.
#[inline]
fn answer(raw: HostAnswer, done: fn(u8, u32) -> Answer) -> Answer {
    if raw.refusal == 0 {
        return done(raw.node, raw.page);
    }
    debug_assert!(raw.node == NO_NODE && raw.page == NO_PAGE, "a refusal with node {} page {}", raw.node, raw.page);
    Answer::Refused(refusal_of(raw.refusal))
}

/// An answer that names no node and no page.
fn done(node: u8, page: u32) -> Answer {
    debug_assert!(node == NO_NODE && page == NO_PAGE, "done with node {node} page {page}");
    Answer::Done
}

/// The number, or the refusal alone.
fn number(raw: HostNumber) -> Result<u64, Refusal> {
    if raw.refusal == 0 {
        return Ok(raw.value);
    }
    debug_assert!(raw.value == 0, "a refusal with the number {}", raw.value);
    Err(refusal_of(raw.refusal))
}

/// The order, or the refusal alone.
#[inline]
fn order(raw: HostOrder) -> Result<Order, Refusal> {
    if raw.refusal == 0 {
        return Ok(Order { nodes: usize::from(raw.nodes), rounds: raw.rounds });
    }
    debug_assert!(raw.nodes == 0 && raw.rounds == 0, "a refusal with {} nodes, {} rounds", raw.nodes, raw.rounds);
    Err(refusal_of(raw.refusal))
}

/// Takes one page for a job, by its record's search order as seen from a CPU, from the allowed nodes that are in its map;
/// the node is told by the job's own number. `free` has the number of free pages of each node and is kept up; nodes counted
/// 0 are passed over. In the node that serves, the page is the lowest free one whose offset in the node, mod 4, is the job's
/// number mod 4; if there is none, the lowest free page.
#[inline]
pub fn request(
    counts: &[u32],
    cpus: &[u8],
    distances: &[u8],
    pages: &mut [u8],
    jobs: &mut [u64],
    free: &mut [u32],
    maps: &[u8],
    job: usize,
    cpu: usize,
) -> Answer {
    answer(ffi::request(counts, cpus, distances, pages, jobs, free, maps, job, cpu), granted)
}

/// Why a request of the job from the CPU would be served where it would be: writes a byte for each node of the machine, the
/// number of a `Reason`; gives how many. One node is chosen if the request would be granted, none if it would be refused 8,
/// which is no refusal here. Each reason is true of the search order if `free` matches the pages. Changes nothing but `out`;
/// 64 bytes are always enough.
#[inline]
pub fn reasons(
    counts: &[u32],
    cpus: &[u8],
    distances: &[u8],
    pages: &[u8],
    jobs: &[u64],
    free: &[u32],
    maps: &[u8],
    job: usize,
    cpu: usize,
    out: &mut [u8],
) -> Result<usize, Refusal> {
    number(ffi::reasons(counts, cpus, distances, pages, jobs, free, maps, job, cpu, out)).map(|nodes| nodes as usize)
}

/// Gives a page back that the job holds; `free` is kept up. The node is told by the job's own number, if it has one for it.
#[inline]
pub fn release(
    counts: &[u32],
    pages: &mut [u8],
    jobs: &[u64],
    free: &mut [u32],
    maps: &[u8],
    job: usize,
    page: usize,
) -> Answer {
    answer(ffi::release(counts, pages, jobs, free, maps, job, page), released)
}

/// Frees every page of the machine and makes its free counts: what a host begins with. Bytes past the last page stay.
#[inline]
pub fn fresh(counts: &[u32], pages: &mut [u8], free: &mut [u32]) -> Answer {
    answer(ffi::fresh(counts, pages, free), done)
}

/// Empties a node before its board is pulled: each held page of it, from the lowest up, moves to the nearest node with room that
/// its job may use and has in its map, other than this one; there it gets a page as by `request`. Writes old and new number of
/// each page, in the order moved, at the start of `moves`, and gives how many pages moved: two numbers each, so twice the node's
/// pages are always enough. All is worked out before anything is written: where one page has nowhere to go none moves. `free` is
/// kept up. Jobs' policies and cursors play no part and stay. The node by the machine's number.
pub fn drain(
    counts: &[u32],
    distances: &[u8],
    pages: &mut [u8],
    jobs: &[u64],
    free: &mut [u32],
    maps: &[u8],
    node: usize,
    moves: &mut [u32],
) -> Result<usize, Refusal> {
    number(ffi::drain(counts, distances, pages, jobs, free, maps, node, moves)).map(|moved| moved as usize)
}

/// Sets a job's policy: a mode of `mode`, a flag of `flag`, a user mask or places. Places, and the bits of a mask that is not
/// relative, are the job's own numbers; the record gets the machine's. In mode `LIST` the last place may be `AppNode::ANY`.
#[inline]
pub fn install(
    nodes: usize,
    jobs: &mut [u64],
    maps: &[u8],
    job: usize,
    mode: u64,
    flag: u64,
    mask: u64,
    places: &[AppNode],
) -> Answer {
    answer(ffi::install(nodes, jobs, maps, job, mode, flag, mask, places), done)
}

/// The tenant's call: its job keeps some of the nodes of its map, one or more, in rising order, and drops the others.
pub fn keep_nodes(nodes: usize, jobs: &[u64], maps: &mut [u8], job: usize, kept: &[AppNode]) -> Answer {
    answer(ffi::keep_nodes(nodes, jobs, maps, job, kept), done)
}

/// The administrator's call: gives a job a map, whatever it had before; 1 to 64 different nodes of the machine.
pub fn set_map(nodes: usize, jobs: &[u64], maps: &mut [u8], job: usize, list: &[SysNode]) -> Answer {
    answer(ffi::set_map(nodes, jobs, maps, job, list), done)
}

/// Sets the nodes that a job may use, by the machine's numbers.
#[inline]
pub fn rebind(nodes: usize, jobs: &mut [u64], job: usize, allowed: u64) -> Answer {
    answer(ffi::rebind(nodes, jobs, job, allowed), done)
}

/// Makes a job's record fresh; the pages it holds stay held.
#[inline]
pub fn clear(nodes: usize, jobs: &mut [u64], job: usize) -> Answer {
    answer(ffi::clear(nodes, jobs, job), done)
}

/// The k-th name of a note, k from 0 and text before data, as that part of the note itself, without its zero; empty if the
/// note is bad or has no such name.
pub fn name(note: &[u8], k: usize) -> &[u8] {
    let part = ffi::name(note, k);
    &note[part.start..][..part.len]
}

/// Turns a list of a note, `which::TEXT` or `which::DATA`, into places for `install` in mode `LIST`, by the job's own
/// numbers; gives how many. `names` has a name for each node of the machine, each with a zero after it. ANY becomes
/// `AppNode::ANY`. No places at all: the list is empty, or names what is not in the job's map, and the job goes by default.
pub fn note_places(
    nodes: usize,
    jobs: &[u64],
    maps: &[u8],
    names: &[u8],
    note: &[u8],
    job: usize,
    which: u64,
    out: &mut [AppNode],
) -> Result<usize, Refusal> {
    number(ffi::note_places(nodes, jobs, maps, names, note, job, which, out)).map(|places| places as usize)
}

/// Writes the note of a text and a data list, each of up to 16 names with a zero after each; gives its length.
pub fn write_note(text: &[u8], data: &[u8], out: &mut [u8]) -> Result<usize, Refusal> {
    number(ffi::write_note(text, data, out)).map(|length| length as usize)
}

/// The mask that a node list stands for.
pub fn read_nodes(nodes: usize, allowed: u64, text: &[u8]) -> Result<u64, Refusal> {
    number(ffi::read_nodes(nodes, allowed, text))
}

/// Writes a mask as a node list; gives the length of the text.
pub fn write_nodes(nodes: usize, mask: u64, out: &mut [u8]) -> Result<usize, Refusal> {
    number(ffi::write_nodes(nodes, mask, out)).map(|length| length as usize)
}

/// Writes near(x) over a set of the machine's nodes, x being `node`, a byte for each node; gives how many, and in how many rounds of its
/// loops: one for each node of the machine, then one for each node listed other than x. 64 bytes are always enough.
#[inline]
pub fn near(nodes: usize, distances: &[u8], set: u64, node: usize, out: &mut [u8]) -> Result<Order, Refusal> {
    order(ffi::near(nodes, distances, set, node, out))
}

/// Makes all calls of a list (see `words_of`) and writes a word for each answer; gives how many. With no call made: bad
/// tables are refused 1, an unknown kind of call and a list that is cut short 13, too few answer words 11.
pub fn replay(
    counts: &[u32],
    cpus: &[u8],
    distances: &[u8],
    pages: &mut [u8],
    jobs: &mut [u64],
    free: &mut [u32],
    maps: &mut [u8],
    calls: &[u64],
    answers: &mut [u64],
) -> Result<usize, Refusal> {
    number(ffi::replay(counts, cpus, distances, pages, jobs, free, maps, calls, answers)).map(|ran| ran as usize)
}

/// Runs a whole journal and writes its answers, 12 bytes each; gives their length. Refused 11 exactly when the output is
/// shorter than the answers; 12 bytes for each 32 of the input, and 12 more, are always enough.
pub fn journal(input: &[u8], output: &mut [u8]) -> Result<usize, Refusal> {
    number(ffi::journal(input, output)).map(|length| length as usize)
}
