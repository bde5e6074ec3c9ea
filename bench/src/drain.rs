//! Drain a node (M-107), written for speed: worked out by the counts alone, then made, no page being looked at twice for a colour.

use crate::fast::Jobs;
use crate::hints::pages_of;
use crate::machine::{Machine, Starts};
use crate::maps::{maps_ok, JobMap, Maps};
use crate::masks::below;
use crate::near::by_sort;
use crate::record::Record;
use crate::search::COLOURS;

/// How many bytes are zero: short runs are summed as bytes, so that it becomes vectors.
fn zeros(bytes: &[u8]) -> u32 {
    bytes.chunks(240).map(|run| u32::from(run.iter().map(|byte| u8::from(*byte == 0)).sum::<u8>())).sum()
}

/// Is every count the number of its node's free pages?
fn counts_match(starts: &Starts, pages: &[u8], free: &[u32]) -> bool {
    free.iter().enumerate().all(|(node, count)| zeros(pages_of(starts, pages, node).1) == *count)
}

/// Refusals 6 and 14.
fn tested(machine: &Machine, pages: &[u8], free: &[u32], x: usize) -> Result<(), u8> {
    match x < machine.nodes {
        true if counts_match(machine.starts, pages, free) => Ok(()),
        true => Err(14),
        false => Err(6),
    }
}

/// Where the pages go, by the counts. A rank is a place in near(x); masks go by ranks, so that the first node is the lowest bit.
#[derive(Clone)]
struct Targets<'a> {
    machine: &'a Machine<'a>,
    jobs: &'a Jobs,
    maps: &'a Maps,
    order: [u8; 64],
    reached: usize,
    /// The free pages of each rank, and the ranks that have some.
    left: [u32; 64],
    open: u64,
    /// The ranks that a job may use, for the jobs that were met.
    limits: [u64; 64],
    met: u64,
}

impl<'a> Targets<'a> {
    fn new(machine: &'a Machine, jobs: &'a Jobs, maps: &'a Maps, free: &[u32], x: usize) -> Targets<'a> {
        let (mut order, mut left, mut open) = ([0; 64], [0; 64], 0);
        let others = below(machine.nodes) & !(1 << x);
        let reached = by_sort(machine.row(x), others, x, &mut order).expect("room for all nodes");
        for (rank, node) in order[..reached].iter().enumerate() {
            left[rank] = free[usize::from(*node)];
            open |= u64::from(left[rank] != 0) << rank;
        }
        Targets { machine, jobs, maps, order, reached, left, open, limits: [0; 64], met: 0 }
    }

    /// The ranks that a job may use; none if there is no such job, or its record or map is bad.
    #[inline(never)]
    fn meet(&mut self, job: usize) -> Option<()> {
        let nodes = self.machine.nodes;
        let record = Record::of(nodes, self.jobs.get(job)?)?;
        let limit = record.allowed() & JobMap::of(nodes, self.maps.get(job)?)?.nodes;
        let ranks = self.order[..self.reached].iter().enumerate();
        self.limits[job] = ranks.fold(0, |mask, (rank, node)| mask | (limit >> node & 1) << rank);
        self.met |= 1 << job;
        Some(())
    }

    /// The node that the next page goes to, by the page's byte.
    #[inline]
    fn next(&mut self, byte: u8) -> Option<usize> {
        let job = usize::from(byte) - 1;
        if job >= 64 || self.met >> job & 1 == 0 {
            self.meet(job)?;
        }
        let open = self.limits[job] & self.open;
        let rank = open.trailing_zeros() as usize;
        let left = self.left.get_mut(rank)?;
        *left -= 1;
        self.open ^= u64::from(*left == 0) << rank;
        Some(usize::from(self.order[rank]))
    }

    /// Has every page somewhere to go? Which node it is depends on counts alone: so all is decided before a page is written.
    fn take_all(mut self, held: &[u8]) -> bool {
        held.iter().filter(|byte| **byte != 0).all(|byte| self.next(*byte).is_some())
    }
}

/// Where the search for a free page goes on, for each node and colour, and for each node where no page of the colour is left:
/// no page is given back to a node that takes some, so none before it is free.
struct Spots([[u32; COLOURS + 1]; 64]);

impl Spots {
    fn new(starts: &Starts) -> Spots {
        let mut spots = [[0; COLOURS + 1]; 64];
        for (spots, start) in spots.iter_mut().zip(starts) {
            *spots = [*start, start + 1, start + 2, start + 3, *start];
        }
        Spots(spots)
    }

    /// The lowest free page of a node that has the colour, else the lowest; the node has one.
    #[inline]
    fn page(&mut self, starts: &Starts, pages: &[u8], node: usize, colour: usize) -> usize {
        let (spots, end) = (&mut self.0[node], starts[node + 1] as usize);
        let mut page = spots[colour] as usize;
        while page < end && pages[page] != 0 {
            page += COLOURS;
        }
        spots[colour] = page as u32;
        if page >= end {
            page = spots[COLOURS] as usize;
            while pages[page] != 0 {
                page += 1;
            }
            spots[COLOURS] = page as u32;
        }
        page
    }
}

/// One page that moves: to which node, by which colour, from where and to where.
pub struct Move {
    pub node: usize,
    pub colour: usize,
    pub old: usize,
    pub new: usize,
}

/// Drains, on tables that are known to be in order, with room for so many numbers; tells each move, and gives how many.
pub fn drain_at(
    machine: &Machine,
    pages: &mut [u8],
    jobs: &Jobs,
    free: &mut [u32],
    maps: &Maps,
    x: usize,
    room: usize,
    mut tell: impl FnMut(Move),
) -> Result<usize, u8> {
    let starts = machine.starts;
    tested(machine, pages, free, x)?;
    let mut targets = Targets::new(machine, jobs, maps, free, x);
    let (start, held) = pages_of(starts, pages, x);
    let (all, moves) = (start..start + held.len(), held.len() - free[x] as usize);
    if !targets.clone().take_all(held) {
        return Err(17);
    }
    if room < 2 * moves {
        return Err(11);
    }
    let mut spots = Spots::new(starts);
    for old in all {
        let byte = pages[old];
        if byte != 0 {
            let (node, colour) = (targets.next(byte).expect("as tried"), usize::from(byte - 1) % COLOURS);
            let new = spots.page(starts, pages, node, colour);
            (pages[new], pages[old]) = (byte, 0);
            free[node] -= 1;
            tell(Move { node, colour, old, new });
        }
    }
    free[x] += moves as u32;
    Ok(moves)
}

/// Drain; gives how many pages moved, or the refusal.
#[inline(never)]
pub fn drain(
    counts: &[u32],
    distances: &[u8],
    pages: &mut [u8],
    jobs: &[u64],
    free: &mut [u32],
    maps: &[u8],
    node: usize,
    moves: &mut [u32],
) -> Result<usize, u8> {
    let mut starts = [0; 65];
    // No CPU table is lent: one CPU on node 0 keeps the rules.
    let machine = Machine::new(&mut starts, counts, &[0], distances, pages.len(), jobs.len()).ok_or(1)?;
    if free.len() != counts.len() || !maps_ok(jobs.len(), maps.len()) {
        return Err(1);
    }
    let (jobs, maps, room) = (jobs.as_chunks().0, maps.as_chunks().0, moves.len());
    let mut pairs = moves.as_chunks_mut().0.iter_mut();
    drain_at(&machine, pages, jobs, free, maps, node, room, |one| {
        if let Some(pair) = pairs.next() {
            *pair = [one.old as u32, one.new as u32];
        }
    })
}
